"""Plans on OpenIPMI's simulator, through clients/controller-bridge and a lossy link: run and undone, applied and reverted, and its own records as a plan."""
import contextlib
import re
import shlex
import subprocess
import tempfile
import time
import tomllib

import program
from lossy_link import LossyLink, Troubles

from .parts import Failure
from .programs import TOP, called, free_port, started

# The simulator's users and ports. The plan sets a limit of the second channel, since that of the first would lock the bridge out.
CHANNELS = """
name "sim"
set_working_mc 0x20
  startlan 1
    addr 127.0.0.1 {asked}
    priv_limit admin
    allowed_auths_admin none md5
    guid a123456789abcdefa123456789abcdef
  endlan
  startlan 2
    addr 127.0.0.1 {other}
    priv_limit admin
    allowed_auths_admin none md5
    guid a123456789abcdefa123456789abcdef
  endlan
  user 1 true "" "test" user 10 none md5
  user 2 true "operator" "test" admin 10 none md5
  user 3 true "guest" "test" user 10 none md5
"""
SENSORS = """
mc_setbmc 0x20
mc_add 0x20 0 no-device-sdrs 0x23 9 8 0x9f 0x1291 0xf02
sensor_add 0x20 0 5 1 1
sensor_set_value 0x20 0 5 0x40 0
sensor_set_threshold 0x20 0 5 settable 111111 0x6e 0x5f 0x50 0x05 0x0a 0x14
sensor_set_hysteresis 0x20 0 5 settable 2 2
sensor_set_event_support 0x20 0 5 enable scanning per-state 000111111111111 000111111111111 000001000000000 000000000000000
mc_enable 0x20
"""
PLAN = f"{TOP}/examples/six_kinds.toml"
# What the link between the manager and the bridge does.
HARSH = Troubles(lose=8, repeat=15, delay=15)
LOSING = Troubles(lose=8)
# A step behind those that the simulator refuses over LAN, and where the plan halts then.
REFUSED_STEP = '\n[[step]]\nkind = "global-enables"\nvalue = 0\n'
HALTED = "Halted 6 Refused D4"
# How the calls that greet end of the same two plans, and how long a quiet turn of theirs is, in milliseconds.
APPLIED = 0, "done: 6 steps; to take them back:"
APPLIED_HALTED = 10, "halted at step 7 of 7: BMC global enables refused (D4h, insufficient privilege): nothing of it was set; steps 1 to 6 stand:"
WAIT, LONG_WAIT = "500", "5000"
# Each of some thousand Gets of a show is a session of ipmitool.
LONGEST_SHOW = 600
# Kinds of record of which the simulator shows some.
SHOWN = {"thresholds", "hysteresis", "event-enable", "user-access", "user-name", "channel-access"}
# What shows the six records: Get commands, each with the bytes of its reply that are configuration.
SETTINGS = [
    ("0x04 0x27 5", slice(1, 7)),
    ("0x04 0x25 5 0xff", slice(0, 2)),
    ("0x04 0x29 5", slice(0, 5)),
    ("0x06 0x46 3", slice(0, 16)),
    ("0x06 0x44 2 3", slice(3, 4)),
    ("0x06 0x41 2 0x80", slice(0, 2)),
]
# A run that ends Unsettled hears on for its turns, of 200 ms each.
TURNS = "250"
LONGEST_RUN = 60
# After how many seconds the bridge forgets a requester: the plan's nine sendings take less.
FORGET = 2


def settings(ask, room):
    """Returns the configuration that the simulator shows."""
    shown = []
    for words, part in SETTINGS:
        status, text = called([*ask, *words.split()], room)
        if status != 0:
            raise Failure(f"{words} ends with {status}: {text}")
        shown.append(text.split()[part])
    return shown


@contextlib.contextmanager
def simulator(ipmi_sim, room):
    """Gives the words that ask a fresh simulator."""
    state = tempfile.mkdtemp(dir=room)
    asked, other = free_port(), free_port()
    for name, text in (("lan.conf", CHANNELS.format(asked=asked, other=other)), ("sensors", SENSORS)):
        with open(f"{state}/{name}", "w", encoding="utf-8") as file:
            file.write(text)
    ask = ["ipmitool", "-I", "lanplus", "-C", "3", "-H", program.LOOPBACK, "-p", str(asked), "-U", "operator", "-P", "test", "raw"]
    with started([ipmi_sim, "-c", f"{state}/lan.conf", "-f", f"{state}/sensors", "-s", state, "-n"]):
        until = time.monotonic() + 20
        while called([*ask, "0x06", "0x01"], room)[0] != 0:
            if time.monotonic() > until:
                raise Failure("ipmi_sim doesn't answer")
        yield ask


def expect_phase(tests, words, room, wanted):
    """Runs `bmcnet`, and tests that its phase line begins so."""
    status, text = called(words, room, LONGEST_RUN, subprocess.DEVNULL)
    is_right = status == 0 and text.startswith(f"phase {wanted}")
    tests.expect(is_right, f"{shlex.join(words)} ends with {status} and prints {text!r}, and not phase {wanted}")


def test_plan(tests, bmcnet, ask, port, plan, wanted, room):
    """Runs a plan and undoes it, and compares what the simulator shows."""
    undo, silent = f"{room}/undo.txt", str(free_port())
    before = settings(ask, room)
    expect_phase(tests, [bmcnet, "run", plan, port, silent, TURNS, undo], room, wanted)
    changed = settings(ask, room)
    tests.expect(all(old != new for old, new in zip(before, changed)), f"the run changed {before} to {changed}")
    expect_phase(tests, [bmcnet, "undo", undo, port, silent, TURNS], room, "Undone")
    after = settings(ask, room)
    tests.expect(before == after, f"the settings were {before} and are {after}")


def expect_said(tests, words, room, status, lines):
    """Makes a call of `bmcnet`, and tests its status, and the last line that it prints."""
    ended, text = called(words, room, LONGEST_RUN)
    is_right = ended == status and text.endswith(f"{lines}\n")
    tests.expect(is_right, f"{shlex.join(words)} ends with {ended} and prints {text!r}, and not {status} and {lines!r}")


def test_applied(tests, bmcnet, ask, port, plan, ends, room):
    """Applies a plan and reverts it by calls that greet, and compares what the simulator shows."""
    undo = f"{room}/applied.undo"
    status, said = ends
    before = settings(ask, room)
    expect_said(tests, [bmcnet, "apply", "--wait", WAIT, "--undo", undo, plan, port], room, status, f"{said} bmcnet revert {undo} {port}")
    changed = settings(ask, room)
    tests.expect(all(old != new for old, new in zip(before, changed)), f"the plan changed {before} to {changed}")
    back = f"taken back: 6 steps; {undo}.done has the requests that did it, and {undo} is empty"
    expect_said(tests, [bmcnet, "revert", "--wait", WAIT, undo, port], room, 0, back)
    after = settings(ask, room)
    tests.expect(before == after, f"the settings were {before} and are {after}")


def test_shown(tests, bmcnet, port, room):
    """Has the simulator's records as a plan, of which a preview says that it would change nothing."""
    plan = f"{room}/shown.toml"
    status, said = called([bmcnet, "show", "--wait", LONG_WAIT, "--out", plan, port], room, LONGEST_SHOW)
    told = re.fullmatch(r"([0-9]+) records in 1 plan, [0-9]+ remarks?\n", said)
    tests.expect(status == 0 and told, f"show ends with {status} and says {said!r}")
    with open(plan, "rb") as file:
        steps = tomllib.load(file)["step"]
    kinds = {step["kind"] for step in steps}
    tests.expect(kinds >= SHOWN and len(steps) == int(told[1]), f"{told[1]} records are shown, and the plan has {len(steps)} steps, of {kinds}")
    last = f"0 steps would change something, {len(steps)} nothing, 0 can't be done; whether the controller takes a change isn't known before it is sent"
    expect_said(tests, [bmcnet, "preview", "--wait", LONG_WAIT, plan, port], room, 0, last)


def halting_plan(room):
    """Writes the plan with a last step that the simulator refuses."""
    halting = f"{room}/halting.toml"
    with open(PLAN, encoding="utf-8") as plan, open(halting, "w", encoding="utf-8") as file:
        file.write(plan.read() + REFUSED_STEP)
    return halting


def test_simulator(tests, bmcnet, seeds, room):
    ipmi_sim, ipmitool = tests.part("ipmi_sim"), tests.part("ipmitool")
    if not ipmi_sim or not ipmitool:
        return
    plans = ((PLAN, "Done"), (halting_plan(room), HALTED))
    with simulator(ipmi_sim, room) as ask:
        bridge = [f"{TOP}/clients/controller-bridge", "--plan", PLAN, "--forget", str(FORGET), "0", "--", *ask]
        with started(bridge, r"ipmb on [0-9.]+:([0-9]+)") as told:
            for seed in seeds:
                test_over_link(tests, bmcnet, ask, plans, LossyLink(int(told[1]), seed, HARSH), room)
            test_shown(tests, bmcnet, told[1], room)
        # No copy of a request comes late here, and the bridge forgets nobody.
        with started([*bridge[:3], "0", "--", *ask], r"ipmb on [0-9.]+:([0-9]+)") as told, LossyLink(int(told[1]), 0, LOSING) as link:
            for (plan, _), ends in zip(plans, (APPLIED, APPLIED_HALTED)):
                test_applied(tests, bmcnet, ask, str(link.port), plan, ends, room)


def test_over_link(tests, bmcnet, ask, plans, link, room):
    """Runs and undoes these plans over a link."""
    with link:
        for plan, wanted in plans:
            test_plan(tests, bmcnet, ask, str(link.port), plan, wanted, room)
            # A run begins at number 0, so what is kept of the one before is to be forgotten.
            time.sleep(FORGET + 0.5)
        is_met = all(link.counts[name] for name in ("lose", "repeat", "delay"))
        tests.expect(is_met, f"the link was to lose, repeat and delay: {link.counts}")
