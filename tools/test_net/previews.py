"""`preview`: what is told of each step of a plan, that nothing but greetings and Gets is carried out meanwhile, and how it ends where nothing can be told."""
import json
import re
import socket
import subprocess

from lossy_link import Link

from . import servers
from .applies import EACH_KIND, LONG_WAIT, ONE_OF_EACH, RETRIES, SERVED_TURNS, SHORT_WAIT, apply, revert
from .controllers import LINK_WAIT, SOME_WAIT, WATCHDOG, Busy, Silent, Troubled
from .greetings import ATTRIBUTE, NOBODY, ON_IPMB, ON_SMBUS, POLICY, WINDOWS, critical, requests_at, set_critical
from .plans import IPMB, SMBUS, Step, steps_by, text_of
from .servers import HOST, Asker, Server, call, expect

# What the sample board's sensor 5 has already, and another value of its attribute 2, which is 30.
KEPT = Step('kind = "hysteresis"\nsensor = 5\npositive = 2\nnegative = 2\n', None)
DELAY = Step('kind = "bios-attribute"\nhandle = 2\nnumber = 40\n', None)
UNKNOWN = "whether the controller takes a change isn't known before it is sent\n"
# A process that may have so many files reads its plan, and gets one socket.
FEW_FILES = 4


def preview(program, ports, plan, *options, wait=LONG_WAIT):
    return call(program, "preview", "--wait", wait, *options, plan, *ports)


def counts(changes, same, barred):
    """Returns the last line."""
    return f"{changes} step{'s' if changes != 1 else ''} would change something, {same} nothing, {barred} can't be done; {UNKNOWN}"


def expect_served(server, count):
    """Ends a server: so many requests were carried out, and each record is as the board file has it."""
    expect("serve", server.ended(), (0, f"served {count}\nrecords same\n", ""))


# Steps of which each comes otherwise, two and three of them on one record, and what is told of them on the sample board.
STEPS = [critical(0x5A), KEPT, critical(0x5A), critical(0x5C), NOBODY, WATCHDOG, POLICY, DELAY, POLICY]
TOLD = (
    "step 1: sensor 5 upper critical: 95 (5Fh) -> 90 (5Ah)\n"
    "step 2: same: sensor 5 positive-going hysteresis: 2 (02h); negative-going hysteresis: 2 (02h)\n"
    "step 3: same: sensor 5 upper critical: 90 (5Ah)\n"
    "step 4: sensor 5 upper critical: 90 (5Ah) -> 92 (5Ch)\n"
    "step 5: refused: sensor 77 thresholds can't be read (CBh, not present)\n"
    "step 6: can't be taken back: watchdog timer has a value that no request brings back\n"
    "step 7: power restore policy: previous -> always on\n"
    'step 8: attribute 2 ("Delay"): 30 -> 40\n'
    "step 9: same: power restore policy: always on\n"
)
# For the names of sensors a reservation is asked for and the only record, and for those of attributes two tables of a part each.
SENSOR_NAMES, ATTRIBUTE_NAMES = 2, 2
# Its greetings, a Get for each step, and the names.
ASKED = ON_IPMB + ON_SMBUS + len(STEPS) + SENSOR_NAMES + ATTRIBUTE_NAMES


def tells_steps(program, folder, board):
    """A plan is told step by step, each by what those before it leave, and nothing but greetings and Gets is carried out."""
    plan = servers.write(f"{folder}/plan.toml", text_of(STEPS, RETRIES))
    with Server(program, board, SERVED_TURNS) as server:
        expect("preview", preview(program, server.ports, plan), (10, TOLD + counts(4, 3, 2), ""))
        expect_served(server, ASKED)


def tells_what_goes(program, folder, board):
    """Where each step can be done the status is 0, whether any changes something or none does; and P1 may be left out where no Get goes on SMBus."""
    with Server(program, board, SERVED_TURNS) as server:
        for steps, told, last in [
            ([critical(0x5A), KEPT], TOLD[: TOLD.index("step 3")], counts(1, 1, 0)),
            ([critical(0x5F)], "step 1: same: sensor 5 upper critical: 95 (5Fh)\n", counts(0, 1, 0)),
        ]:
            plan = servers.write(f"{folder}/plan.toml", text_of(steps, RETRIES))
            expect("preview", preview(program, server.ports[:1], plan), (0, told + last, ""))
        expect_served(server, 2 * (ON_IPMB + SENSOR_NAMES) + 3)


def tells_objects(program, folder, board):
    """With `--json` an object a line is told of each step, with exactly the members that there is something to say of."""
    plan = servers.write(f"{folder}/plan.toml", text_of(STEPS, RETRIES))
    thresholds, policy = "sensor 5 thresholds", "power restore policy"
    wanted = [
        {"step": 1, "record": thresholds, "outlook": "changes", "does": "sensor 5 upper critical: 95 (5Fh) -> 90 (5Ah)"},
        {"step": 2, "record": "sensor 5 hysteresis", "outlook": "same", "does": "sensor 5 positive-going hysteresis: 2 (02h); negative-going hysteresis: 2 (02h)"},
        {"step": 3, "record": thresholds, "outlook": "same", "does": "sensor 5 upper critical: 90 (5Ah)"},
        {"step": 4, "record": thresholds, "outlook": "changes", "does": "sensor 5 upper critical: 90 (5Ah) -> 92 (5Ch)"},
        {"step": 5, "record": "sensor 77 thresholds", "outlook": "get refused", "code": 0xCB, "meaning": "not present"},
        {"step": 6, "record": "watchdog timer", "outlook": "not restorable"},
        {"step": 7, "record": policy, "outlook": "changes", "does": "power restore policy: previous -> always on"},
        {"step": 8, "record": "attribute 2", "name": "Delay", "outlook": "changes", "does": "attribute 2: 30 -> 40"},
        {"step": 9, "record": policy, "outlook": "same", "does": "power restore policy: always on"},
    ]
    with Server(program, board, SERVED_TURNS) as server:
        status, out, err = preview(program, server.ports, plan, "--json")
        expect("preview --json", (status, out[-1:], err), (10, "\n", ""))
        expect("its objects", [list(json.loads(line).items()) for line in out.split("\n")[:-1]], [list(one.items()) for one in wanted])
        expect_served(server, ASKED)


def sensor_record(number, kind, owner, sensor, code, name):
    """Returns the digits of a sensor's record (IPMI 2.0, "Sensor Data Record Formats"): its id, the version 51h, its type, how many bytes follow, the
    sensor's owner and logical unit, the sensor, and at its offset the id string behind its type and length."""
    place = {0x01: 47, 0x02: 31, 0x03: 17}[kind]
    body = bytes([owner, 0, sensor]).ljust(place - 5, b"\0") + bytes([code]) + name
    return (number.to_bytes(2, "little") + bytes([0x51, kind, len(body)]) + body).hex()


def names_sensors(program, folder, board):
    """A sensor's name is its record's, in bytes or in six bits a character, with what isn't printable ASCII escaped. Records of another controller's sensors
    name none, and behind the last name that is wanted no record is read."""
    records = [
        sensor_record(1, 0x01, 0x82, 5, 0xC5, b"other"),
        sensor_record(2, 0x01, 0x20, 5, 0xCA, b"CPU 1 temp"),
        # The standard's example of six bits a character.
        sensor_record(3, 0x02, 0x20, 7, 0x84, bytes.fromhex("29DCA6")),
        sensor_record(4, 0x03, 0x20, 77, 0xC3, b'C"\xe9'),
        sensor_record(5, 0x01, 0x20, 9, 0xC4, b"last"),
    ]
    named = servers.write(f"{folder}/named.toml", servers.read(board).replace('sdr = ["010051C00100"]', "sdr = " + json.dumps(records)))
    seven = Step('kind = "hysteresis"\nsensor = 7\npositive = 1\nnegative = 1\n', None)
    plan = servers.write(f"{folder}/plan.toml", text_of([critical(0x5A), NOBODY, seven], RETRIES))
    with Server(program, named, SERVED_TURNS) as server:
        ended, out, err = preview(program, server.ports[:1], plan)
        lines = out.split("\n")
        expect("preview", (ended, err, lines[:2]), (10, "", [
            'step 1: sensor 5 ("CPU 1 temp") upper critical: 95 (5Fh) -> 90 (5Ah)',
            'step 2: refused: sensor 77 ("C\\x22\\xE9") thresholds can\'t be read (CBh, not present)',
        ]))
        expect("the third step", 'sensor 7 ("IPMI") ' in lines[2], True)
        # A reservation, the beginnings of four records, and three names.
        expect_served(server, ON_IPMB + 3 + 8)


def sees_anew(program, folder, board):
    """A second preview shows what somebody set meanwhile, and no reply that the controller kept of the first."""
    plan = servers.write(f"{folder}/plan.toml", text_of([critical(0x5A)], RETRIES))
    with Server(program, board, SERVED_TURNS) as server, Asker(server.ports) as asker:
        for value, told in (0x5F, "95 (5Fh) -> 90 (5Ah)"), (0x57, "87 (57h) -> 90 (5Ah)"), (0x5F, "95 (5Fh) -> 90 (5Ah)"):
            set_critical(asker, value)
            said = f"step 1: sensor 5 upper critical: {told}\n{counts(1, 0, 0)}"
            expect("preview", preview(program, server.ports[:1], plan), (0, said, ""))
        expect_served(server, 3 * (ON_IPMB + 1 + SENSOR_NAMES) + sum(asker.asked))


def steps_told(text):
    """Returns the lines of the steps, without the names of sensors and attributes."""
    return [re.sub(r' \("[^"]*"\)', "", line) for line in text.split("\n") if line.startswith("step ")]


def tells_what_is_done(program, folder, board, plan):
    """What a preview tells of each step that changes something is what `apply` says that the step did, and of the others nothing is changed."""
    with Server(program, board, SERVED_TURNS, "--periods") as server:
        status, out, err = preview(program, server.ports, plan)
        told = steps_told(out)
        expect("preview", (status, err, out.count("\n")), (0, "", len(told) + 1))
        file = f"{folder}/plan.undo"
        status, _, err = apply(program, server.ports, plan, "--undo", file)
        did = steps_told(err)
        expect("apply", (status, len(did)), (0, len(told)))
        changes = [line for line in told if ": same: " not in line]
        expect("what was done", [line for line in did if line in changes], changes)
        # What stays as it is has one value in place of two, or the same value twice.
        same = [line for line in did if line not in changes]
        expect("what stayed as it was", [line for line in same if any(old != new for old, new in re.findall(r": ([^;]*?) -> ([^;]*)", line))], [])
        expect("revert", revert(program, server.ports, file)[0], 0)
        expect("serve", server.ended()[1].split("\n")[1:], ["records same", ""])


def many_kinds(program, folder, board, seed):
    """So it is of plans of many kinds of records, each several times."""
    plan = servers.write(f"{folder}/plan.toml", text_of(steps_by(f"previews {seed}", 20, 30), RETRIES))
    tells_what_is_done(program, folder, board, plan)


def each_kind(program, folder):
    """So it is of a plan with a step of each kind."""
    plan = servers.write(f"{folder}/each.toml", "retries = 3\n" + "".join(f"\n[[step]]\n{step}\n" for step in EACH_KIND))
    board = servers.write(f"{folder}/board.toml", servers.read(ONE_OF_EACH).replace("watchdog = [0,", "watchdog = [4,"))
    tells_what_is_done(program, folder, board, plan)


def over_links(program, folder, board, seed):
    """Over links that lose, repeat and delay the same is told as over links that don't."""
    plan = servers.write(f"{folder}/plan.toml", text_of([*STEPS, *steps_by(f"previews over links {seed}", 6, 10)], RETRIES))
    with Server(program, board, SERVED_TURNS) as server:
        said = preview(program, server.ports, plan)
        expect("preview", (said[0], said[1].startswith(TOLD)), (10, True))
        with Troubled(IPMB, server.ports[IPMB], seed, True) as ipmb, Troubled(SMBUS, server.ports[SMBUS], seed, True) as smbus:
            expect("preview over links", preview(program, (ipmb.port, smbus.port), plan, "--again", 2, wait=LINK_WAIT), said)
            met = ipmb.counts + smbus.counts
        expect("serve", server.ended()[1].split("\n")[1:], ["records same", ""])
    return {name: met[name] for name in ("lost", "repeated", "held")}


class MuteBehind(Link):
    """A link over which nothing goes behind so many datagrams."""

    def __init__(self, server, most):
        super().__init__(server)
        self.left = most

    def hear(self, seen):
        if self.left > 0:
            self.left -= 1
            self.hand_on(seen)


def goes_silent(program, folder, board):
    """A controller goes silent midway: which Get has no answer is said, nothing is told of any step, and the status is 11."""
    plan = servers.write(f"{folder}/plan.toml", text_of([critical(0x5A), KEPT, POLICY], 1))
    # The greeting and the first Get are answered.
    carried = ON_IPMB + 1
    said = "no answer to the Get of step 2, sensor 5 hysteresis; nothing was set\n"
    for options in [], ["--json"], ["--again", 1]:
        with Server(program, board, SERVED_TURNS) as server, MuteBehind(server.ports[IPMB], 2 * carried) as link:
            expect("preview", preview(program, [link.port], plan, *options, wait=SOME_WAIT), (11, "", said))
            expect_served(server, carried)


def nobody_answers(program, folder, board):
    """Nobody answers a greeting: on which bus is said, and the status is 11."""
    plan = servers.write(f"{folder}/plan.toml", text_of([POLICY, ATTRIBUTE], 1))
    with Server(program, board, SERVED_TURNS) as server, Silent(server.ports[IPMB]) as ipmb, Silent(server.ports[SMBUS]) as smbus:
        said = f"no answer on ipmb, port {ipmb.port}; nothing was set\n"
        expect("preview", preview(program, (ipmb.port, smbus.port), plan, wait=SHORT_WAIT), (11, "", said))
        said = f"no answer on smbus, port {smbus.port}; nothing was set\n"
        expect("preview", preview(program, (server.ports[IPMB], smbus.port), plan, "--json"), (11, "", said))
        expect_served(server, ON_IPMB)


def is_busy(program, folder, board):
    """Eight others are being served: that is said, and the status is 11. A controller that is busy at first only is asked again."""
    plan = servers.write(f"{folder}/plan.toml", text_of([critical(0x5A)], RETRIES))
    told = f"step 1: sensor 5 upper critical: 95 (5Fh) -> 90 (5Ah)\n{counts(1, 0, 0)}"
    with Server(program, board, SERVED_TURNS) as server, Busy(server.ports[IPMB], RETRIES) as link:
        expect("preview of one that is busy at first", preview(program, [link.port], plan, wait=LINK_WAIT), (0, told, ""))
        expect_served(server, ON_IPMB + 1 + SENSOR_NAMES)
    with Server(program, board, SERVED_TURNS) as server:
        askers = [Asker(server.ports, 0x42 + 2 * place, 0x0C + place) for place in range(WINDOWS)]
        try:
            for asker in askers:
                asker.get(*POLICY.get)
            ipmb = server.ports[IPMB]
            said = f"busy on ipmb, port {ipmb}: eight others are being served there; nothing was set\n"
            expect("preview", preview(program, [ipmb], plan, wait=200), (11, "", said))
            expect_served(server, WINDOWS)
        finally:
            for asker in askers:
                asker.__exit__()


def refusal(line):
    """Returns the object of a call that is refused for this line."""
    return json.dumps({"outcome": "refused", "why": [line.rstrip("\n")]}, separators=(",", ":")) + "\n"


def refuses(program, folder):
    """What isn't a plan, and what has a key that nothing reads or no step, is refused with the lines of `bmclab check`; and so is a plan with a step on SMBus
    without its port, and a file that can't be read. Nothing is sent."""
    with socket.socket(socket.AF_INET, socket.SOCK_DGRAM) as nobody:
        nobody.bind((HOST, 0))
        nobody.settimeout(0)
        port = nobody.getsockname()[1]
        for name, text, said in [
            ("steps", '[[steps]]\nkind = "power-policy"\npolicy = 2\n', ":1: "),
            ("key", text_of([POLICY], 1).replace("policy = 2", "policy = 2\npolice = 3"), ":6: "),
            ("empty", "retries = 3\n", ": plan, 0 steps, retries 3\n"),
            ("board", servers.read(servers.BOARD), ":"),
        ]:
            plan = servers.write(f"{folder}/{name}.toml", text)
            status, out, err = preview(program, (port, port), plan, wait=SHORT_WAIT)
            expect(name, (status, out, any(line.startswith(plan + said.rstrip("\n")) for line in err.split("\n"))), (3, "", True))
            expect(f"{name}, as apply says it", err, apply(program, (port, port), plan, wait=SHORT_WAIT)[2])
        plan = servers.write(f"{folder}/smbus.toml", text_of([POLICY, ATTRIBUTE], 1))
        said = "the plan has a request on smbus, and no port of smbus is given: P1; nothing was sent\n"
        expect("a plan on SMBus", preview(program, (port,), plan, wait=SHORT_WAIT), (2, "", said))
        expect("its object", preview(program, (port,), plan, "--json", wait=SHORT_WAIT), (2, refusal(said), ""))
        expect("no file", preview(program, (port,), f"{folder}/gone.toml"), (3, "", f"file {folder}/gone.toml\n"))
        expect("what was sent", requests_at(nobody), [])


def refuses_words(program, folder):
    """Words that ask for nothing: why they do stands on standard error, before any file is read. Its help has a line for each option, and examples."""
    gone, usage = f"{folder}/gone.toml", "Usage: bmcnet preview [OPTIONS] <PLAN> <P0> [P1]"
    for words, said in [
        ([gone, 65536], "invalid value '65536' for '<P0>': a decimal number from 0 to 65535"),
        ([gone, 1, "x"], "invalid value 'x' for '<P1>': a decimal number from 0 to 65535"),
        (["--wait", 0, gone, 1], "invalid value '0' for '--wait <MS>': a decimal number from 1 to 4294967295"),
        (["--again", "+1", gone, 1], "invalid value '+1' for '--again <N>': a decimal number from 0 to 4294967295"),
        (["--json", "--json", gone, 1], "the argument '--json' cannot be used multiple times"),
        (["--undo", "x", gone, 1], "unexpected argument '--undo' found"),
        ([gone], "the following required arguments were not provided:"),
    ]:
        status, out, err = call(program, "preview", *words)
        expect(f"{words}", (status, out, err.split("\n")[0]), (2, "", f"error: {said}"))
    for good in [gone, 1], [gone, 1, 2], ["--again", 0, "--wait", 1, gone, 1]:
        expect(f"{good}", call(program, "preview", *good), (3, "", f"file {gone}\n"))
    expect("an object", call(program, "preview", gone, 1, "--json"), (3, refusal(f"file {gone}\n"), ""))
    status, out, err = call(program, "preview", "--help")
    expect("preview --help", (status, out, usage in err.split("\n")), (2, "", True))
    for option in "--wait <MS> ", "--again <N> ", "--json ":
        expect(f"its {option}", [line for line in err.split("\n") if line.strip().startswith(option) and f", as in {option.split()[0]}" in line] != [], True)
        expect(f"an example with {option}", any(line.startswith("  bmcnet preview ") and f" {option.split()[0]} " in line for line in err.split("\n")), True)


def cannot_say(program, folder, board):
    """Without a socket the status is 4, and where standard output can't be written it is 6."""
    plan = servers.write(f"{folder}/plan.toml", text_of([critical(0x5A)], RETRIES))
    with Server(program, board, SERVED_TURNS) as server:
        ipmb = server.ports[IPMB]
        said = "no socket could be had; nothing was set\n"
        expect("preview", call("prlimit", f"--nofile={FEW_FILES}", program, "preview", plan, ipmb), (4, "", said))
        with open("/dev/full", "w", encoding="utf-8") as full:
            ran = subprocess.run([program, "preview", plan, str(ipmb)], stdin=subprocess.DEVNULL, stdout=full, stderr=subprocess.PIPE, text=True, timeout=servers.CALL, check=False)
        expect("preview to a full device", ran.returncode, 6)
        expect("serve", server.ended()[1].split("\n")[1:], ["records same", ""])


def tests(board):
    """Returns the tests of this file: the name, the function and its words."""
    return [
        ("a preview, step by step", tells_steps, (board,)),
        ("a preview of steps that go", tells_what_goes, (board,)),
        ("a preview as objects", tells_objects, (board,)),
        ("a preview with names of sensors", names_sensors, (board,)),
        ("previews one after another", sees_anew, (board,)),
        *((f"a preview and an apply, many kinds {seed}", many_kinds, (board, seed)) for seed in range(3)),
        ("a preview and an apply, each kind", each_kind, ()),
        *((f"a preview over links {seed}", over_links, (board, seed)) for seed in range(3)),
        ("a preview of a controller that goes silent", goes_silent, (board,)),
        ("a preview that nobody answers", nobody_answers, (board,)),
        ("a preview of a busy controller", is_busy, (board,)),
        ("a preview that is refused", refuses, ()),
        ("words of a preview that are refused", refuses_words, ()),
        ("a preview without a socket, or with nowhere to write", cannot_say, (board,)),
    ]
