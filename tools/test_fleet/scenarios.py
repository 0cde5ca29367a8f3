"""What is asked of a fleet: a plan is applied to all of it, or to none, whatever boards refuse, links lose, and processes are killed."""
import contextlib
import os
import re
import resource
import stat
import sys
import time

from test_net import servers
from test_net.controllers import Troubled
from test_net.plans import IPMB, SMBUS
from test_net.proxy import Proxies, Troubles
from test_net.servers import TOP, Failed, expect

from .boards import REFUSED, TAKEN, plan_of, steps_of
from .control import kill

CANARY, KILLED = 1, 5
# How many boards are behind links that lose and delay, at most: a thread of this process is each of their links.
BEHIND_LINKS = 20
# How long a slow link holds each datagram, in seconds.
SLOW = 0.05
LINK_WAIT, LINK_AGAIN = 400, 4
# How often the control node is looked at until it is killed, in seconds.
PAUSE = 0.02


class Trial:
    """A fleet with its control node, and what the scenarios found."""

    def __init__(self, fleet, control, seed):
        self.fleet, self.control, self.seed = fleet, control, seed
        self.batch = fleet.count // 2
        self.plans = 0

    def serial(self):
        return {"bmc_canary": CANARY, "bmc_batch": self.batch}

    def plan(self, name, handle=TAKEN):
        """Returns the steps of a plan and its file."""
        self.plans += 1
        steps = steps_of(f"{self.seed} {name}", handle)
        return steps, plan_of(self.control.room, name, steps)

    def expect_changed(self, what, ended, names):
        """Tests on which machines something was changed."""
        expect(f"where {what} changed something", sorted(it for it, count in ended.changed.items() if count), sorted(names))


def limited(boards):
    """Returns what has a call be of these machines alone."""
    return {"bmc_hosts": ",".join(board.name for board in boards)}


def foreseen(trial):
    """In check mode nothing is set, and the words of each step are shown."""
    boards = trial.fleet.boards[:3]
    _, plan = trial.plan("foreseen")
    ended = trial.control.apply("foreseen", plan, "--check", "--diff", **limited(boards), **trial.serial()).expect("a check", 0)
    trial.expect_changed("a check", ended, [board.name for board in boards])
    shown = len(re.findall(r"^step \d+: sensor 5 ", ended.text, re.M))
    if shown < len(boards):
        raise Failed(f"a check with --diff shows {shown} steps of a sensor: {ended.text[-2000:]}")
    trial.fleet.expect_as_before("behind a check")
    return f"{len(boards)} boards, {shown} steps of sensors shown"


def applied(trial):
    """A plan is applied to all boards, a second time nothing is changed, and all is taken back."""
    fleet, control = trial.fleet, trial.control
    steps, plan = trial.plan("applied")
    began, used = time.monotonic(), used_by_calls()
    ended = control.apply("first", plan, **trial.serial()).expect("an apply", 0)
    took, used = time.monotonic() - began, used_by_calls() - used
    more = slope(times_of(control, "first", fleet.names()))
    trial.expect_changed("an apply", ended, fleet.names())
    fleet.expect_applied("behind an apply", steps)
    copies = {name: servers.read(f"{control.kept}/first/{name}.undo") for name in fleet.names()}
    expect("the copies", copies, {name: servers.read(control.file_of(name, "first")) for name in fleet.names()})
    for run in ("second", "first"):
        ended = control.apply(run, plan, **trial.serial()).expect("a second apply", 0)
        trial.expect_changed("a second apply", ended, [])
    ended = control.revert("first").expect("a revert", 0)
    trial.expect_changed("a revert", ended, fleet.names())
    fleet.expect_as_before("behind a revert")
    for run in ("first", "second"):
        ended = control.revert(run, **limited(fleet.boards[:2])).expect(f"a revert of the {run} run, which left nothing to take back", 0)
        trial.expect_changed("it", ended, [])
    control.revert("thirst").expect("a revert of a run that never began", 2)
    control.revert("thirst", **limited(fleet.boards[:2]), bmc_everywhere=True).expect("the same everywhere", 2)
    return f"{fleet.count} boards in {took:.1f} s, {60 * fleet.count / took:.0f} boards a minute; one more takes {more:.2f} s, and {used / fleet.count:.2f} s of processor time"


def used_by_calls():
    """Returns how many seconds of processor time the calls took that have ended, with all that they began."""
    used = resource.getrusage(resource.RUSAGE_CHILDREN)
    return used.ru_utime + used.ru_stime


def times_of(control, run, names):
    """Returns when the copies of a run came, in their order, in seconds."""
    return sorted(os.stat(f"{control.kept}/{run}/{name}.undo").st_mtime for name in names)


def slope(came):
    """Returns what a board more took in seconds: from the copy of the one at the half to that of the last one."""
    half = len(came) // 2
    return (came[-1] - came[half - 1]) / (len(came) - half)


def refused(trial):
    """Three boards refuse a step: each board is as before, the play fails, and the report names the three."""
    fleet, control = trial.fleet, trial.control
    _, plan = trial.plan("refused", REFUSED)
    control.apply("refused", plan, **trial.serial()).expect("an apply that is refused", 2)
    expect("with whom it began", sorted(control.begun("refused")), sorted(fleet.names()))
    fleet.expect_as_before("behind an apply that is refused")
    said = control.report("refused").split("not kept:")
    named = sorted(re.findall(r"^(m\d+): halted", said[0], re.M))
    expect("whom the report names", named, sorted(fleet.names()[-fleet.refusing :]))
    expect("who has no copy, and who isn't taken back", said[1].split("not taken back:"), ["\n", "\n"])
    return f"{fleet.refusing} of {fleet.count} refused, and {fleet.count} are as before"


def dying(control, board):
    """Returns a program whose first apply is killed amid the plan."""
    path = f"{control.room}/dies-{board.name}"
    flag = servers.write(f"{path}.flag", "")
    servers.write(path, f"#!/bin/sh\nexec {sys.executable} {TOP}/tools/test_fleet/dies.py {flag} {control.program} \"$@\"\n")
    os.chmod(path, stat.S_IRWXU)
    return path


def killed(trial):
    """Five applies are killed amid the plan, and the run is begun again: it is applied to all boards, and taken back from all."""
    fleet, control = trial.fleet, trial.control
    steps, plan = trial.plan("killed")
    dead = fleet.boards[1 : 1 + KILLED]
    with contextlib.ExitStack() as open_links:
        others = {}
        for board in dead:
            links = open_links.enter_context(Proxies(board.ports, trial.seed))
            for link in links.each:
                link.troubles = Troubles(slow=SLOW)
            others[board.name] = {"bmc_program": dying(control, board), "bmc_p0": links.each[0].port, "bmc_p1": links.each[1].port}
        control.list_machines(**others)
        given = {"bmc_canary": CANARY, "bmc_batch": fleet.count, "bmc_at_halt": "stop"}
        control.apply("killed", plan, **given).expect("an apply that is killed", 2)
        journals = [board.name for board in dead if servers.read(control.file_of(board.name, "killed")).startswith("journal 1\n")]
        expect("the journals that are left", journals, [board.name for board in dead])
        amid = [it for it in fleet.looks(dead).items() if it[1] != next(board.before for board in dead if board.name == it[0])]
        control.apply("killed", plan, **given).expect("an apply that is begun again", 0)
        fleet.expect_applied("behind an apply that is begun again", steps)
        control.revert("killed").expect("its revert", 0)
    control.list_machines()
    fleet.expect_as_before("behind the revert of what was killed")
    return f"{len(dead)} of {fleet.count} killed, {len(amid)} of them amid changes"


def troubled(trial):
    """Links lose, repeat and delay: a plan is applied, and taken back."""
    fleet, control = trial.fleet, trial.control
    boards = fleet.boards[:BEHIND_LINKS]
    steps, plan = trial.plan("troubled")
    with contextlib.ExitStack() as open_links:
        others, links = {}, []
        for board in boards:
            ways = [open_links.enter_context(Troubled(bus, board.ports[bus], f"{trial.seed} {board.name}", True)) for bus in (IPMB, SMBUS)]
            links += ways
            others[board.name] = {"bmc_p0": ways[0].port, "bmc_p1": ways[1].port, "bmc_wait": LINK_WAIT, "bmc_again": LINK_AGAIN}
        control.list_machines(**others)
        control.apply("troubled", plan, **limited(boards), **trial.serial()).expect("an apply over such links", 0)
        fleet.expect_applied("behind an apply over such links", steps, boards)
        control.revert("troubled", **limited(boards)).expect("a revert over such links", 0)
    control.list_machines()
    fleet.expect_as_before("behind a revert over such links")
    met = {name: sum(link.counts[name] for link in links) for name in ("lost", "repeated", "held")}
    return f"{len(boards)} boards, {', '.join(f'{count} {name}' for name, count in met.items())}"


def control_killed(trial):
    """The control node is killed between two batches: what was done is taken back."""
    fleet, control = trial.fleet, trial.control
    _, plan = trial.plan("gone")
    process = control.begin(*control.playbook("apply", "gone", bmc_plan=plan, **trial.serial()))
    done, until = CANARY + trial.batch, time.monotonic() + control.longest()
    while len(control.begun("gone")) <= done and process.poll() is None and time.monotonic() < until:
        time.sleep(PAUSE)
    if process.poll() is not None:
        raise Failed(f"the control node ended by itself: {control.end(process).text[-3000:]}")
    kill(process)
    changed = fleet.changed()
    expect("whether the batches before it were done", set(fleet.names()[:done]) <= set(changed), True)
    control.revert("gone").expect("a revert behind that", 0)
    fleet.expect_as_before("behind a revert of what a control node left")
    return f"{len(changed)} of {fleet.count} were changed, and none is"


def unreached(trial):
    """A machine can't be reached: the others of the run are as before, and it is named, with what to call."""
    fleet, control = trial.fleet, trial.control
    boards = fleet.boards[:4]
    _, plan = trial.plan("unreached")
    control.list_machines(**{boards[2].name: {"ansible_connection": "ssh", "ansible_host": "127.0.0.1", "ansible_port": 1}})
    control.apply("unreached", plan, **limited(boards), bmc_canary=1, bmc_batch=3).expect("an apply that doesn't reach a machine", 2)
    control.list_machines()
    fleet.expect_as_before("behind an apply that doesn't reach a machine")
    said = control.report("unreached")
    expect("whom the report names", re.findall(r"^(m\d+): ", said, re.M), 2 * [boards[2].name])
    expect("what is to be called", f"-e bmc_hosts={boards[2].name}" in said, True)
    return f"1 of {len(boards)} wasn't reached, and all are as before"


def unfit(trial):
    """A batch fails as a whole, since a variable of its machines has no number: the canary is taken back, and the machines are named."""
    fleet, control = trial.fleet, trial.control
    boards = fleet.boards[:3]
    _, plan = trial.plan("unfit")
    control.list_machines(**{board.name: {"bmc_wait": "soon"} for board in boards[1:]})
    control.apply("unfit", plan, **limited(boards), bmc_canary=1, bmc_batch=2).expect("an apply of which a batch fails", 2)
    control.list_machines()
    expect("whether the canary was changed", os.path.exists(f"{control.file_of(boards[0].name, 'unfit')}.done"), True)
    fleet.expect_as_before("behind an apply of which a batch fails")
    expect("whom the report names", re.findall(r"^(m\d+): ", control.report("unfit"), re.M), 2 * [board.name for board in boards[1:]])
    return f"{len(boards) - 1} of {len(boards)} failed, and all are as before"


def lost_file(trial):
    """A machine lost its file: it gets the copy of the control node, and is taken back."""
    fleet, control = trial.fleet, trial.control
    boards = fleet.boards[:2]
    _, plan = trial.plan("lost")
    control.apply("lost", plan, **limited(boards), bmc_canary=2).expect("an apply", 0)
    os.remove(control.file_of(boards[0].name, "lost"))
    control.revert("lost", **limited(boards[:1])).expect("a revert without the file", 2)
    expect("what is to be called", "-e bmc_restore=true" in control.report("lost"), True)
    control.revert("lost", **limited(boards), bmc_restore=True).expect("a revert with the copy", 0)
    fleet.expect_as_before("behind a revert with the copy")
    return f"1 of {len(boards)} got its copy"


def scenarios():
    """Returns each scenario: its name, and what tries it."""
    return [
        ("a check sets nothing", foreseen),
        ("a plan is applied to all, and taken back", applied),
        ("three refuse a step", refused),
        ("five are killed, and begun again", killed),
        ("links lose and delay", troubled),
        ("the control node is killed", control_killed),
        ("a machine isn't reached", unreached),
        ("a batch fails as a whole", unfit),
        ("a machine lost its file", lost_file),
    ]
