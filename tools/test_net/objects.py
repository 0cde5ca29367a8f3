"""What `apply` and `revert` say with `--json`: one object in a line of standard output, with exactly the members that there is something to say of."""
import json
import os

from . import servers
from .applies import LISTED, LONG_WAIT, SERVED_TURNS, Meddler, Silence, apply, revert
from .at_once import FEW_FILES, waiting
from .controllers import GET_THRESHOLDS, SET_THRESHOLDS, SOME_WAIT, TWELVE, WATCHDOG, Mute, Silent
from .greetings import ATTRIBUTE, NOBODY, ON_IPMB, POLICY, WINDOWS, critical, set_critical
from .plans import IPMB, text_of
from .previews import sensor_record
from .servers import Asker, Server, call, expect

DID_POLICY, DID_CRITICAL = "power restore policy: previous -> always on", "sensor 5 upper critical: 95 (5Fh) -> 90 (5Ah)"
DID_HYSTERESIS = "sensor 5 positive-going hysteresis: 2 (02h) -> 4 (04h); negative-going hysteresis: 2 (02h) -> 4 (04h)"
THRESHOLDS = "sensor 5 thresholds"
# The commands that reserve the repository of sensor data records, and get a part of one.
RESERVE, GET_RECORD = 0x22, 0x23
# A record that names sensor 5, and one of another controller's sensor.
CPU_1, OTHER = sensor_record(1, 0x01, 0x20, 5, 0xCA, b"CPU 1 temp"), sensor_record(1, 0x01, 0x82, 5, 0xC5, b"other")
# The option by which a plan is looked at first, and each step of these plans is kept.
LOOKS = "--only-changes"


def expect_object(what, found, status, **wanted):
    """Tests that a call ends with this status, and prints this object alone: its members, and their order."""
    text = found[1]
    expect(what, (found[0], text[-1:], text.count("\n"), found[2]), (status, "\n", 1, ""))
    expect(f"the object of {what}", list(json.loads(text).items()), list(wanted.items()))


class Trial:
    """A plan of these steps, its FILE, and the calls with `--json`."""

    def __init__(self, program, folder, steps, name="plan", retries=1):
        self.program, self.plan, self.file = program, servers.write(f"{folder}/{name}.toml", text_of(steps, retries)), f"{folder}/{name}.undo"
        self.steps = len(steps)

    def apply(self, what, port, status, *options, stands=0, did=(), stop=None, kept=True, aside=None, has_next=False, bus=None, outcome, wait=SOME_WAIT):
        """Tests what `apply` says."""
        members = {"outcome": outcome, "bus": bus, "steps": self.steps, "stands": stands, "did": list(did), "stop": stop, "file": self.file, "kept": kept}
        members.update(aside=aside, next=f"bmcnet revert {self.file} {port}" if has_next else None)
        expect_object(what, apply(self.program, [port], self.plan, "--json", *options, wait=wait), status, **without_none(members))

    def revert(self, what, port, status, outcome, steps, wait=SOME_WAIT, records=(), looked=False, kept=True, has_next=False, **others):
        """Tests what `revert` says."""
        members = {"outcome": outcome, "bus": others.get("bus"), "steps": steps, **{name: others.get(name) for name in ("stands", "refused", "open")}}
        members.update(records=list(records), looked=looked, file=self.file, kept=kept)
        members.update(next=f"bmcnet revert {self.file} {port}" if has_next else None)
        expect_object(what, revert(self.program, [port], self.file, "--json", wait=wait), status, **without_none(members))


def without_none(members):
    return {name: value for name, value in members.items() if value is not None}


def record(name, why):
    return {"record": name, "why": why}


def named_board(folder, board, records):
    """Returns a board file with these sensor data records."""
    return servers.write(f"{folder}/named.toml", servers.read(board).replace('sdr = ["010051C00100"]', "sdr = " + json.dumps(records)))


class Watch(Meddler):
    """Such a link that keeps the number and the command of each request."""

    def __init__(self, server, sets):
        super().__init__(server, sets)
        self.asked = []

    def hear(self, seen):
        if seen.to_server:
            self.asked.append((seen.data[4] >> 2, seen.data[5]))
        super().hear(seen)


def of_ends(program, folder, board):
    """A plan is done, halts at a Set, a Get or a value, finds FILE occupied, and puts it aside; and all is taken back, or nothing is there to take back."""
    with Server(program, board, SERVED_TURNS) as server:
        ipmb = server.ports[IPMB]
        done = Trial(program, folder, [POLICY, critical(0x5A)], "done")
        both = [DID_POLICY, DID_CRITICAL]
        done.apply("a plan that is done", ipmb, 0, outcome="done", stands=2, did=both, has_next=True, wait=LONG_WAIT)
        done.apply("the plan again", ipmb, 3, outcome="occupied", has_next=True)
        done.revert("a revert", ipmb, 0, "undone", 2, stands=0, looked=True, wait=LONG_WAIT)
        done.revert("a revert again", ipmb, 0, "empty", 0)
        halted = Trial(program, folder, TWELVE, "halted")
        stop = {"step": 3, "record": THRESHOLDS, "why": "set refused", "code": 0xCC, "meaning": "invalid data field"}
        two = [DID_POLICY, DID_HYSTERESIS]
        halted.apply("a Set that is refused", ipmb, 10, outcome="halted", stands=2, did=two, stop=stop, has_next=True, wait=LONG_WAIT)
        halted.revert("its revert", ipmb, 0, "undone", 2, stands=0, looked=True, wait=LONG_WAIT)
        for step, stop in [
            (NOBODY, {"step": 1, "record": "sensor 77 thresholds", "why": "get refused", "code": 0xCB, "meaning": "not present"}),
            (WATCHDOG, {"step": 1, "record": "watchdog timer", "why": "not restorable"}),
        ]:
            Trial(program, folder, [step], "first").apply("a first step that is refused", ipmb, 10, outcome="halted", stop=stop, wait=LONG_WAIT)
        aside = Trial(program, folder, [POLICY], "aside")
        servers.write(aside.file, "no journal\n")
        aside.apply("what is no journal", ipmb, 3, outcome="occupied")
        word = f"{aside.file}.1"
        aside.apply("what is put aside", ipmb, 0, "--replace", outcome="done", stands=1, did=[DID_POLICY], aside=word, has_next=True, wait=LONG_WAIT)
        expect("what was put aside", servers.read(word), "no journal\n")
        aside.revert("its revert", ipmb, 0, "undone", 1, stands=0, looked=True, wait=LONG_WAIT)
        expect("serve", server.ended()[1].split("\n")[1:], ["records same", ""])


def of_names(program, folder, board):
    """A plan halts behind a look at a sensor that a record of the board names: the object has that name, and so has the sentence. One that is done has none."""
    named = named_board(folder, board, [CPU_1])
    with Server(program, named, SERVED_TURNS) as server:
        ipmb = server.ports[IPMB]
        halted = Trial(program, folder, TWELVE, "halted")
        stop = {"step": 3, "record": THRESHOLDS, "name": "CPU 1 temp", "why": "set refused", "code": 0xCC, "meaning": "invalid data field"}
        two = [DID_POLICY, DID_HYSTERESIS]
        halted.apply("a Set that is refused", ipmb, 10, LOOKS, outcome="halted", stands=2, did=two, stop=stop, has_next=True, wait=LONG_WAIT)
        halted.revert("its revert", ipmb, 0, "undone", 2, stands=0, looked=True, wait=LONG_WAIT)
        why = 'sensor 5 ("CPU 1 temp") thresholds refused (CCh, invalid data field): nothing of it was set'
        said = f"halted at step 3 of 12: {why}; steps 1 and 2 stand: bmcnet revert {halted.file} {ipmb}"
        status, out, err = apply(program, [ipmb], halted.plan, LOOKS)
        expect("the sentence", (status, out, err.split("\n")[2:]), (10, "", [said, ""]))
        halted.revert("the revert of that", ipmb, 0, "undone", 2, stands=0, looked=True, wait=LONG_WAIT)
        done = Trial(program, folder, [critical(0x5A)], "done")
        done.apply("a plan that is done", ipmb, 0, LOOKS, outcome="done", stands=1, did=[DID_CRITICAL], has_next=True, wait=LONG_WAIT)
        done.revert("its revert", ipmb, 0, "undone", 1, stands=0, looked=True, wait=LONG_WAIT)
        expect("serve", server.ended()[1].split("\n")[1:], ["records same", ""])


def expect_asked(link, names):
    """Tests that a Set and a look went over the link behind the greeting, and then these commands, one after another by their numbers."""
    asked = link.asked[ON_IPMB:]
    expect("what is asked for", [command for number, command in asked], [SET_THRESHOLDS, GET_THRESHOLDS, *names])
    expect("their numbers", [number for number, command in asked], [(asked[0][0] + place) % 64 for place in range(len(asked))])


def of_names_behind(program, folder, board, records, name, reads):
    """Somebody sets a record once it is taken back: the object has the name of its sensor, and so has the sentence, where a record of the board names it. It is
    asked for behind the look, with the next numbers and no greeting between. Where each record is as before no name is asked for."""
    board = named_board(folder, board, records)
    with Server(program, board, SERVED_TURNS) as server, Asker(server.ports) as asker:
        ipmb, trial = server.ports[IPMB], Trial(program, folder, [critical(0x5A)])
        said = f' ("{name}")' if name else ""
        sentences = (
            f"taken back: 1 step; {trial.file}.done has the requests that did it, and {trial.file} is empty\n"
            f"sensor 5{said} thresholds isn't as before: somebody else set it, or the controller lost it\n"
        )
        differs = without_none({"record": THRESHOLDS, "name": name, "why": "differs"})
        names = [RESERVE] + [GET_RECORD] * reads
        expect("apply", apply(program, [ipmb], trial.plan)[0], 0)
        with Watch(ipmb, lambda: set_critical(asker, 0x57)) as link:
            trial.revert("a revert", link.port, 10, "undone", 1, stands=0, looked=True, records=[differs], wait=LONG_WAIT)
            expect_asked(link, names)
        expect("apply", apply(program, [ipmb], trial.plan)[0], 0)
        with Watch(ipmb, lambda: set_critical(asker, 0x5F)) as link:
            expect("a revert", revert(program, [link.port], trial.file), (10, "", sentences))
            expect_asked(link, names)
        set_critical(asker, 0x5F)
        expect("apply", apply(program, [ipmb], trial.plan)[0], 0)
        with Watch(ipmb, lambda: None) as link:
            trial.revert("a revert of all", link.port, 0, "undone", 1, stands=0, looked=True, wait=LONG_WAIT)
            expect_asked(link, [])
        expect("serve", server.ended()[1].split("\n")[1:], ["records same", ""])


class Unreserved(Meddler):
    """Such a link over which no answer comes to a reservation."""

    def hear(self, seen):
        if seen.to_server or seen.data[5:6] != bytes([RESERVE]):
            super().hear(seen)


def of_name_unanswered(program, folder, board):
    """No answer comes where a name is asked for, once a record was found that isn't as before: it has no name, and nothing else is otherwise."""
    board = named_board(folder, board, [CPU_1])
    with Server(program, board, SERVED_TURNS) as server, Asker(server.ports) as asker:
        ipmb, trial = server.ports[IPMB], Trial(program, folder, [critical(0x5A)])
        expect("apply", apply(program, [ipmb], trial.plan)[0], 0)
        with Unreserved(ipmb, lambda: set_critical(asker, 0x57)) as link:
            trial.revert("a revert", link.port, 10, "undone", 1, stands=0, looked=True, records=[record(THRESHOLDS, "differs")])
        server.ended()


def of_silence(program, folder, board, command, stop, is_open, steps):
    """A request of the second step has no answer, and none has what settles it; and then all is taken back."""
    trial = Trial(program, folder, [POLICY, critical(0x5A)])
    with Server(program, board, SERVED_TURNS) as server, Mute(server.ports[IPMB], command) as link:
        stop = {"step": 2, "record": THRESHOLDS, "why": stop}
        trial.apply("a request without an answer", link.port, 11, outcome="unsettled", stands=1, did=[DID_POLICY], stop=stop, has_next=True)
        trial.revert("a revert in silence", link.port, 11, "unsettled", 1, open={"step": 2, "request": is_open}, has_next=True)
        link.speaks = True
        trial.revert("the revert", link.port, 0, "undone", steps, stands=0, looked=True, wait=LONG_WAIT)
        expect("serve", server.ended()[1].split("\n")[1:], ["records same", ""])


def of_reverts(program, folder, board):
    """What takes a step back has no answer, or is refused; a record isn't as before, and no record can be looked at."""
    with Server(program, board, SERVED_TURNS) as server, Asker(server.ports) as asker:
        ipmb = server.ports[IPMB]
        trial = Trial(program, folder, [POLICY, critical(0x5A)])
        for link, says in [
            (Mute(ipmb, SET_THRESHOLDS), (11, "unsettled", {"open": {"step": 2, "request": "undo"}, "has_next": True})),
            (Meddler(ipmb, lambda: set_critical(asker, 0x57)), (10, "undone", {"stands": 0, "looked": True, "records": [record(THRESHOLDS, "differs")]})),
        ]:
            if not os.path.exists(trial.file):
                expect("apply", apply(program, [ipmb], trial.plan)[0], 0)
            with link:
                trial.revert("a revert", link.port, *says[:2], 2, **says[2])
        set_critical(asker, 0x5F)
        silent = Trial(program, folder, [critical(0x5A)], "silent")
        expect("apply", apply(program, [ipmb], silent.plan)[0], 0)
        with Silence(ipmb) as link:
            link.hears_set = True
            silent.revert("a revert behind which nobody answers", link.port, 11, "undone", 1, stands=0, records=[record(THRESHOLDS, "unanswered")])
        refused = Trial(program, folder, [POLICY], "refused")
        servers.write(refused.file, LISTED.replace("ipmb 000600", "ipmb 000607"))
        says = {"step": 1, "undo": "power restore policy <- 07h", "code": 0xCC, "meaning": "invalid data field"}
        refused.revert("a revert that is refused", ipmb, 12, "undo refused", 1, stands=1, refused=says, has_next=True, wait=LONG_WAIT)
        expect("serve", server.ended()[1].split("\n")[1:], ["records same", ""])


def of_nothing_begun(program, folder, board):
    """Nobody answers, the controller is busy, FILE can't be written, and no socket can be had."""
    with Server(program, board, SERVED_TURNS) as server, Silent(server.ports[IPMB]) as link:
        trial = Trial(program, folder, [POLICY])
        trial.apply("an apply that nobody answers", link.port, 11, outcome="no answer", bus="ipmb")
        servers.write(trial.file, LISTED)
        trial.revert("a revert that nobody answers", link.port, 11, "no answer", 1, bus="ipmb", has_next=True)
        os.remove(trial.file)
        os.mkdir(f"{trial.file}.next")
        trial.apply("an apply whose FILE can't be written", link.port, 3, outcome="unmade", kept=False)
        servers.write(trial.file, LISTED)
        trial.revert("a revert whose FILE can't be written", link.port, 3, "unmade", 1, kept=False)
        os.rmdir(f"{trial.file}.next")
        ipmb = server.ports[IPMB]
        few = Trial(program, folder, [POLICY], "few")
        limited = lambda *words: call("prlimit", f"--nofile={FEW_FILES}", program, *words, ipmb)
        says = {"steps": 1, "stands": 0, "did": [], "file": few.file, "kept": True}
        expect_object("an apply without a socket", limited("apply", "--json", few.plan), 4, outcome="no socket", **says)
        servers.write(few.file, LISTED)
        says = {"steps": 1, "records": [], "looked": False, "file": few.file, "kept": True, "next": f"bmcnet revert {few.file} {ipmb}"}
        expect_object("a revert without a socket", limited("revert", "--json", few.file), 4, outcome="no socket", **says)
        busy = Trial(program, folder, [POLICY], "busy")
        askers = [Asker(server.ports, 0x42 + 2 * place, 0x0C + place) for place in range(WINDOWS)]
        for asker in askers:
            asker.get(*POLICY.get)
        busy.apply("an apply of a busy controller", ipmb, 11, outcome="busy", bus="ipmb")
        for asker in askers:
            asker.__exit__()
        expect("serve", server.ended(), (0, f"served {WINDOWS}\nrecords same\n", ""))


def of_held(program, folder, task):
    """FILE is held by another process: this is the object of a task then. Of a FILE that isn't read nobody knows how many steps it has."""
    trial = Trial(program, folder, [POLICY])
    servers.write(trial.file, LISTED)
    with Silent(servers.PORTS.take()) as link, waiting(program, link, "revert", trial.file):
        if task == "apply":
            trial.apply("an apply whose FILE is held", link.port, 3, outcome="held")
        else:
            trial.revert("a revert whose FILE is held", link.port, 3, "held", None, has_next=True)


def of_refusals(program, folder):
    """A file that isn't there, a text that is no plan, a list or that of others, and a port that isn't given: the object has the lines of the sentence."""
    key = text_of([POLICY], 1).replace("policy = 2", "policy = 2\npolice = 3")
    with Silent(servers.PORTS.take()) as link:
        for task, name, text, status, why in [
            (apply, "none.toml", None, 3, "file {}"),
            (apply, "smbus.toml", text_of([ATTRIBUTE], 1), 2, "the plan has a request on smbus, and no port of smbus is given: P1; nothing was sent"),
            (apply, "key.toml", key, 3, None),
            (apply, "board.toml", servers.read(servers.BOARD), 3, None),
            (revert, "none.undo", None, 3, "file {}"),
            (revert, "bad.undo", "undo 2\nnext\n", 3, "{}: line 2 is none of a journal or an undo text; nothing was sent"),
            (revert, "other.undo", LISTED.replace("0A\n", "0B\n", 1), 3, "{} is of a manager or a controller at other addresses; nothing was sent"),
        ]:
            word = f"{folder}/{name}" if text is None else servers.write(f"{folder}/{name}", text)
            said, out, err = task(program, [link.port], word, wait=SOME_WAIT)
            expect(f"the sentence of {name}", (said, out, err), (status, "", err if why is None else why.format(word) + "\n"))
            expect_object(name, task(program, [link.port], word, "--json", wait=SOME_WAIT), status, outcome="refused", why=err.split("\n")[:-1])
            expect(f"whether {name} is named", why is not None or err.startswith(word), True)


def tests(board):
    """Returns the tests of this file: the name, the function and its words."""
    return [
        ("the objects of ends", of_ends, (board,)),
        ("the object of a step that a record of the board names", of_names, (board,)),
        ("the object of a record that isn't as before and has a name", of_names_behind, (board, [CPU_1], "CPU 1 temp", 2)),
        ("the object of a record that isn't as before and has none", of_names_behind, (board, [OTHER], None, 1)),
        ("the object of a record that isn't as before, whose name has no answer", of_name_unanswered, (board,)),
        ("the objects of a Get without an answer", of_silence, (board, GET_THRESHOLDS, "get unanswered", "get", 1)),
        ("the objects of a Set without an answer", of_silence, (board, SET_THRESHOLDS, "set unanswered", "set", 2)),
        ("the objects of reverts", of_reverts, (board,)),
        ("the objects of calls that begin nothing", of_nothing_begun, (board,)),
        *((f"the object of {task} whose FILE is held", of_held, (task,)) for task in ("apply", "revert")),
        ("the objects of calls that are refused", of_refusals, ()),
    ]
