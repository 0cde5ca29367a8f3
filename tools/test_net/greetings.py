"""Runs and undos with `--greet`: on one server one after another, with a controller that is busy, with nobody there, and over links that lose and repeat."""
import os
import random
import socket

from lossy_link import Link

from . import servers
from .plans import IPMB, SMBUS, Step, text_of
from .servers import HOST, Asker, Failed, Server, call, expect

# How long one quiet turn of these runs lasts, in milliseconds: where no reply comes, where some are lost, and where each has to come, however busy the
# machine is.
WAIT, SHORT_WAIT, LONG_WAIT = 50, 200, 5000
SERVED_TURNS, TURNS = 6000, 400
RETRIES = 3
# How many requests a greeting has on each bus.
ON_IPMB, ON_SMBUS = 2, 9
# How many requesters a port serves at once.
WINDOWS = 8
# How many steps make a list whose next number lies in the second half of the circle of 64.
LONG = 20
EMPTY_LIST = "undo 2\nnext ipmb 0 smbus 0\nnames ipmb 2C 20 smbus 30 20 eid 08 0A\n"
# What the journal of a manager that did nothing says of its list, its stage and its counts.
DID_NOTHING = ["undo 0", "waiting 0", "stage fresh 0 0", "go", "counts 0 0", "no replies"]
POLICY = Step('kind = "power-policy"\npolicy = 2\n', (IPMB, (0x00, 0x01)))
ATTRIBUTE = Step('kind = "bios-attribute"\nhandle = 0\nindexes = [1]\n', (SMBUS, (0x03, 0x08, bytes([0, 0, 0, 0, 1, 0, 0]))))
HYSTERESIS = Step('kind = "hysteresis"\nsensor = 5\npositive = 4\nnegative = 4\n', (IPMB, (0x04, 0x25, b"\x05\xff")))
# A sensor that the board hasn't: its Get is refused.
NOBODY = Step('kind = "thresholds"\nsensor = 77\nuc = 90\n', None)
THRESHOLDS = (IPMB, (0x04, 0x27, b"\x05"))


def critical(value):
    """Returns the step that gives sensor 5 this upper critical threshold, with which the sample board begins at 5Fh."""
    return Step(f'kind = "thresholds"\nsensor = 5\nuc = {value}\n', THRESHOLDS)


def set_critical(asker, value):
    """Another requester sets that threshold."""
    expect("a Set of somebody else", asker.ask(IPMB, asker.ipmb(0x04, 0x26, bytes([5, 0x10, 0, 0, 0, 0, value, 0]))), b"\0")


def critical_now(asker):
    """Returns the threshold as it is: the sixth of the numbers behind the code."""
    return asker.get(*THRESHOLDS)[6]


def run(program, ports, plan, undo, *options, wait=LONG_WAIT):
    return call(program, "run", "--wait", wait, *options, plan, *ports, TURNS, undo)


def undo_of(program, ports, undo, *options, wait=LONG_WAIT):
    return call(program, "undo", "--wait", wait, *options, undo, *ports, TURNS)


def runs_twice(program, folder, board):
    """A plan runs, is undone and runs again on one server, each time carried out; and so does a plan over one bus, which greets that alone."""
    steps = [POLICY, ATTRIBUTE]
    gets = [step.get for step in steps]
    plan, undo = servers.write(f"{folder}/plan.toml", text_of(steps, RETRIES)), f"{folder}/undo.txt"
    with Server(program, board, SERVED_TURNS) as server, Asker(server.ports) as asker:
        before = asker.get_all(gets)
        for time in "first", "second":
            expect(f"the {time} run", run(program, server.ports, plan, undo, "--greet"), (0, "phase Done\n", ""))
            changed = asker.get_all(gets)
            expect(f"records that the {time} run left", [get for get in gets if changed[get] == before[get]], [])
            expect("undo", undo_of(program, server.ports, undo, "--greet"), (0, "phase Undone\n", ""))
            expect("the records behind the undo", asker.get_all(gets), before)
        greetings = 4 * (ON_IPMB + ON_SMBUS)
        expect("serve", server.ended(), (0, f"served {greetings + 2 * 3 * len(steps) + sum(asker.asked)}\nrecords same\n", ""))
    one = servers.write(f"{folder}/one.toml", text_of([POLICY], RETRIES))
    with Server(program, board, SERVED_TURNS) as server:
        expect("a run over IPMB", run(program, server.ports, one, undo, "--greet"), (0, "phase Done\n", ""))
        expect("serve", server.ended(), (0, f"served {ON_IPMB + 2}\nrecords changed 1\n", ""))


def back_in_turn(program, folder, board):
    """Two plans change one record, and are undone, the last first: each undo brings back what its run found."""
    with Server(program, board, SERVED_TURNS) as server, Asker(server.ports) as asker:
        for name, value in ("a", 0x5A), ("b", 0x58):
            plan = servers.write(f"{folder}/{name}.toml", text_of([critical(value)], RETRIES))
            expect(name, run(program, server.ports, plan, f"{folder}/{name}.txt", "--greet"), (0, "phase Done\n", ""))
            expect(f"the threshold behind {name}", critical_now(asker), value)
        for name, value in ("b", 0x5A), ("a", 0x5F):
            expect(f"the undo of {name}", undo_of(program, server.ports, f"{folder}/{name}.txt", "--greet"), (0, "phase Undone\n", ""))
            expect(f"the threshold behind the undo of {name}", critical_now(asker), value)
        server.ended()


def behind_another(program, folder, board, options, wanted):
    """A plan halts at its second step. The fourth request of another run has the bytes of what undoes the first, and somebody sets the record. Then the undo
    is carried out where it greets, and is told the other run's reply where nobody does."""
    halted = servers.write(f"{folder}/halted.toml", text_of([critical(0x5A), NOBODY], RETRIES))
    other = servers.write(f"{folder}/other.toml", text_of([HYSTERESIS, critical(0x5F)], RETRIES))
    undo = f"{folder}/halted.txt"
    with Server(program, board, SERVED_TURNS) as server, Asker(server.ports) as asker:
        status, out, err = run(program, server.ports, halted, undo, *options)
        expect("the first run", (status, out.startswith("phase Halted 1 "), err), (0, True, ""))
        expect("the other", run(program, server.ports, other, f"{folder}/other.txt", *options), (0, "phase Done\n", ""))
        set_critical(asker, 0x57)
        expect("the undo", undo_of(program, server.ports, undo, *options), (0, "phase Undone\n", ""))
        expect("the threshold behind it", critical_now(asker), wanted)
        server.ended()


def undone_again(program, folder, board):
    """A list of many steps is undone, and once more behind a change of somebody else."""
    steps = [POLICY, *[critical(0x52 + place % 8) for place in range(LONG - 1)]]
    plan, undo = servers.write(f"{folder}/plan.toml", text_of(steps, RETRIES)), f"{folder}/undo.txt"
    with Server(program, board, SERVED_TURNS) as server, Asker(server.ports) as asker:
        before = asker.get_all([POLICY.get, THRESHOLDS])
        expect("run", run(program, server.ports, plan, undo, "--greet"), (0, "phase Done\n", ""))
        expect("the next number", servers.read(undo).split("\n")[1], f"next ipmb {2 * LONG} smbus 0")
        for time in "first", "second":
            expect(f"the {time} undo", undo_of(program, server.ports, undo, "--greet"), (0, "phase Undone\n", ""))
            expect(f"the records behind the {time} undo", asker.get_all(before), before)
            set_critical(asker, 0x57)
        server.ended()


def is_busy(program, folder, board, step, name):
    """Eight others are being served on the bus: that is said, the run leaves what one leaves that did nothing, and no record is set. So it is of an undo."""
    bus = step.get[0]
    plan, undo = servers.write(f"{folder}/plan.toml", text_of([step], 1)), f"{folder}/undo.txt"
    done = f"{folder}/done.txt"
    with Server(program, board, SERVED_TURNS) as server:
        expect("a run before", run(program, server.ports, plan, done, "--greet"), (0, "phase Done\n", ""))
        expect("its undo", undo_of(program, server.ports, done, "--greet"), (0, "phase Undone\n", ""))
        server.ended()
    with Server(program, board, SERVED_TURNS) as server:
        askers = [Asker(server.ports, 0x42 + 2 * place, 0x0C + place) for place in range(WINDOWS)]
        try:
            before = [asker.get(*step.get) for asker in askers]
            said = f"busy on {name}\n"
            expect("run", run(program, server.ports, plan, undo, "--greet", wait=SHORT_WAIT), (0, "phase Fresh\n", said))
            expect("the files", (os.path.exists(undo), servers.read(f"{undo}.part").split("\n")[-7:-1]), (False, DID_NOTHING))
            expect("undo", undo_of(program, server.ports, done, "--greet", wait=SHORT_WAIT), (0, "phase Halted 1 Stop\n", said))
            expect("the record", askers[0].get(*step.get), before[0])
            expect("serve", server.ended(), (0, f"served {WINDOWS + 1}\nrecords same\n", ""))
        finally:
            for asker in askers:
                asker.__exit__()


def requests_at(port):
    """Returns the datagrams that wait at a socket."""
    heard = []
    try:
        while True:
            heard.append(port.recv(100))
    except BlockingIOError:
        return heard


def nobody_answers(program, folder):
    """Nobody answers: that is said, and one request alone was sent, as often as it may be sent again."""
    plan, undo = servers.write(f"{folder}/plan.toml", text_of([critical(0x5A)], 2)), f"{folder}/undo.txt"
    done = servers.write(f"{folder}/done.txt", EMPTY_LIST.replace("next ipmb 0", "next ipmb 2") + "ipmb 102805E080000000\n")
    with socket.socket(socket.AF_INET, socket.SOCK_DGRAM) as nobody:
        nobody.bind((HOST, 0))
        nobody.settimeout(0)
        port = nobody.getsockname()[1]
        for words, phase, tries, number in [(["run", plan, port, port, TURNS, undo], "Fresh", 3, 31), (["undo", done, port, port, TURNS], "Halted 1 Stop", 4, 33)]:
            said = call(program, words[0], "--wait", WAIT, "--greet", *words[1:])
            expect(words[0], said, (0, f"phase {phase}\n", "no answer on ipmb\n"))
            asked = [(frame[4] >> 2, frame[1] >> 2, frame[5]) for frame in requests_at(nobody)]
            expect(f"the requests' numbers and commands ({words[0]})", asked, tries * [(number, 0x06, 0x01)])
    expect("the files", (os.path.exists(undo), servers.read(f"{undo}.part").split("\n")[-7:-1]), (False, DID_NOTHING))


class Troubled(Link):
    """A link that loses datagrams, sends some twice, and replies late, once more. A request comes twice at once alone, so before the next one is begun."""

    LOST, TWICE, LATE = 15, 30, 0.3

    def __init__(self, server, seed):
        super().__init__(server)
        self.draw = random.Random(seed)

    def hear(self, seen):
        place = self.draw.uniform(0, 100)
        if place < self.LOST:
            self.counts["lost"] += 1
            return
        self.hand_on(seen)
        if place < self.TWICE:
            self.counts["repeated"] += 1
            if seen.to_server:
                self.hand_on(seen)
            else:
                self.hold(seen, self.draw.uniform(0, self.LATE))


def in_trouble(program, folder, board, seed):
    """Runs and undos on one server, over links on which greetings and their replies are lost, late and repeated."""
    steps = [POLICY, ATTRIBUTE]
    gets = [step.get for step in steps]
    plan, undo = servers.write(f"{folder}/plan.toml", text_of(steps, 15)), f"{folder}/undo.txt"
    with Server(program, board, SERVED_TURNS) as server, Asker(server.ports) as asker:
        before = asker.get_all(gets)
        with Troubled(server.ports[IPMB], f"{seed} ipmb") as ipmb, Troubled(server.ports[SMBUS], f"{seed} smbus") as smbus:
            ports = ipmb.port, smbus.port
            for time in "first", "second":
                expect(f"the {time} run", run(program, ports, plan, undo, "--greet", wait=SHORT_WAIT), (0, "phase Done\n", ""))
                changed = asker.get_all(gets)
                expect(f"records that the {time} run left", [get for get in gets if changed[get] == before[get]], [])
                # An undo sends a request four times at most, so it isn't troubled.
                expect("undo", undo_of(program, server.ports, undo, "--greet"), (0, "phase Undone\n", ""))
                expect("the records behind the undo", asker.get_all(gets), before)
            met = ipmb.counts + smbus.counts
        server.ended()
    if not met["lost"] or not met["repeated"]:
        raise Failed(f"few datagrams met with trouble: {dict(met)}")


def tests(board):
    """Returns the tests of this file: the name, the function and its words."""
    return [
        ("runs and undos that greet", runs_twice, (board,)),
        ("two plans that greet, undone in turn", back_in_turn, (board,)),
        ("an undo that greets behind another run", behind_another, (board, ["--greet"], 0x5F)),
        ("an undo behind another run, where nobody greets", behind_another, (board, [], 0x57)),
        ("an undo that greets, once more", undone_again, (board,)),
        ("a greeting of a busy IPMB", is_busy, (board, POLICY, "ipmb")),
        ("a greeting of a busy SMBus", is_busy, (board, ATTRIBUTE, "smbus")),
        ("a greeting that nobody answers", nobody_answers, ()),
        *((f"greetings in trouble {seed}", in_trouble, (board, seed)) for seed in range(3)),
    ]
