"""`apply` and `revert` on one server: done, halted, refused by what a file has, unanswered, killed on the way, and taken back."""
import json
import os
import signal
import socket
import subprocess
import time

from lossy_link import Link

from . import servers
from .greetings import ATTRIBUTE, EMPTY_LIST, NOBODY, ON_IPMB, ON_SMBUS, POLICY, WINDOWS, critical, critical_now, requests_at, set_critical
from .plans import IPMB, SMBUS, Step, steps_by, text_of
from .servers import HOST, Asker, Server, call, expect

# How long one quiet turn lasts, in milliseconds: where nobody is to answer, and where each reply has to come, however busy the machine is.
SHORT_WAIT, LONG_WAIT = 50, 5000
SERVED_TURNS, RETRIES = 6000, 3
# What FILE has once all was taken back, or before anything was done: a list without a request.
EMPTY = [line for line in EMPTY_LIST.split("\n") if not line.startswith("next")]
# A list that sets the power policy, and one of other names.
LISTED = EMPTY_LIST.replace("next ipmb 0", "next ipmb 2") + "ipmb 000600\n"


def apply(program, ports, plan, *options, wait=LONG_WAIT):
    return call(program, "apply", "--wait", wait, *options, plan, *ports)


def revert(program, ports, file, *options, wait=LONG_WAIT):
    return call(program, "revert", "--wait", wait, *options, file, *ports)


def words_of(ports):
    return " ".join(map(str, ports))


def is_empty(file):
    """Whether the file is an undo text without a request."""
    return [line for line in servers.read(file).split("\n") if not line.startswith("next")] == EMPTY


def applied_twice(program, folder, board):
    """A plan is applied and taken back on one server, and so once more: each time carried out, and each list is kept."""
    steps = [POLICY, ATTRIBUTE]
    gets = [step.get for step in steps]
    plan, file = servers.write(f"{folder}/plan.toml", text_of(steps, RETRIES)), f"{folder}/plan.undo"
    with Server(program, board, SERVED_TURNS) as server, Asker(server.ports) as asker:
        ports, before = words_of(server.ports), asker.get_all(gets)
        for place in range(2):
            said = f"done: 2 steps; to take them back: bmcnet revert {file} {ports}\n"
            status, out, err = apply(program, server.ports, plan)
            lines = err.split("\n")
            expect("apply", (status, out, [line[:7] for line in lines[:2]], "\n".join(lines[2:])), (0, "", ["step 1:", "step 2:"], said))
            expect("the list", len(servers.read(file).split("\n")), 6)
            changed = asker.get_all(gets)
            expect("records that it left", [get for get in gets if changed[get] == before[get]], [])
            said = f"taken back: 2 steps; {file}.done has the requests that did it, and {file} is empty\n"
            listed = servers.read(file)
            expect("revert", revert(program, server.ports, file), (0, "", said))
            expect("the records behind it", asker.get_all(gets), before)
            expect("the file", is_empty(file), True)
            expect("the list that was kept", servers.read(f"{file}.done").split("\n")[3:], listed.split("\n")[3:])
            said = f"{file} has nothing to take back; nothing was sent\n"
            expect("revert again", revert(program, server.ports, file), (0, "", said))
        expect("an older list", os.path.exists(f"{file}.done.1"), True)
        # Each apply and each revert greets once, and each revert looks at each record behind it, without another greeting.
        carried = 4 * (ON_IPMB + ON_SMBUS) + 2 * 3 * len(steps) + 2 * 2
        expect("serve", server.ended(), (0, f"served {carried + sum(asker.asked)}\nrecords same\n", ""))


def halts(program, folder, board):
    """A plan halts at its second step: that is said, with what stands, and the status is 10. Its revert takes back the first."""
    plan, file = servers.write(f"{folder}/plan.toml", text_of([critical(0x5A), NOBODY, POLICY], RETRIES)), f"{folder}/mine.undo"
    with Server(program, board, SERVED_TURNS) as server, Asker(server.ports) as asker:
        ipmb = server.ports[IPMB]
        said = f"halted at step 2 of 3: sensor 77 thresholds can't be read (CBh, not present): nothing of it was set; step 1 stands: bmcnet revert {file} {ipmb}\n"
        done = "step 1: sensor 5 upper critical: 95 (5Fh) -> 90 (5Ah)\n"
        expect("apply", apply(program, [ipmb], plan, "--undo", file), (10, "", done + said))
        expect("the threshold", critical_now(asker), 0x5A)
        said = f"{file} has something to take back, and isn't written over: bmcnet revert {file} {ipmb}, or --replace puts it aside\n"
        expect("apply again", apply(program, [ipmb], plan, "--undo", file), (3, "", said))
        status, out, err = apply(program, [ipmb], plan, "--undo", file, "--replace")
        expect("apply that replaces", (status, out, err.split("\n")[0]), (10, "", f"put aside: {file}.1"))
        for name in file, f"{file}.1":
            expect(f"revert {name}", revert(program, [ipmb], name)[:2], (0, ""))
        expect("the threshold behind both", critical_now(asker), 0x5F)
        server.ended()


def as_objects(program, folder, board):
    """With `--json` either says what came of it as one object in a line of standard output, and nothing on standard error: done, halted, taken back."""
    done, halting = servers.write(f"{folder}/done.toml", text_of([POLICY], RETRIES)), servers.write(f"{folder}/halting.toml", text_of([POLICY, NOBODY], RETRIES))
    with Server(program, board, SERVED_TURNS) as server:
        ipmb = server.ports[IPMB]
        for plan, status, outcome, steps in [(done, 0, "done", 1), (halting, 10, "halted", 2)]:
            file = plan.replace(".toml", ".undo")
            found = apply(program, [ipmb], plan, "--json")
            said = json.loads(found[1])
            expect("apply --json", (found[0], found[1].count("\n"), found[2]), (status, 1, ""))
            wanted = (outcome, steps, 1, file, True, f"bmcnet revert {file} {ipmb}")
            expect("its object", tuple(said[it] for it in ("outcome", "steps", "stands", "file", "kept", "next")), wanted)
            expect("where it stopped", said.get("stop", {}).get("code"), 0xCB if status else None)
            found = revert(program, [ipmb], file, "--json")
            said = json.loads(found[1])
            expect("revert --json", (found[0], found[1].count("\n"), found[2]), (0, 1, ""))
            expect("its object", tuple(said[it] for it in ("outcome", "steps", "records", "looked", "kept")), ("undone", 1, [], True, True))
        server.ended()


def refuses(program, folder):
    """What isn't a plan, and what has a key that nothing reads or no step, is refused before anything is sent; and a plan on SMBus without its port."""
    with socket.socket(socket.AF_INET, socket.SOCK_DGRAM) as nobody:
        nobody.bind((HOST, 0))
        nobody.settimeout(0)
        port = nobody.getsockname()[1]
        for name, text in [
            ("steps", '[[steps]]\nkind = "power-policy"\npolicy = 2\n'),
            ("key", text_of([POLICY], 1).replace("policy = 2", "policy = 2\npolice = 3")),
            ("board", servers.read(servers.BOARD)),
            ("empty", "retries = 3\n"),
        ]:
            plan = servers.write(f"{folder}/{name}.toml", text)
            status, out, err = apply(program, (port, port), plan, wait=SHORT_WAIT)
            expect(name, (status, out, err.startswith(plan), os.path.exists(f"{folder}/{name}.undo")), (3, "", True, False))
        plan = servers.write(f"{folder}/smbus.toml", text_of([ATTRIBUTE], 1))
        status, out, err = apply(program, (port,), plan, wait=SHORT_WAIT)
        expect("a plan on SMBus", (status, out, "P1" in err, os.path.exists(f"{folder}/smbus.undo")), (2, "", True, False))
        text = servers.write(f"{folder}/other.undo", LISTED.replace("0A\n", "0B\n", 1))
        expect("another's list", revert(program, (port, port), text, wait=SHORT_WAIT)[0], 3)
        text = servers.write(f"{folder}/bad.undo", "undo 2\nnext\n")
        expect("a bad list", revert(program, (port, port), text, wait=SHORT_WAIT)[0], 3)
        expect("what was sent", requests_at(nobody), [])


def nobody_answers(program, folder):
    """Nobody answers the greeting: that is said, nothing else is sent, and the status is 11. FILE has nothing to take back then, and its list is kept."""
    plan, file = servers.write(f"{folder}/plan.toml", text_of([critical(0x5A)], 2)), f"{folder}/plan.undo"
    done = servers.write(f"{folder}/done.undo", LISTED)
    with socket.socket(socket.AF_INET, socket.SOCK_DGRAM) as nobody:
        nobody.bind((HOST, 0))
        nobody.settimeout(0)
        port = nobody.getsockname()[1]
        said = f"no answer on ipmb, port {port}; nothing was set\n"
        expect("apply", apply(program, (port,), plan, wait=SHORT_WAIT), (11, "", said))
        expect("the requests' numbers", [frame[4] >> 2 for frame in requests_at(nobody)], 3 * [31])
        said = f"no answer on ipmb, port {port}; nothing was taken back; to go on: bmcnet revert {done} {port}\n"
        expect("revert", revert(program, (port,), done, wait=SHORT_WAIT), (11, "", said))
        expect("the requests' numbers", [frame[4] >> 2 for frame in requests_at(nobody)], 4 * [33])
    expect("revert of nothing", revert(program, (port,), file, wait=SHORT_WAIT)[0], 0)
    expect("the journal", servers.read(done).split("\n")[0], "journal 1")


def is_busy(program, folder, board):
    """Eight others are being served: that is said, and nothing is set."""
    plan = servers.write(f"{folder}/plan.toml", text_of([POLICY], 1))
    with Server(program, board, SERVED_TURNS) as server:
        askers = [Asker(server.ports, 0x42 + 2 * place, 0x0C + place) for place in range(WINDOWS)]
        try:
            for asker in askers:
                asker.get(*POLICY.get)
            ipmb = server.ports[IPMB]
            said = f"busy on ipmb, port {ipmb}: eight others are being served there; nothing was set\n"
            expect("apply", apply(program, server.ports, plan, wait=200), (11, "", said))
            expect("serve", server.ended(), (0, f"served {WINDOWS}\nrecords same\n", ""))
        finally:
            for asker in askers:
                asker.__exit__()


def many_kinds(program, folder, board, seed):
    """Plans of many kinds of records, each several times, are applied and taken back, and each record is as before, which the revert sees, too."""
    steps = steps_by(f"applies {seed}", 20, 30)
    plan, file = servers.write(f"{folder}/plan.toml", text_of(steps, RETRIES)), f"{folder}/plan.undo"
    with Server(program, board, SERVED_TURNS) as server, Asker(server.ports) as asker:
        before = asker.get_all([step.get for step in steps])
        status, out, err = apply(program, server.ports, plan)
        said = f"done: {len(steps)} steps; to take them back: bmcnet revert {file} {words_of(server.ports)}"
        expect("apply", (status, out, len(err.split("\n")), err.split("\n")[-2]), (0, "", len(steps) + 2, said))
        said = f"taken back: {len(steps)} steps; {file}.done has the requests that did it, and {file} is empty\n"
        expect("revert", revert(program, server.ports, file), (0, "", said))
        expect("the records", asker.get_all(before), before)
        server.ended()


# A step of each kind, some of them twice, for the board of ONE_OF_EACH.
ONE_OF_EACH = f"{servers.TOP}/examples/one_of_each.toml"
EACH_KIND = [
    'kind = "thresholds"\nsensor = 1\nuc = 0x68',
    'kind = "thresholds"\nsensor = 1\nuc = 0x69\nunc = 0x61',
    'kind = "hysteresis"\nsensor = 1\npositive = 2\nnegative = 2',
    'kind = "event-enable"\nsensor = 1\nmessages = true\nscanning = false\nselect = "enable"\nassert = [6, 7]\ndeassert = [8]',
    'kind = "event-enable"\nsensor = 1\nmessages = false\nscanning = true\nselect = "disable"\nassert = [7]\ndeassert = [6, 9]',
    'kind = "watchdog"\nuse = 4\nno_log = true\naction = 1\ninterrupt = 0\npre = 0\ninitial = 900',
    'kind = "power-policy"\npolicy = 2',
    'kind = "global-enables"\nvalue = 1',
    'kind = "boot-param"\nparam = 3\ninvalid = false\ndata = [2]',
    'kind = "boot-param"\nparam = 4\ninvalid = false\ndata = [3, 2]',
    'kind = "boot-param"\nparam = 5\ninvalid = false\ndata = [0x80, 4, 0, 0, 0]',
    'kind = "bios-attribute"\nhandle = 0\nindexes = [2]',
    'kind = "bios-attribute"\nhandle = 2\nnumber = 7',
    'kind = "state-effecter"\neffecter = 262\nstates = [1, -1]',
    'kind = "numeric-effecter"\neffecter = 261\nsize = 3\nvalue = -100',
    'kind = "user-name"\nuser = 2\nname = "ops"',
    'kind = "user-access"\nchannel = 1\nuser = 2\nlimit = 3',
    'kind = "user-access"\nchannel = 1\nuser = 3\nlimit = 2\ncallback = true\nlink = true\nmessaging = false',
    'kind = "channel-access"\nchannel = 1\nstore = "volatile"\nlimit = 2',
    'kind = "channel-access"\nchannel = 1\nstore = "non-volatile"\naccess = 1',
    'kind = "lan-param"\nchannel = 1\nparam = 3\ndata = [192, 0, 2, 9]',
    'kind = "lan-param"\nchannel = 1\nparam = 20\ndata = [5, 0x80]',
]


def each_kind(program, folder):
    """A plan with a step of each kind is applied and taken back: each step is told, and the revert sees each record as before."""
    plan = servers.write(f"{folder}/plan.toml", "retries = 3\n" + "".join(f"\n[[step]]\n{step}\n" for step in EACH_KIND))
    # A watchdog without a use can't be brought back.
    board = servers.write(f"{folder}/board.toml", servers.read(ONE_OF_EACH).replace("watchdog = [0,", "watchdog = [4,"))
    file = f"{folder}/plan.undo"
    with Server(program, board, SERVED_TURNS) as server:
        status, out, err = apply(program, server.ports, plan)
        told = [line.split(":")[0] for line in err.split("\n")[:-2]]
        expect("apply", (status, out, told), (0, "", [f"step {place + 1}" for place in range(len(EACH_KIND))]))
        said = f"taken back: {len(EACH_KIND)} steps; {file}.done has the requests that did it, and {file} is empty\n"
        expect("revert", revert(program, server.ports, file), (0, "", said))
        expect("serve", server.ended()[1].split("\n")[1:], ["records same", ""])


class Silence(Link):
    """A link over which the reply to a Set of a threshold is lost, and all that comes behind, until it is to speak; or, where the Set is heard, all behind its reply."""

    def __init__(self, server):
        super().__init__(server)
        self.silent = self.speaks = self.hears_set = False

    def hear(self, seen):
        if not self.silent or self.speaks:
            self.hand_on(seen)
        if seen.to_server != self.hears_set and seen.data[5:6] == b"\x26":
            self.silent = True


def unsettled(program, folder, board):
    """No reply comes to a Set: that is said, with the call that settles it, and the status is 11. The revert settles it, and takes it back."""
    plan, file = servers.write(f"{folder}/plan.toml", text_of([POLICY, critical(0x5A)], 1)), f"{folder}/plan.undo"
    with Server(program, board, SERVED_TURNS) as server, Asker(server.ports) as asker, Silence(server.ports[IPMB]) as link:
        before = asker.get_all([POLICY.get])
        said = (
            "no answer to the Set of step 2, sensor 5 thresholds: whether it was set isn't known; to settle it and take back what was done: "
            f"bmcnet revert {file} {link.port}\n"
        )
        status, out, err = apply(program, [link.port], plan, wait=200)
        expect("apply", (status, out, err[err.index("\n") + 1 :]), (11, "", said))
        expect("the threshold", critical_now(asker), 0x5A)
        status, out, err = revert(program, [link.port], file, wait=200)
        expect("revert in silence", (status, out, err), (11, "", said))
        link.speaks = True
        expect("revert", revert(program, [link.port], file), (0, "", f"taken back: 2 steps; {file}.done has the requests that did it, and {file} is empty\n"))
        expect("the records", (critical_now(asker), asker.get_all([POLICY.get])), (0x5F, before))
        server.ended()


def until_silent(program, folder, board):
    """The controller falls silent once all is taken back: no record can be looked at, which is said, and the status is 11. FILE is empty."""
    plan, file = servers.write(f"{folder}/plan.toml", text_of([critical(0x5A)], 1)), f"{folder}/plan.undo"
    with Server(program, board, SERVED_TURNS) as server, Asker(server.ports) as asker, Silence(server.ports[IPMB]) as link:
        expect("apply", apply(program, [server.ports[IPMB]], plan)[0], 0)
        link.hears_set = True
        said = f"taken back: 1 step; {file}.done has the requests that did it, and {file} is empty\nsensor 5 thresholds couldn't be looked at: no answer\n"
        expect("revert", revert(program, [link.port], file, wait=200), (11, "", said))
        expect("the file", (is_empty(file), critical_now(asker)), (True, 0x5F))
        server.ended()


class Meddler(Link):
    """A link over which the reply to a Set of a threshold is held until somebody else has set it."""

    def __init__(self, server, sets):
        super().__init__(server)
        self.sets = sets

    def hear(self, seen):
        if not seen.to_server and seen.data[5:6] == b"\x26":
            self.sets()
        self.hand_on(seen)


def meddled(program, folder, board):
    """Somebody else sets a record once it is taken back: that it isn't as before is said, and the status is 10."""
    plan, file = servers.write(f"{folder}/plan.toml", text_of([critical(0x5A), POLICY, critical(0x58)], RETRIES)), f"{folder}/plan.undo"
    with Server(program, board, SERVED_TURNS) as server, Asker(server.ports) as asker:
        ipmb = server.ports[IPMB]
        expect("apply", apply(program, [ipmb], plan)[0], 0)
        with Meddler(ipmb, lambda: set_critical(asker, 0x57)) as link:
            said = (
                f"taken back: 3 steps; {file}.done has the requests that did it, and {file} is empty\n"
                "sensor 5 thresholds isn't as before: somebody else set it, or the controller lost it\n"
            )
            expect("revert", revert(program, [link.port], file), (10, "", said))
        expect("the threshold", critical_now(asker), 0x57)
        server.ended()


class Deaf(Link):
    """A link over which no reply comes back once the last part of a string went to the server, until it is to speak."""

    END = 4

    def __init__(self, server):
        super().__init__(server)
        self.deaf = self.speaks = False

    def hear(self, seen):
        if seen.to_server:
            is_set = seen.data[7] & 0x80 and seen.data[10:12] == b"\x03\x07"
            self.deaf = self.deaf or bool(is_set and seen.data[16] == self.END)
        elif self.deaf and not self.speaks:
            return
        self.hand_on(seen)


def forgotten(program, folder, board):
    """The controller is restarted while the last part of a string has no answer, and knows nothing of the string then: it refuses the part that is sent again. The
    record of the step that was in doubt is named, with its attribute's name, and the status is 10."""
    text = Step('kind = "bios-attribute"\nhandle = 1\ntext = "' + 300 * "y" + '"\n', (SMBUS, (0x03, 0x08, bytes([0, 0, 0, 0, 1, 1, 0]))))
    plan, file = servers.write(f"{folder}/plan.toml", text_of([ATTRIBUTE, text], 1)), f"{folder}/plan.undo"
    board = servers.write(f"{folder}/board.toml", servers.read(board).replace("most = 200", "most = 1024"))
    with Server(program, board, SERVED_TURNS, "--wait", 50, "--forget", 20) as server, Asker(server.ports) as asker, Deaf(server.ports[SMBUS]) as link:
        before = asker.get_all([ATTRIBUTE.get, text.get])
        ports = server.ports[IPMB], link.port
        status, out, err = apply(program, ports, plan, wait=1000)
        expect("apply", (status, out, "no answer to the Set of step 2, attribute 1: whether it was set isn't known" in err), (11, "", True))
        time.sleep(3)
        link.speaks = True
        said = (
            f"taken back: 1 step; {file}.done has the requests that did it, and {file} is empty\n"
            'attribute 1 ("Asset") isn\'t as before: somebody else set it, or the controller lost it\n'
        )
        expect("revert", revert(program, ports, file), (10, "", said))
        expect("the first record", asker.get(*ATTRIBUTE.get).hex(), before[ATTRIBUTE.get])
        server.ended()


class Slow(Link):
    """A link over which each datagram takes its time."""

    def hear(self, seen):
        self.hold(seen, 0.02)


def killed(program, folder, board):
    """A process that applies is killed on the way, while another is refused FILE. The revert takes back what it did."""
    steps = [critical(0x52 + place % 8) for place in range(40)]
    plan, file = servers.write(f"{folder}/plan.toml", text_of(steps, RETRIES)), f"{folder}/plan.undo"
    with Server(program, board, SERVED_TURNS) as server, Asker(server.ports) as asker, Slow(server.ports[IPMB]) as link:
        words = [program, "apply", "--wait", str(LONG_WAIT), plan, str(link.port)]
        with subprocess.Popen(words, stdout=subprocess.DEVNULL, stderr=subprocess.DEVNULL) as process:
            until = time.monotonic() + 20
            while critical_now(asker) == 0x5F and time.monotonic() < until:
                time.sleep(0.01)
            said = f"{file} is held by another process, or can't be held; nothing was sent\n"
            if process.poll() is None:
                expect("a second apply", apply(program, [link.port], plan)[2], said)
                expect("a revert meanwhile", revert(program, [link.port], file)[2], said)
            process.send_signal(signal.SIGKILL)
            process.wait()
        expect("revert", revert(program, [link.port], file)[:2], (0, ""))
        expect("the threshold", critical_now(asker), 0x5F)
        server.ended()


def refused(program, folder, board):
    """The controller refuses a request that takes back: that is said, the status is 12, and FILE has what is still to be taken back."""
    plan, file = servers.write(f"{folder}/plan.toml", text_of([POLICY, critical(0x5A)], RETRIES)), f"{folder}/plan.undo"
    with Server(program, board, SERVED_TURNS) as server, Asker(server.ports) as asker:
        expect("apply", apply(program, server.ports, plan)[0], 0)
        lines = servers.read(file).split("\n")
        # The request that takes back step 1 asks for a policy that there isn't.
        servers.write(file, "\n".join([*lines[:4], "ipmb 000607", ""]))
        status, out, err = revert(program, server.ports, file)
        expect("revert", (status, out, err.startswith("step 1 can't be taken back: refused (CCh, invalid data field)")), (12, "", True))
        expect("what is left", servers.read(file).split("\n")[3:], ["ipmb 000607", ""])
        expect("the threshold", critical_now(asker), 0x5F)
        server.ended()


def tests(board):
    """Returns the tests of this file: the name, the function and its words."""
    return [
        ("apply and revert, twice", applied_twice, (board,)),
        *((f"apply and revert, many kinds {seed}", many_kinds, (board, seed)) for seed in range(3)),
        ("apply and revert, each kind", each_kind, ()),
        ("an apply that halts", halts, (board,)),
        ("apply and revert, as objects", as_objects, (board,)),
        ("an apply and a revert that are refused", refuses, ()),
        ("an apply that nobody answers", nobody_answers, ()),
        ("an apply that a busy controller answers", is_busy, (board,)),
        ("an apply of which a Set has no answer", unsettled, (board,)),
        ("a revert behind which nobody answers", until_silent, (board,)),
        ("a revert behind which somebody sets a record", meddled, (board,)),
        ("a revert of a string whose last part is forgotten", forgotten, (board,)),
        ("an apply that is killed", killed, (board,)),
        ("a revert that is refused", refused, (board,)),
    ]
