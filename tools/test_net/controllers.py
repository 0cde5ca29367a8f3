"""`apply` and `revert` over links that lose, repeat and delay, and with controllers that are slow, silent or busy, that refuse a step, or begin anew."""
import random
import re
import time

import frames
from lossy_link import Link, forged_reply

from . import servers
from .applies import LONG_WAIT, RETRIES, SERVED_TURNS, apply, is_empty, revert, words_of
from .greetings import ATTRIBUTE, HYSTERESIS, NOBODY, ON_IPMB, POLICY, critical, critical_now, run, undo_of
from .plans import IPMB, SMBUS, Step, steps_by, text_of
from .proxy import MOST_HELD, Proxy, Troubles
from .records import MOST_ASSET, WHOLE, read_record
from .servers import Asker, Failed, Server, call, expect, number_of

# What a link does to datagrams, of a hundred, and how many tries of a request meet with it: a revert sends a request four times at most.
ON_THE_WAY = Troubles(lose=8, repeat=10, hold=10, most_tries=2)
# How long one quiet turn lasts over such a link, in milliseconds, and how often a request has all its retries again.
LINK_WAIT, AGAIN = 500, 2
# The same where some replies don't come and others have to, however busy the machine is.
SOME_WAIT = 300
# How long a slow controller takes for a request, in seconds; a quiet turn of those who wait for it, and of those whose four tries end before.
SLOW, SLOW_WAIT, HASTY_WAIT = 1.2, 700, 100
# The commands of the thresholds.
GET_THRESHOLDS, SET_THRESHOLDS = 0x27, 0x26
# The call that a sentence names.
NAMED_CALL = re.compile(r"bmcnet (revert \S+ \d+(?: \d+)?)\n")


class Troubled(Proxy):
    """The proxy of one bus, which holds no request of a greeting. Where it `is_prompt`, what is held of earlier requests comes no more behind a greeting."""

    def __init__(self, bus, server_port, seed, is_prompt):
        super().__init__(bus, server_port, seed)
        self.troubles, self.is_prompt = ON_THE_WAY, is_prompt

    def hear(self, seen):
        if self.is_prompt and is_of_greeting(seen):
            self.held = [it for it in self.held if not it.to_server]
        super().hear(seen)

    def hold_for(self, seen, seconds, newer):
        if not is_of_greeting(seen):
            super().hold_for(seen, seconds, newer)


def is_of_greeting(seen):
    """Returns whether a datagram is a request of a greeting."""
    return seen.to_server and frames.GREETING in seen.data


def call_named(program, said, wait, *options):
    """Makes the call that a sentence names."""
    named = NAMED_CALL.search(said)
    if named is None:
        raise Failed(f"{said!r} names no call")
    task, *words = named[1].split()
    return call(program, task, "--wait", wait, *options, *words)


def taken_back(file, steps):
    """Returns how a revert ends that took so many steps back."""
    return 0, "", f"taken back: {steps} step{'s' if steps > 1 else ''}; {file}.done has the requests that did it, and {file} is empty\n"


def wanted_of(before, steps):
    """Returns what each record is once these steps were done."""
    wanted = dict(before)
    for step in steps:
        wanted[step.get] = step.makes(bytes.fromhex(wanted[step.get])).hex()
    return wanted


def over_links(program, folder, board, seed, is_prompt=True):
    """Over links that lose, repeat and delay a plan is applied, or halts at a step that is drawn, and is taken back: each record is as the plan's steps
    make it, and then as before."""
    draw = random.Random(f"controllers {seed}")
    steps = steps_by(f"controllers {seed}", 6, 10)
    at = draw.randrange(1, len(steps)) if seed % 2 else len(steps)
    plan = servers.write(f"{folder}/plan.toml", text_of([*steps[:at], *([NOBODY] if seed % 2 else []), *steps[at:]], RETRIES))
    file = f"{folder}/plan.undo"
    with Server(program, board, SERVED_TURNS) as server, Asker(server.ports) as asker:
        before = asker.get_all([step.get for step in steps])
        with Troubled(IPMB, server.ports[IPMB], seed, is_prompt) as ipmb, Troubled(SMBUS, server.ports[SMBUS], seed, is_prompt) as smbus:
            ports = ipmb.port, smbus.port
            next_call = f"bmcnet revert {file} {words_of(ports)}\n"
            status, out, err = apply(program, ports, plan, "--again", AGAIN, wait=LINK_WAIT)
            stand = "step 1 stands" if at == 1 else "steps 1 and 2 stand" if at == 2 else f"steps 1 to {at} stand"
            why = "sensor 77 thresholds can't be read (CBh, not present): nothing of it was set"
            halted = f"halted at step {at + 1} of {len(steps) + 1}: {why}; {stand}: {next_call}"
            said = halted if seed % 2 else f"done: {at} steps; to take them back: {next_call}"
            expect("apply", (status, out, err.split("\n", at)[-1]), (10 if seed % 2 else 0, "", said))
            # No frame of the plan comes behind the first of what takes it back.
            time.sleep(MOST_HELD)
            expect("the records that it left", asker.get_all(before), wanted_of(before, steps[:at]))
            expect("revert", call_named(program, err, LINK_WAIT, "--again", AGAIN), taken_back(file, at))
            expect("the records behind it", asker.get_all(before), before)
            met = ipmb.counts + smbus.counts
        expect("the file", is_empty(file), True)
        server.ended()
    return {name: met[name] for name in ("lost", "repeated", "held")}


class Mute(Link):
    """A link that loses the replies to a command of IPMB, or the requests, until it is to speak."""

    def __init__(self, server, command, loses_requests=False):
        super().__init__(server)
        self.command, self.loses_requests, self.speaks = command, loses_requests, False

    def hear(self, seen):
        if self.speaks or seen.data[5:6] != bytes([self.command]) or seen.to_server != self.loses_requests:
            self.hand_on(seen)


class Copying(Mute):
    """A link over which, once it speaks, the first Set of a threshold comes once more, behind the reply to the next one."""

    def hear(self, seen):
        if self.speaks and seen.data[5:6] == bytes([SET_THRESHOLDS]):
            self.counts["to the server" if seen.to_server else "back"] += 1
            if seen.to_server and self.counts["to the server"] == 1:
                self.hold(seen, 3600, lambda: self.counts["back"] > 1)
        super().hear(seen)


def late_copy_of_settled(program, folder, board):
    """A Set that a revert settles comes once more behind what takes it back, which is the next request but the greeting's: the record is as before."""
    plan, file = servers.write(f"{folder}/plan.toml", text_of([POLICY, critical(0x5A)], 1)), f"{folder}/plan.undo"
    with Server(program, board, SERVED_TURNS) as server, Asker(server.ports) as asker, Copying(server.ports[IPMB], SET_THRESHOLDS) as link:
        expect("apply", apply(program, [link.port], plan, wait=SOME_WAIT)[0], 11)
        link.speaks = True
        expect("revert", revert(program, [link.port], file), taken_back(file, 2))
        expect("the copies", link.counts["back"] > 1, True)
        expect("the threshold", critical_now(asker), 0x5F)
        server.ended()


def late_copy_to_undo(program, folder, board):
    """The same of a Set that `undo --greet` settles: nobody greets behind it, so that the controller still knows it."""
    plan, undo = servers.write(f"{folder}/plan.toml", text_of([POLICY, critical(0x5A)], 1)), f"{folder}/undo.txt"
    with Server(program, board, SERVED_TURNS) as server, Asker(server.ports) as asker, Copying(server.ports[IPMB], SET_THRESHOLDS) as link:
        ports = link.port, server.ports[SMBUS]
        expect("run", run(program, ports, plan, undo, "--greet", wait=SOME_WAIT), (0, "phase Unsettled 1\n", ""))
        link.speaks = True
        expect("undo", undo_of(program, ports, f"{undo}.part", "--greet"), (0, "phase Undone\n", ""))
        expect("the copies", link.counts["back"] > 1, True)
        expect("the threshold", critical_now(asker), 0x5F)
        # The greeting of the run, its Gets and Sets, and what takes both steps back; and the look at the threshold.
        expect("serve", server.ended(), (0, f"served {ON_IPMB + 2 * 2 + 2 + sum(asker.asked)}\nrecords same\n", ""))


def late_copies(program, folder, board, seed):
    """Requests that take back come once more within half a second, and within six newer requests, over a link that does nothing else: each record is as
    before. No request of a greeting comes so, and none of the plan."""
    plan, file = servers.write(f"{folder}/plan.toml", text_of([critical(0x52 + place) for place in range(6)], RETRIES)), f"{folder}/plan.undo"
    with Server(program, board, SERVED_TURNS) as server, Asker(server.ports) as asker, Troubled(IPMB, server.ports[IPMB], seed, False) as link:
        link.troubles = Troubles(repeat=40, most_tries=2)
        expect("apply", apply(program, server.ports[:1], plan)[0], 0)
        said = revert(program, [link.port], file)
        time.sleep(MOST_HELD)
        expect("revert, and the threshold", (said, critical_now(asker)), (taken_back(file, 6), 0x5F))
        server.ended()


class Slow(Link):
    """A link to a controller that takes its time for each request."""

    def hear(self, seen):
        if seen.to_server:
            self.hand_on(seen)
        else:
            self.hold(seen, SLOW)


def is_slow(program, folder, board):
    """A controller takes longer for a request than a turn: the request is sent again, is carried out once, and its reply is taken. Where all tries end
    before that, nothing is set, which is said."""
    plan, file = servers.write(f"{folder}/plan.toml", text_of([critical(0x5A)], RETRIES)), f"{folder}/plan.undo"
    with Server(program, board, SERVED_TURNS) as server, Asker(server.ports) as asker, Slow(server.ports[IPMB]) as link:
        said = f"no answer on ipmb, port {link.port}; nothing was set\n"
        expect("a hasty apply", apply(program, [link.port], plan, wait=HASTY_WAIT), (11, "", said))
        said = f"step 1: sensor 5 upper critical: 95 (5Fh) -> 90 (5Ah)\ndone: 1 step; to take it back: bmcnet revert {file} {link.port}\n"
        expect("apply", apply(program, [link.port], plan, wait=SLOW_WAIT), (0, "", said))
        expect("the threshold", critical_now(asker), 0x5A)
        expect("revert", revert(program, [link.port], file, wait=SLOW_WAIT), taken_back(file, 1))
        expect("the threshold behind it", critical_now(asker), 0x5F)
        # A greeting, whose first request the hasty call asked, the Get and the Set; a greeting and the request that takes back; and the Get of the look.
        carried = (ON_IPMB + 2) + (ON_IPMB + 1) + 1
        expect("serve", server.ended(), (0, f"served {carried + sum(asker.asked)}\nrecords same\n", ""))


FIRST_DID = "step 1: power restore policy: previous -> always on\n"
SETTLES = "to settle it and take back what was done: bmcnet revert"


def is_silent(program, folder, board, command, loses_requests, doubt, steps):
    """A request of the second step has no answer: which and what that leaves in doubt is said, with the call that settles it, and the status is 11. That
    call takes all back."""
    plan, file = servers.write(f"{folder}/plan.toml", text_of([POLICY, critical(0x5A)], 1)), f"{folder}/plan.undo"
    with Server(program, board, SERVED_TURNS) as server, Asker(server.ports) as asker, Mute(server.ports[IPMB], command, loses_requests) as link:
        before = asker.get_all([POLICY.get, critical(0).get])
        status, out, err = apply(program, [link.port], plan, wait=SOME_WAIT)
        expect("apply", (status, out, err), (11, "", f"{FIRST_DID}{doubt}; {SETTLES} {file} {link.port}\n"))
        expect("the journal", servers.read(file).split("\n")[0], "journal 1")
        is_set = command == SET_THRESHOLDS and not loses_requests
        expect("the threshold", critical_now(asker), 0x5A if is_set else 0x5F)
        said = f"{file} has something to take back, and isn't written over: bmcnet revert {file} {link.port}, or --replace puts it aside\n"
        expect("apply again", apply(program, [link.port], plan, wait=SOME_WAIT), (3, "", said))
        link.speaks = True
        expect("the call that it names", call_named(program, err, LONG_WAIT), taken_back(file, steps))
        expect("the records", asker.get_all(before), before)
        server.ended()


def silent_back(program, folder, board):
    """What takes a step back has no answer: that is said, with the call that settles it, and the status is 11. That call takes all back."""
    plan, file = servers.write(f"{folder}/plan.toml", text_of([POLICY, critical(0x5A)], 1)), f"{folder}/plan.undo"
    with Server(program, board, SERVED_TURNS) as server, Asker(server.ports) as asker, Mute(server.ports[IPMB], SET_THRESHOLDS) as link:
        before = asker.get_all([POLICY.get, critical(0).get])
        expect("apply", apply(program, [server.ports[IPMB]], plan)[0], 0)
        doubt = "no answer to what takes step 2 back, sensor 5 upper critical <- 95 (5Fh): whether it was taken back isn't known"
        status, out, err = revert(program, [link.port], file, wait=SOME_WAIT)
        expect("revert", (status, out, err), (11, "", f"{doubt}; {SETTLES} {file} {link.port}\n"))
        expect("the policy still stands", asker.get(*POLICY.get).hex() != before[POLICY.get], True)
        link.speaks = True
        expect("the call that it names", call_named(program, err, LONG_WAIT), taken_back(file, 2))
        expect("the records", asker.get_all(before), before)
        server.ended()


class Silent(Link):
    """A link over which nothing comes."""

    def hear(self, seen):
        self.counts["lost"] += 1


def silent_smbus(program, folder, board):
    """Nobody answers on SMBus: that is said of the greeting, and nothing is set on either bus."""
    plan = servers.write(f"{folder}/plan.toml", text_of([POLICY, ATTRIBUTE], 1))
    with Server(program, board, SERVED_TURNS) as server, Silent(server.ports[SMBUS]) as link:
        said = f"no answer on smbus, port {link.port}; nothing was set\n"
        expect("apply", apply(program, (server.ports[IPMB], link.port), plan, wait=SOME_WAIT), (11, "", said))
        expect("serve", server.ended(), (0, f"served {ON_IPMB}\nrecords same\n", ""))


class Busy(Link):
    """A link that tells in the controller's place that it is busy: the first tries of each request, or each try of a command, until it is to be free."""

    def __init__(self, server, tries=0, command=None):
        super().__init__(server)
        self.tries, self.command, self.is_free = tries, command, False
        self.number, self.seen = None, 0

    def hear(self, seen):
        if not seen.to_server:
            self.hand_on(seen)
            return
        number = number_of(IPMB, seen.data)
        self.seen = self.seen + 1 if number == self.number else 1
        self.number = number
        if not self.is_free and (self.seen <= self.tries or seen.data[5] == self.command):
            self.counts["busy"] += 1
            self.hand_on(seen, False, forged_reply(seen.data, frames.BUSY))
        else:
            self.hand_on(seen)


def is_busy_first(program, folder, board):
    """A controller is busy (C0h) at the first tries of each request: each is sent again, and carried out once."""
    plan, file = servers.write(f"{folder}/plan.toml", text_of([POLICY, critical(0x5A)], RETRIES)), f"{folder}/plan.undo"
    with Server(program, board, SERVED_TURNS) as server, Asker(server.ports) as asker, Busy(server.ports[IPMB], RETRIES) as link:
        before = asker.get_all([POLICY.get, critical(0).get])
        status, out, err = apply(program, [link.port], plan, wait=LINK_WAIT)
        said = f"{FIRST_DID}step 2: sensor 5 upper critical: 95 (5Fh) -> 90 (5Ah)\ndone: 2 steps; to take them back: bmcnet revert {file} {link.port}\n"
        expect("apply", (status, out, err), (0, "", said))
        expect("revert", revert(program, [link.port], file, wait=LINK_WAIT), taken_back(file, 2))
        expect("the records", asker.get_all(before), before)
        # The greeting, Gets and Sets; the greeting and what takes back; and the Gets of both records.
        carried = (ON_IPMB + 4) + (ON_IPMB + 2) + 2
        expect("busy", link.counts["busy"], RETRIES * carried)
        expect("serve", server.ended(), (0, f"served {carried + sum(asker.asked)}\nrecords same\n", ""))


def is_busy_at_set(program, folder, board):
    """A controller is busy (C0h) at a Set for good: what is in doubt is said, and the status is 11. Once it is free the call that is named takes all back."""
    plan, file = servers.write(f"{folder}/plan.toml", text_of([POLICY, critical(0x5A)], 1)), f"{folder}/plan.undo"
    with Server(program, board, SERVED_TURNS) as server, Asker(server.ports) as asker, Busy(server.ports[IPMB], command=SET_THRESHOLDS) as link:
        before = asker.get_all([POLICY.get, critical(0).get])
        doubt = "no answer to the Set of step 2, sensor 5 thresholds: whether it was set isn't known"
        status, out, err = apply(program, [link.port], plan, wait=SOME_WAIT)
        expect("apply", (status, out, err), (11, "", f"{FIRST_DID}{doubt}; {SETTLES} {file} {link.port}\n"))
        expect("the threshold", critical_now(asker), 0x5F)
        link.is_free = True
        expect("the call that it names", call_named(program, err, LONG_WAIT), taken_back(file, 2))
        expect("the records", asker.get_all(before), before)
        server.ended()


# Twelve steps, of which the third asks for an upper critical threshold below the upper non-critical one.
TWELVE = [POLICY, HYSTERESIS, critical(0x30), *(critical(0x52 + place) for place in range(9))]
TWO_DID = f"{FIRST_DID}step 2: sensor 5 positive-going hysteresis: 2 (02h) -> 4 (04h); negative-going hysteresis: 2 (02h) -> 4 (04h)\n"
WATCHDOG = Step('kind = "watchdog"\nuse = 4\nno_log = true\naction = 1\ninterrupt = 0\npre = 0\ninitial = 900\n', None)


def refuses_step(program, folder, board):
    """A controller refuses the third of twelve steps (CCh): which, why and what stands is said, and the status is 10. What stands is taken back."""
    plan, file = servers.write(f"{folder}/plan.toml", text_of(TWELVE, RETRIES)), f"{folder}/plan.undo"
    with Server(program, board, SERVED_TURNS) as server, Asker(server.ports) as asker:
        ipmb = server.ports[IPMB]
        before = asker.get_all([POLICY.get, HYSTERESIS.get, critical(0).get])
        said = "halted at step 3 of 12: sensor 5 thresholds refused (CCh, invalid data field): nothing of it was set; steps 1 and 2 stand: bmcnet revert"
        status, out, err = apply(program, [ipmb], plan)
        expect("apply", (status, out, err), (10, "", f"{TWO_DID}{said} {file} {ipmb}\n"))
        changed = asker.get_all(before)
        expect("the records that it left as they were", [get for get in before if changed[get] == before[get]], [critical(0).get])
        expect("the call that it names", call_named(program, err, LONG_WAIT), taken_back(file, 2))
        expect("the records", asker.get_all(before), before)
        server.ended()


def refuses_first(program, folder, board):
    """The first step can't be read, or its value can't be brought back: that is said, no step was done, and the status is 10."""
    with Server(program, board, SERVED_TURNS) as server:
        for step, said in [
            (NOBODY, "sensor 77 thresholds can't be read (CBh, not present)"),
            (WATCHDOG, "watchdog timer has a value that no request brings back"),
        ]:
            plan = servers.write(f"{folder}/plan.toml", text_of([step, POLICY], RETRIES))
            wanted = f"halted at step 1 of 2: {said}: nothing of it was set; no step was done\n"
            expect("apply", apply(program, server.ports, plan), (10, "", wanted))
            said = f"{folder}/plan.undo has nothing to take back; nothing was sent\n"
            expect("revert", revert(program, server.ports, f"{folder}/plan.undo"), (0, "", said))
        expect("serve", server.ended()[1].split("\n")[1:], ["records same", ""])


class LastPart(Link):
    """A link that loses the last part of a string, or the reply to that, and all that comes behind, until it is to speak."""

    END = 4

    def __init__(self, server, is_carried_out):
        super().__init__(server)
        self.is_carried_out, self.is_lost, self.speaks = is_carried_out, False, False

    def hear(self, seen):
        is_last = seen.to_server and bool(seen.data[7] & 0x80) and seen.data[10:12] == b"\x03\x07" and seen.data[16] == self.END
        self.is_lost = self.is_lost or is_last
        if self.speaks or not self.is_lost or (seen.to_server and self.is_carried_out):
            self.hand_on(seen)


def begins_anew(program, folder, board, is_carried_out):
    """The controller ends while the last part of a string is open, and another one with its records begins. Where the part was carried out, the revert
    names the record, which no list brings back, and ends with 10; where it wasn't, each record is as before."""
    long = "y" * 300
    text = Step(f'kind = "bios-attribute"\nhandle = 1\ntext = "{long}"\n', (SMBUS, (0x03, 0x08, bytes([0, 0, 0, 0, 1, 1, 0]))))
    plan, file = servers.write(f"{folder}/plan.toml", text_of([critical(0x5A), text], 1)), f"{folder}/plan.undo"
    first = servers.read(board).replace("most = 200", f"most = {MOST_ASSET}")
    with Server(program, servers.write(f"{folder}/first.toml", first), SERVED_TURNS) as server, LastPart(server.ports[SMBUS], is_carried_out) as link:
        ports = server.ports[IPMB], link.port
        status, out, err = apply(program, ports, plan, wait=1000)
        said = "step 1: sensor 5 upper critical: 95 (5Fh) -> 90 (5Ah)\nno answer to the Set of step 2, attribute 1: whether it was set isn't known"
        expect("apply", (status, out, err), (11, "", f"{said}; {SETTLES} {file} {words_of(ports)}\n"))
        with Asker(server.ports) as asker:
            shown = read_record(asker, text.get)
            expect("the string", shown[len(WHOLE) + 5 :] == long.encode(), is_carried_out)
        server.stop()
        # The next controller has the records that this one was left with.
        kept = first.replace("0x50, 0x5F, 0x6E", "0x50, 0x5A, 0x6E")
        kept = kept.replace('current = "rack-1"', f'current = "{long}"') if is_carried_out else kept
        with Server(program, servers.write(f"{folder}/kept.toml", kept), SERVED_TURNS, ports=server.ports) as again, Asker(again.ports) as asker:
            expect("the threshold", critical_now(asker), 0x5A)
            link.speaks = True
            status, out, err = call_named(program, err, 1000)
            named = 'attribute 1 ("Asset") isn\'t as before: somebody else set it, or the controller lost it\n' if is_carried_out else ""
            expect("revert", (status, out, err), (10 if is_carried_out else 0, "", taken_back(file, 1)[2] + named))
            expect("the records", (critical_now(asker), read_record(asker, text.get)), (0x5F, shown))
            again.ended()


def tests(board):
    """Returns the tests of this file: the name, the function and its words."""
    get = "no answer to the Get of step 2, sensor 5 thresholds: nothing of it was set"
    put = "no answer to the Set of step 2, sensor 5 thresholds: whether it was set isn't known"
    return [
        *((f"apply and revert over links {seed}", over_links, (board, seed)) for seed in range(6)),
        *((f"a revert over a link that repeats late {seed}", late_copies, (board, seed)) for seed in range(12)),
        ("a revert over a link that repeats what it settles", late_copy_of_settled, (board,)),
        ("an undo that is to greet, over a link that repeats what it settles", late_copy_to_undo, (board,)),
        ("apply and revert of a slow controller", is_slow, (board,)),
        ("an apply of which a Get has no answer", is_silent, (board, GET_THRESHOLDS, False, get, 1)),
        ("an apply of which a Set has no answer, carried out", is_silent, (board, SET_THRESHOLDS, False, put, 2)),
        ("an apply of which a Set is lost", is_silent, (board, SET_THRESHOLDS, True, put, 2)),
        ("a revert of which a request has no answer", silent_back, (board,)),
        ("an apply that nobody answers on SMBus", silent_smbus, (board,)),
        ("apply and revert of a controller that is busy at first", is_busy_first, (board,)),
        ("an apply of which a Set finds the controller busy", is_busy_at_set, (board,)),
        ("an apply whose third of twelve steps is refused", refuses_step, (board,)),
        ("an apply whose first step is refused", refuses_first, (board,)),
        ("a revert of a controller that began anew behind a string", begins_anew, (board, True)),
        ("a revert of a controller that began anew before the end of a string", begins_anew, (board, False)),
    ]
