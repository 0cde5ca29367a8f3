"""`apply --only-changes`, `apply --all-or-none` and `revert --preview`: what is left out, what is taken back at once, and what would be."""
import json
import os
import random
import socket

from . import servers
from .applies import EMPTY, LISTED, RETRIES, SERVED_TURNS, apply, is_empty, revert
from .controllers import GET_THRESHOLDS, SET_THRESHOLDS, SOME_WAIT, Mute, Silent
from .greetings import ATTRIBUTE, NOBODY, ON_IPMB, ON_SMBUS, POLICY, critical, critical_now, requests_at
from .kills import Applied, moment
from .plans import IPMB, text_of
from .previews import ATTRIBUTE_NAMES
from .servers import HOST, Asker, Server, expect

# What sensor 5 of the sample board begins with, and what a plan gives it.
BEGINS, OTHER = 0x5F, 0x5A
DONE_CRITICAL = "sensor 5 upper critical: 95 (5Fh) -> 90 (5Ah)"
DONE_POLICY = "power restore policy: previous -> always on"
BACK_CRITICAL, BACK_POLICY = "sensor 5 upper critical <- 95 (5Fh)", "power restore policy <- previous"
MISSING = "sensor 77 thresholds can't be read (CBh, not present): nothing of it was set"
# How many runs of a plan that halts are killed at a moment that is drawn.
MOMENTS = 4


def plan_at(folder, steps, name="plan"):
    """Writes a plan of these steps, and returns its name and that of its FILE."""
    return servers.write(f"{folder}/{name}.toml", text_of(steps, RETRIES)), f"{folder}/{name}.undo"


def file_as_it_is(file):
    """Returns what a file has, when it was written and which it is."""
    found = os.stat(file)
    return servers.read(file), found.st_mtime_ns, found.st_ino


def objects_of(what, found, status):
    """Tests that a call ends with this status and prints objects alone, one in a line, and returns those."""
    expect(what, (found[0], found[2]), (status, ""))
    return [json.loads(line) for line in found[1].splitlines()]


def applied_again(program, folder, board):
    """A plan is applied, and then nothing of it is left to do: that is said, the controller is greeted and each record is got, and FILE and its lock stay as
    they are, or aren't made."""
    plan, file = plan_at(folder, [POLICY, ATTRIBUTE])
    said = "nothing to change: 2 steps, and each leaves its record as it is\n"
    fresh = f"{folder}/fresh.undo"
    with Server(program, board, SERVED_TURNS) as server:
        status, out, err = apply(program, server.ports, plan, "--only-changes")
        expect("the first apply", (status, out, [line.split(":")[0] for line in err.splitlines()]), (0, "", ["step 1", "step 2", "done"]))
        left = file_as_it_is(file), file_as_it_is(f"{file}.lock")
        expect("the second apply", apply(program, server.ports, plan, "--only-changes"), (0, "", said))
        expect("FILE behind it", (file_as_it_is(file), file_as_it_is(f"{file}.lock")), left)
        expect("a third, with a new FILE", apply(program, server.ports, plan, "--only-changes", "--undo", fresh, "--all-or-none"), (0, "", said))
        expect("the new FILE", [name for name in os.listdir(folder) if name.startswith("fresh")], [])
        found = apply(program, server.ports, plan, "--only-changes", "--json")
        expect("its object", objects_of("a fourth, with --json", found, 0), [{"outcome": "nothing to change", "steps": 2}])
        # The first greets twice, gets each record twice and sets it once, and each other greets once and gets each record once; each reads two tables.
        carried = 5 * (ON_IPMB + ON_SMBUS) + 2 * 3 + 3 * 2 + 4 * ATTRIBUTE_NAMES
        expect("serve", server.ended(), (0, f"served {carried}\nrecords changed 2\n", ""))


def steps_of_a_record(program, folder, board):
    """Of a record each step is kept from the first one on that changes it. A step before that is left out, which is said, and so is one of another record."""
    with Server(program, board, SERVED_TURNS) as server, Asker(server.ports) as asker:
        ipmb = server.ports[IPMB]
        plan, file = plan_at(folder, [critical(OTHER), critical(BEGINS)], "both")
        done = f"step 1: {DONE_CRITICAL}\nstep 2: sensor 5 upper critical: 90 (5Ah) -> 95 (5Fh)\n"
        said = f"{done}done: 2 steps; to take them back: bmcnet revert {file} {ipmb}\n"
        expect("there and back", apply(program, [ipmb], plan, "--only-changes"), (0, "", said))
        expect("the threshold", critical_now(asker), BEGINS)
        plan, file = plan_at(folder, [critical(BEGINS), POLICY, critical(BEGINS), critical(OTHER), critical(OTHER)], "some")
        told = "steps 1 and 3 change nothing and are left out: the others are counted without them\n"
        done = f"step 1: {DONE_POLICY}\nstep 2: {DONE_CRITICAL}\nstep 3: sensor 5 upper critical: 90 (5Ah) -> 90 (5Ah)\n"
        said = f"done: 3 steps; to take them back: bmcnet revert {file} {ipmb}\n"
        status, out, err = apply(program, [ipmb], plan, "--only-changes")
        expect("what is left out", (status, out, err.splitlines()[0], err.splitlines()[-1]), (0, "", told[:-1], said[:-1]))
        expect("what was done", [line.split(": ")[0] for line in err.splitlines()[1:-1]], [line.split(": ")[0] for line in done.splitlines()])
        expect("its revert", revert(program, [ipmb], file)[0], 0)
        plan, file = plan_at(folder, [critical(BEGINS), POLICY], "one")
        found = objects_of("one is left out, with --json", apply(program, [ipmb], plan, "--only-changes", "--json"), 0)
        expect("its objects", ([it["outcome"] for it in found], found[0]["left_out"], found[1]["steps"]), (["left out", "done"], [1], 1))
        expect("its revert", revert(program, [ipmb], file)[0], 0)
        expect("serve", server.ended()[1].splitlines()[1:], ["records same"])


def all_or_none(program, folder, board):
    """A plan that halts is taken back at once: that is said, too, the status is 10, and each record is as before; and so with the other option."""
    with Server(program, board, SERVED_TURNS) as server:
        ipmb = server.ports[IPMB]
        plan, file = plan_at(folder, [critical(OTHER), NOBODY, POLICY])
        halted = f"step 1: {DONE_CRITICAL}\nhalted at step 2 of 3: {MISSING}; step 1 stands: bmcnet revert {file} {ipmb}\n"
        back = f"taken back: 1 step; {file}.done has the requests that did it, and {file} is empty\n"
        expect("a plan that halts", apply(program, [ipmb], plan, "--all-or-none"), (10, "", halted + back))
        expect("its FILE", is_empty(file), True)
        found = objects_of("the same with --json", apply(program, [ipmb], plan, "--all-or-none", "--json"), 10)
        expect("its objects", [it["outcome"] for it in found], ["halted", "undone"])
        plan, file = plan_at(folder, [NOBODY, POLICY], "first")
        halted = f"halted at step 1 of 2: {MISSING}; no step was done\n"
        back = f"{file} has nothing to take back; nothing was sent\n"
        expect("one that halts at once", apply(program, [ipmb], plan, "--all-or-none"), (10, "", halted + back))
        plan, file = plan_at(folder, [critical(BEGINS), POLICY, NOBODY], "kept")
        told = "step 1 changes nothing and is left out: the others are counted without it\n"
        halted = f"step 1: {DONE_POLICY}\nhalted at step 2 of 2: {MISSING}; step 1 stands: bmcnet revert {file} {ipmb}\n"
        back = f"taken back: 1 step; {file}.done has the requests that did it, and {file} is empty\n"
        expect("both options", apply(program, [ipmb], plan, "--only-changes", "--all-or-none"), (10, "", told + halted + back))
        plan, file = plan_at(folder, [POLICY], "done")
        expect("one that is done", apply(program, [ipmb], plan, "--all-or-none")[0], 0)
        expect("its revert", revert(program, [ipmb], file)[0], 0)
        expect("serve", server.ended()[1].splitlines()[1:], ["records same"])


def unanswered_look(program, folder, board):
    """Nobody answers the greeting, or the Get of a step: that is said, nothing is set, no FILE is made, and the status is 11."""
    plan, file = plan_at(folder, [POLICY, critical(OTHER)])
    with Server(program, board, SERVED_TURNS) as server:
        with Silent(server.ports[IPMB]) as link:
            said = f"no answer on ipmb, port {link.port}; nothing was set\n"
            expect("no greeting is answered", apply(program, [link.port], plan, "--only-changes", wait=SOME_WAIT), (11, "", said))
        with Mute(server.ports[IPMB], GET_THRESHOLDS) as link:
            said = "no answer to the Get of step 2, sensor 5 thresholds; nothing was set\n"
            expect("a Get isn't", apply(program, [link.port], plan, "--only-changes", wait=SOME_WAIT), (11, "", said))
        with Mute(server.ports[IPMB], GET_THRESHOLDS) as link:
            found = objects_of("the same with --json", apply(program, [link.port], plan, "--only-changes", "--json", wait=SOME_WAIT), 11)
            expect("its object", found, [{"outcome": "get unanswered", "steps": 2, "step": 2, "record": "sensor 5 thresholds"}])
        expect("its FILE", [name for name in os.listdir(folder) if name.startswith("plan.undo")], [])
        expect("serve", server.ended()[1].splitlines()[1:], ["records same"])


def expect_told(program, port, file, status, out, err=""):
    """Tests what `revert --preview` tells of a file, and that the folder is left as it is."""
    folder = os.path.dirname(file)
    left = {name: file_as_it_is(f"{folder}/{name}") for name in os.listdir(folder)}
    expect(f"revert --preview {os.path.basename(file)}", revert(program, [port], file, "--preview"), (status, out, err))
    expect("the folder behind it", {name: file_as_it_is(f"{folder}/{name}") for name in os.listdir(folder)}, left)


def told_alone(program, folder):
    """What a list would take back is told from it alone, the last step first; what is none is refused; and nothing is sent."""
    listed = LISTED.replace("ipmb 000600\n", "ipmb 10260510000000005F00\nipmb 000600\n")
    with socket.socket(socket.AF_INET, socket.SOCK_DGRAM) as nobody:
        nobody.bind((HOST, 0))
        nobody.settimeout(0)
        port = nobody.getsockname()[1]
        file = servers.write(f"{folder}/list.undo", listed)
        lines = f"step 2: {BACK_CRITICAL}\nstep 1: power restore policy <- always off\n"
        expect_told(program, port, file, 0, f"{lines}to be taken back: 2 steps; nothing was sent\n")
        found = objects_of("the same with --json", revert(program, [port], file, "--preview", "--json"), 0)
        wanted = [
            {"step": 2, "undo": BACK_CRITICAL, "sure": True},
            {"step": 1, "undo": "power restore policy <- always off", "sure": True},
            {"outcome": "to take back", "steps": 2, "file": file},
        ]
        expect("its objects", found, wanted)
        file = servers.write(f"{folder}/empty.undo", "\n".join([EMPTY[0], "next ipmb 0 smbus 0", *EMPTY[1:]]))
        expect_told(program, port, file, 0, f"{file} has nothing to take back; nothing was sent\n")
        file = servers.write(f"{folder}/bad.undo", "undo 2\nnext\n")
        expect_told(program, port, file, 3, "", f"{file}: line 2 is none of a journal or an undo text; nothing was sent\n")
        file = servers.write(f"{folder}/other.undo", LISTED.replace("0A\n", "0B\n", 1))
        expect_told(program, port, file, 3, "", f"{file} is of a manager or a controller at other addresses; nothing was sent\n")
        expect("no file", revert(program, [port], f"{folder}/gone.undo", "--preview"), (3, "", f"file {folder}/gone.undo\n"))
        expect("what was sent", requests_at(nobody), [])


def told_in_doubt(program, folder, board, command, doubt, lines, end):
    """Of the journal of a plan whose second step has a request without an answer, that is told first, and what it leaves in doubt; and then all is taken back."""
    plan, file = plan_at(folder, [POLICY, critical(OTHER)])
    with Server(program, board, SERVED_TURNS) as server, Mute(server.ports[IPMB], command) as link:
        expect("apply", apply(program, [link.port], plan, wait=SOME_WAIT)[0], 11)
        expect_told(program, link.port, file, 0, f"{doubt}\n{lines}step 1: {BACK_POLICY}\n{end}; nothing was sent\n")
        link.speaks = True
        expect("its revert", revert(program, [link.port], file)[0], 0)
        expect("serve", server.ended()[1].splitlines()[1:], ["records same"])


class AllOrNone(Applied):
    """A plan that halts at its last step, all of which or none is to stand."""

    def __init__(self, program, folder, seed):
        super().__init__(program, folder, seed)
        servers.write(self.plan, f"{servers.read(self.plan)}\n[[step]]\n{NOBODY.text}")

    def run_over(self, at, fate, *options):
        return super().run_over(at, fate, "--all-or-none", *options)


def killed(program, folder, seed):
    """A plan that halts is killed while it is carried out, or while it is taken back: a revert takes back what is left."""
    with AllOrNone(program, folder, f"all or none {seed}") as place:
        draw = random.Random(f"all or none {seed}")
        for _ in range(MOMENTS):
            moment(place, draw.random())


def tests(board, seed):
    """Returns the tests of this file: the name, the function and its words."""
    get, wrote = "no answer to the Get of step 2, sensor 5 thresholds: nothing of it was set", "to be taken back: 1 step"
    doubt = "no answer to the Set of step 2, sensor 5 thresholds: whether it was set isn't known"
    return [
        ("a plan that changes nothing", applied_again, (board,)),
        ("steps that change nothing are left out", steps_of_a_record, (board,)),
        ("all of a plan or none", all_or_none, (board,)),
        ("a look without an answer", unanswered_look, (board,)),
        ("what a revert would take back", told_alone, ()),
        ("the same of a Get without an answer", told_in_doubt, (board, GET_THRESHOLDS, get, "", wrote)),
        ("the same of a Set without an answer", told_in_doubt, (board, SET_THRESHOLDS, doubt, f"step 2, if it was set: {BACK_CRITICAL}\n", f"{wrote}, and step 2 if it was set")),
        ("all of a plan or none, killed", killed, (seed,)),
    ]
