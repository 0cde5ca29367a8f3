"""`run --strict` and `undo --strict`: the status says what came of the plan, and a plan with a key that nothing reads, or without a step, is refused."""
import os
import socket

from . import servers
from .greetings import NOBODY, POLICY, critical, requests_at
from .plans import text_of
from .servers import HOST, Server, call, expect

# How long one quiet turn lasts, in milliseconds: where nobody is to answer, and where each reply has to come, however busy the machine is.
SHORT_WAIT, LONG_WAIT = 50, 5000
TURNS, SERVED_TURNS, RETRIES = 300, 6000, 3
# A list whose request sets a policy that there isn't.
REFUSED = "undo 2\nnext ipmb 2 smbus 0\nnames ipmb 2C 20 smbus 30 20 eid 08 0A\nipmb 000607\n"


def run(program, ports, plan, undo, *options, wait=LONG_WAIT, turns=TURNS):
    return call(program, "run", "--wait", wait, *options, plan, *ports, turns, undo)


def undone(program, ports, undo, *options, wait=LONG_WAIT):
    return call(program, "undo", "--wait", wait, *options, undo, *ports, TURNS)


def says_what_came(program, folder, board):
    """The lines are the same with `--strict` and without it, and the status is 0 without it, and with it that of the phase."""
    done = servers.write(f"{folder}/done.toml", text_of([critical(0x5A), POLICY], RETRIES))
    halting = servers.write(f"{folder}/halting.toml", text_of([critical(0x5A), NOBODY, POLICY], RETRIES))
    with Server(program, board, SERVED_TURNS, "--periods") as server:
        for options, halted, refused in [(["--greet"], 0, 0), (["--greet", "--strict"], 10, 12)]:
            undo = f"{folder}/{len(options)}.txt"
            expect(f"run {options}", run(program, server.ports, done, undo, *options), (0, "phase Done\n", ""))
            expect(f"undo {options}", undone(program, server.ports, undo, *options), (0, "phase Undone\n", ""))
            expect(f"run {options} that halts", run(program, server.ports, halting, undo, *options), (halted, "phase Halted 1 GetRefused CB\n", ""))
            expect(f"undo {options} behind it", undone(program, server.ports, undo, *options), (0, "phase Undone\n", ""))
            text = servers.write(f"{folder}/refused{len(options)}.txt", REFUSED)
            expect(f"undo {options} that is refused", undone(program, server.ports, text, *options), (refused, "phase UndoRefused 0 CC\n", ""))
        server.ended()


def says_that_nobody_answers(program, folder):
    """Nobody answers a request, or a greeting: the status is 11. Of a journal whose manager began nothing there is nothing to take back."""
    plan = servers.write(f"{folder}/plan.toml", text_of([critical(0x5A)], 1))
    with socket.socket(socket.AF_INET, socket.SOCK_DGRAM) as nobody:
        nobody.bind((HOST, 0))
        port = nobody.getsockname()[1]
        ports = (port, port)
        for options, status in [([], 0), (["--strict"], 11)]:
            undo, text = f"{folder}/{status}.txt", servers.write(f"{folder}/list{status}.txt", REFUSED)
            greeted = servers.write(f"{folder}/greeted{status}.txt", REFUSED)
            said = (status, "phase Fresh\n", "no answer on ipmb\n")
            expect(f"run --greet {options}", run(program, ports, plan, undo, "--greet", *options, wait=SHORT_WAIT), said)
            expect(f"undo {options} of its journal", undone(program, ports, f"{undo}.part", *options), (0, "phase Fresh\n", ""))
            said = (status, "phase Unsettled 0\n", "")
            expect(f"run {options}", run(program, ports, plan, undo, *options, wait=SHORT_WAIT, turns=5), said)
            said = (status, "phase Getting 0\n", "")
            expect(f"run {options} without turns", run(program, ports, plan, undo, *options, wait=SHORT_WAIT, turns=0), said)
            expect(f"undo {options}", undone(program, ports, text, *options, wait=SHORT_WAIT)[::2], (status, ""))
            said = (status, "phase Halted 1 Stop\n", "no answer on ipmb\n")
            expect(f"undo --greet {options}", undone(program, ports, greeted, "--greet", *options, wait=SHORT_WAIT), said)


def refuses_plans(program, folder):
    """A strict run refuses a plan with a key that nothing reads, and one without a step: no file is made, and nothing is sent. One that isn't strict doesn't."""
    undo = f"{folder}/undo.txt"
    loose = servers.write(f"{folder}/loose.toml", "frobnicate = 1\n" + text_of([POLICY], 1))
    empty = servers.write(f"{folder}/empty.toml", "")
    bad = servers.write(f"{folder}/bad.toml", "frobnicate = 1\nretries = 99\n")
    with socket.socket(socket.AF_INET, socket.SOCK_DGRAM) as nobody:
        nobody.bind((HOST, 0))
        nobody.settimeout(0)
        port = nobody.getsockname()[1]
        for plan, said in [(loose, f"{loose}:1: top: unknown key frobnicate\n"), (empty, f"{empty}: plan, 0 steps, retries 3\n")]:
            expect(f"run --strict {plan}", run(program, (port, port), plan, undo, "--strict", wait=SHORT_WAIT), (3, "", said))
        status, out, err = run(program, (port, port), bad, undo, "--strict", wait=SHORT_WAIT)
        expect("run --strict, a fault", (status, out, err.startswith("plan ")), (3, "", True))
        expect("its files", [name for name in os.listdir(folder) if name.startswith("undo.txt")], [])
        expect("run", run(program, (port, port), empty, undo, wait=SHORT_WAIT), (0, "phase Done\n", ""))
        expect("what was sent", requests_at(nobody), [])


def tests(board):
    """Returns the tests of this file: the name, the function and its words."""
    return [
        ("a strict run and a strict undo", says_what_came, (board,)),
        ("a strict run and a strict undo that nobody answers", says_that_nobody_answers, ()),
        ("a plan that is refused strictly", refuses_plans, ()),
    ]
