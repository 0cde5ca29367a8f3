"""What `run` and `undo` tell of how far they are: on a terminal a line that is written over, and elsewhere nothing."""
import os
import pty
import socket
import subprocess
import tty

from . import servers
from .servers import HOST, Failed, Server, expect

# A turn lasts so many milliseconds where a server answers, so that no request is sent again; and so many where nobody does.
LONG, SHORT = 20000, 50
TURNS = 100
# What both steps of the plan set. A plan whose one request is sent again once, and an undo text of one request.
KIND = "thresholds"
ONCE = 'retries = 1\n[[step]]\nkind = "power-policy"\npolicy = 2\n'
ONE_UNDO = "undo 1\nnext ipmb 2 smbus 0\nipmb 102805E080000000\n"


def lines(*texts):
    """Returns these lines as a terminal gets them, one over the other, and their end."""
    return "".join(f"\r{text}\x1b[K" for text in texts) + "\n"


def on_terminal(program, *words, both=False):
    """Returns the status of a call, its standard output, and what a terminal got that is its standard error, or both of its streams."""
    ours, theirs = pty.openpty()
    tty.setraw(theirs)
    out = theirs if both else subprocess.PIPE
    process = subprocess.Popen([program, *map(str, words)], stdin=subprocess.DEVNULL, stdout=out, stderr=theirs, text=True)
    os.close(theirs)
    try:
        said = process.communicate(timeout=servers.CALL)[0]
        got = b""
        while part := read_terminal(ours):
            got += part
    except subprocess.TimeoutExpired as late:
        process.kill()
        process.communicate()
        raise Failed(f"{words} didn't end in {servers.CALL} s") from late
    finally:
        os.close(ours)
    return process.returncode, said or "", got.decode()


def read_terminal(terminal):
    """Returns what a terminal has, or nothing once nobody writes to it any more."""
    try:
        return os.read(terminal, 4096)
    except OSError:
        return b""


def on_file(path, program, *words):
    """Returns the status of a call, its standard output, and what a file got that is its standard error."""
    with open(path, "wb") as file:
        streams = {"stdin": subprocess.DEVNULL, "stdout": subprocess.PIPE, "stderr": file}
        ran = subprocess.run([program, *map(str, words)], **streams, text=True, timeout=servers.CALL, check=False)
    return ran.returncode, ran.stdout, servers.read(path)


def tells_steps(program, folder, board, plan):
    """A run and its undo tell each step on a terminal, and end the line before they say the phase. On a file they tell nothing."""
    undo = f"{folder}/undo.txt"
    there = [f"step {step} of 2: {what} {KIND}" for step in (1, 2) for what in ("get", "set")]
    back = [f"undoing step {step} of 2" for step in (2, 1)]
    for both in (False, True):
        with Server(program, board, 400) as server:
            for task, file, others, told, phase in [("run", plan, [undo], there, "Done"), ("undo", undo, [], back, "Undone")]:
                line = f"phase {phase}\n"
                wanted = (0, "", lines(*told) + line) if both else (0, line, lines(*told))
                said = on_terminal(program, task, "--wait", LONG, file, *server.ports, TURNS, *others, both=both)
                expect(f"{task} on a terminal", said, wanted)
            server.ended()
    with Server(program, board, 400) as server:
        for task, file, others, phase in [("run", plan, [undo], "Done"), ("undo", undo, [], "Undone")]:
            said = on_file(f"{folder}/errors", program, task, file, *server.ports, TURNS, *others)
            expect(f"{task} on a file", said, (0, f"phase {phase}\n", ""))
        server.ended()


def tells_retries(program, folder):
    """A run and an undo that nobody answers tell each retry, and then that no reply came."""
    plan, undo = servers.write(f"{folder}/plan.toml", ONCE), servers.write(f"{folder}/undo.txt", ONE_UNDO)
    asks, undoes = "step 1 of 1: get power-policy", "undoing step 1 of 1"
    with socket.socket(socket.AF_INET, socket.SOCK_DGRAM) as nobody:
        nobody.bind((HOST, 0))
        ports = [nobody.getsockname()[1]] * 2
        told = lines(asks, f"{asks}, retry 1", "step 1 of 1: no reply, retry 1")
        said = on_terminal(program, "run", "--wait", SHORT, plan, *ports, 4, f"{folder}/out.txt")
        expect("run on a terminal", said, (0, "phase Unsettled 0\n", told))
        told = lines(undoes, *(f"{undoes}, retry {time}" for time in (1, 2, 3)), "step 1 of 1: no reply, retry 3")
        said = on_terminal(program, "undo", "--wait", SHORT, undo, *ports, 6)
        expect("undo on a terminal", said, (0, "phase Unsettled 0\n", told))


def refuses_on_terminal(program, folder):
    """Where nothing is run, a terminal gets what a file gets."""
    gone, plan = f"{folder}/gone", servers.write(f"{folder}/plan.toml", ONCE)
    for words, said in [
        (["run", gone, 9, 9, 1, f"{folder}/out.txt"], f"file {gone}\n"),
        (["run", plan, 9, 9, 1, f"{folder}/none/out.txt"], f"file {folder}/none/out.txt\n"),
        (["undo", gone, 9, 9, 1], f"file {gone}\n"),
    ]:
        expect(f"{words}", on_terminal(program, *words), (3, "", said))


def tests(board, plan):
    """Returns the tests of this file: the name, the function and its words."""
    return [
        ("a terminal that is told each step", tells_steps, (board, plan)),
        ("a terminal that is told each retry", tells_retries, ()),
        ("a terminal and refused files", refuses_on_terminal, ()),
    ]
