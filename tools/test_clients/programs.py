"""Programs that are started, called and ended, and the ports of this host."""
import contextlib
import os
import re
import select
import shlex
import socket
import subprocess
import time

import program

from .parts import SEARCHED, Failure

TOP = os.path.dirname(os.path.dirname(os.path.dirname(os.path.realpath(__file__))))
# How long a call may take, and how long until a program serves: the first call of ./bmcnet compiles it.
LONGEST_CALL = 30
LONGEST_START = 200
LONGEST_END = 5


@contextlib.contextmanager
def started(words, announced=None):
    """Starts a program, and ends it by its process id. Gives what it announces on standard error, where a pattern says what that is."""
    errors = subprocess.PIPE if announced else subprocess.DEVNULL
    process = subprocess.Popen(words, stdin=subprocess.DEVNULL, stdout=subprocess.DEVNULL, stderr=errors, cwd=TOP)
    try:
        yield announcement(process, announced, words) if announced else None
    finally:
        process.terminate()
        try:
            process.wait(LONGEST_END)
        except subprocess.TimeoutExpired:
            process.kill()
            process.wait()
        if process.stderr:
            process.stderr.close()


def announcement(process, announced, words):
    """Returns the match of the pattern on standard error."""
    until, text = time.monotonic() + LONGEST_START, ""
    while time.monotonic() < until:
        if select.select([process.stderr], [], [], 0.2)[0]:
            read = os.read(process.stderr.fileno(), 65536).decode("utf-8", "replace")
            text += read
            found = re.search(announced, text)
            if found:
                return found
            if not read:
                break
    raise Failure(f"{shlex.join(words)} doesn't serve: {text.strip()}")


def called(words, room, longest=LONGEST_CALL, errors=subprocess.STDOUT):
    """Returns the status of a program, None where it didn't end in time, and what it printed, on both streams unless it is told otherwise."""
    home = {**os.environ, "HOME": room, "LC_ALL": "C.UTF-8", "PATH": SEARCHED}
    try:
        ended = subprocess.run(
            words, stdin=subprocess.DEVNULL, stdout=subprocess.PIPE, stderr=errors, timeout=longest, env=home, cwd=TOP, check=False
        )
        return ended.returncode, ended.stdout.decode("utf-8", "replace")
    except subprocess.TimeoutExpired as late:
        return None, (late.stdout or b"").decode("utf-8", "replace")


def free_port():
    """Returns a port of UDP that nobody has now."""
    with socket.socket(socket.AF_INET, socket.SOCK_DGRAM) as link:
        link.bind((program.LOOPBACK, 0))
        return link.getsockname()[1]


# Get Device ID from a requester of the tests' own.
ASKED = bytes.fromhex("2018C8F200010D")


@contextlib.contextmanager
def served(bmcnet, board):
    """Gives the ports of a controller with this board, once it answers."""
    ports = [free_port(), free_port()]
    with started([bmcnet, "serve", board, *map(str, ports), "1000000"]):
        wait_for_controller(ports[0])
        yield ports


def wait_for_controller(port):
    """Waits until Get Device ID is answered on the port."""
    with socket.socket(socket.AF_INET, socket.SOCK_DGRAM) as link:
        link.settimeout(0.2)
        link.connect((program.LOOPBACK, port))
        until = time.monotonic() + LONGEST_START
        while time.monotonic() < until:
            with contextlib.suppress(OSError):
                link.send(ASKED)
                link.recv(program.MOST_READ)
                return
            time.sleep(0.1)
    raise Failure(f"no controller answers on port {port}")
