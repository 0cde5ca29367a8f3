"""A served board for tests of managers and clients, for pytest or any other:

    with board("server.toml", loss=5, seed=7) as b:
        ask(b.ipmb_port)

The board is served by `bmcnet` of the tree that this file stands in, on ports of 127.0.0.1 that are free, and has ended behind the `with`.
examples/test_thresholds.py is an example. The first call of a tree compiles the program, in a minute or two.
"""
import contextlib
import os
import re
import select
import socket
import subprocess
import sys
import tempfile
import time

CLIENTS = os.path.dirname(os.path.dirname(os.path.realpath(__file__)))
TOP = os.path.dirname(CLIENTS)
# The script of a checkout, or else the program that is installed.
BMCNET = f"{TOP}/bmcnet" if os.path.exists(f"{TOP}/bmcnet") else "bmcnet"
sys.path.insert(1, CLIENTS)
import frames
from lossy_link import LossyLink, Troubles
from lossy_log import Log

HOST = "127.0.0.1"
# The address on IPMB by which it is asked whether the board is there.
REQUESTER = 0xF2
# How long the first call may take, which compiles the program, and how long an end, in seconds.
START = 300
END = 5
# More turns than any test lasts.
TURNS = 1_000_000_000
SERVED = r"ipmb on [0-9.]+:([0-9]+), smbus on [0-9.]+:([0-9]+)"
BRIDGED = r"lan(?:plus)? on [0-9.]+:([0-9]+)"


class NotServed(Exception):
    """Why a board isn't served: what the program said."""


class Board:
    """A served board: `ipmb_port` and `smbus_port` take frames, over a lossy link where one is asked for; `lan_port` takes clients of IPMI over
    LAN, or is None. `links` are the links of both buses, whose `counts` tell what they did."""

    def __init__(self, ipmb_port, smbus_port, lan_port, links):
        self.ipmb_port = ipmb_port
        self.smbus_port = smbus_port
        self.lan_port = lan_port
        self.links = links


@contextlib.contextmanager
def board(path, *, loss=0, repeat=0, delay=0, damage=0, seed=0, log=None, lan=False, users=None, options=("--periods",)):
    """Serves the board file at `path`, and gives its `Board`.

    Of a hundred datagrams so many are lost, come twice, late and damaged, by the seed; each may be a pair, to the board and back. With `lan`
    there is a bridge for sessions of IPMI 1.5 without authentication, and with `users`, passwords by names, one for sessions of IPMI 2.0.
    `log` is a file that says what the links did, as a schedule. `options` are those of `bmcnet serve`. Raises `NotServed`."""
    troubles = Troubles(lose=loss, repeat=repeat, delay=delay, damage=damage)
    with contextlib.ExitStack() as stack:
        served = stack.enter_context(started([BMCNET, "serve", *options, os.path.abspath(path), "0", "0", str(TURNS)], SERVED))
        ports = [int(port) for port in served.groups()]
        wait_for_answer(ports[0])
        links = []
        if log or any(troubles[:4]):
            links = stack.enter_context(linked(ports, troubles, seed, log))
            ports = [link.port for link in links]
        lan_port = None
        if lan or users:
            words = stack.enter_context(authentication(users))
            told = stack.enter_context(started([f"{CLIENTS}/lan-bridge", *words, "--port", "0", str(ports[0])], BRIDGED))
            lan_port = int(told[1])
        yield Board(*ports, lan_port, links)


def wait_for_answer(port):
    """Waits until the board answers Get Device ID, which a requester of this file's own asks."""
    asked = frames.write_ipmb(frames.Request(frames.CONTROLLER, 0x06, 0, REQUESTER, 0, 0, 0x01, b""))
    with socket.socket(socket.AF_INET, socket.SOCK_DGRAM) as link:
        link.settimeout(0.2)
        link.connect((HOST, port))
        until = time.monotonic() + START
        while time.monotonic() < until:
            with contextlib.suppress(OSError):
                link.send(asked)
                link.recv(2048)
                return
            time.sleep(0.05)
    raise NotServed(f"no answer on port {port}")


@contextlib.contextmanager
def linked(ports, troubles, seed, log):
    """Gives lossy links to these ports; their log is whole at the end."""
    kept = Log(log, f"served_board, seed {seed}, {troubles}", len(ports)) if log else None
    links = [LossyLink(port, f"{seed} {place}", troubles, log=kept and kept.of_bus[place]) for place, port in enumerate(ports)]
    try:
        with contextlib.ExitStack() as stack:
            yield [stack.enter_context(link) for link in links]
    finally:
        if kept:
            kept.close()


@contextlib.contextmanager
def authentication(users):
    """Gives the words of a bridge for these users, or for none."""
    if not users:
        yield ["--unauthenticated"]
        return
    with tempfile.NamedTemporaryFile("w", encoding="utf-8") as file:
        file.writelines(f"{name} {password}\n" for name, password in users.items())
        file.flush()
        yield ["--users", file.name]


@contextlib.contextmanager
def started(words, announced):
    """Starts a program, gives what it announces on standard error, and ends it by its process id."""
    with subprocess.Popen(words, stdin=subprocess.DEVNULL, stdout=subprocess.DEVNULL, stderr=subprocess.PIPE) as process:
        try:
            yield announcement(process, announced, words)
        finally:
            process.terminate()
            try:
                process.wait(END)
            except subprocess.TimeoutExpired:
                process.kill()


def announcement(process, announced, words):
    """Returns the match of the pattern on standard error."""
    until, text = time.monotonic() + START, ""
    while time.monotonic() < until:
        if not select.select([process.stderr], [], [], 0.2)[0]:
            continue
        read = os.read(process.stderr.fileno(), 65536).decode("utf-8", "replace")
        text += read
        found = re.search(announced + r"\b.*\n", text)
        if found:
            return found
        if not read:
            break
    raise NotServed(f"{' '.join(words)} says: {text.strip()}")
