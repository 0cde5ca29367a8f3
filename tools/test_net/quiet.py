"""Servers that end by themselves once nobody speaks to them any more."""
import time

from . import servers
from .plans import IPMB, SMBUS
from .servers import Asker, Failed, Server, call, expect

# How long one quiet turn of these servers lasts, in milliseconds, and how many in a row end them.
WAIT = 100
QUIET_TURNS = 30
# More turns than any of these servers makes.
MOST_TURNS = 4294967295
# How often a run and its undo listen, and how many milliseconds they wait for a reply, however busy the machine is.
TURNS, PATIENT = 300, 5000
# A Get of the power restore policy (Get Chassis Status), and one of a BIOS attribute.
GETS = {IPMB: (0x00, 0x01), SMBUS: (0x03, 0x08, bytes([0, 0, 0, 0, 1, 1, 0]))}


def quiet_server(program, board, *options):
    return Server(program, board, MOST_TURNS, "--wait", WAIT, "--quiet", QUIET_TURNS, *options)


def ends_once_quiet(program, folder, board, plan, requests, options):
    """A plan runs and is undone, and the server ends though it has turns: not before it was quiet for so long."""
    undo = f"{folder}/undo.txt"
    with quiet_server(program, board, *options) as server:
        expect("run", call(program, "run", "--wait", PATIENT, plan, *server.ports, TURNS, undo), (0, "phase Done\n", ""))
        expect("undo", call(program, "undo", "--wait", PATIENT, undo, *server.ports, TURNS), (0, "phase Undone\n", ""))
        begun = time.monotonic()
        expect("serve", server.told(), (0, f"served {requests}\nrecords same\n", ""))
        took = time.monotonic() - begun
        if not 0.5 * QUIET_TURNS * WAIT / 1000 < took < servers.END / 2:
            raise Failed(f"the server ended {took} s behind the undo")


def stays_while_asked(program, folder, board, bus):
    """One port is quiet for far more turns while the other is asked: the server stays, and ends once both are quiet."""
    with quiet_server(program, board) as server:
        with Asker(server.ports) as asker:
            until = time.monotonic() + 3 * QUIET_TURNS * WAIT / 1000
            while time.monotonic() < until:
                asker.get(bus, GETS[bus])
                time.sleep(0.2 * QUIET_TURNS * WAIT / 1000)
        expect("serve", server.told(), (0, f"served {asker.asked[bus]}\nrecords same\n", ""))


def tests(board, plan, requests):
    """Returns the tests of this file: the name, the function and its words."""
    return [
        ("a server that ends once it's quiet", ends_once_quiet, (board, plan, requests, [])),
        ("a server of periods that ends once it's quiet", ends_once_quiet, (board, plan, requests, ["--periods"])),
        ("a server whose port on IPMB is asked", stays_while_asked, (board, IPMB)),
        ("a server whose port on SMBus is asked", stays_while_asked, (board, SMBUS)),
    ]
