"""A plan over clients/lossy-link, whose log is played again; and what only the command does."""
import contextlib
import os
import re
import subprocess

from .programs import TOP, called, served, started

# Plans over one bus, and over both in several packets.
PLANS = [("sample.toml", "examples/clean/plan.toml"), ("examples/packets_joined/board.toml", "examples/packets_joined/plan.toml")]
# What is late by so little isn't too old for a lab, though eight requests go over the loopback interface in some milliseconds.
LOSSY = ["--lose", "2", "--repeat", "15", "--delay", "10", "--damage", "1", "--longest", "3"]
LONGEST_RUN = 60
REPLAYS = "# This log replays"
SETTLED = (0, "phase Done\n"), (0, "phase Undone\n")
# A manager gives up where each copy of a request is lost. Then the next of so many seeds is tried, each so much above the one before it.
TRIES, NEXT_SEED = 5, 1000


@contextlib.contextmanager
def linked(ports, *words):
    """Gives the ports of a link to these, and ends it, so that its log is whole."""
    pairs = [word for port in ports for word in ("0", str(port))]
    command = [f"{TOP}/clients/lossy-link", *words, *pairs]
    with started(command, r"ipmb on [0-9.]+:([0-9]+), smbus on [0-9.]+:([0-9]+)") as told:
        yield told[1], told[2]


def run_and_undo(bmcnet, plan, ports, room):
    """Runs a plan and undoes it, and returns what each says."""
    undo = f"{room}/linked-undo.txt"
    for path in (undo, f"{undo}.part"):
        if os.path.exists(path):
            os.remove(path)
    words = [bmcnet, "run", plan, *ports, "100", undo]
    ran = called(words, room, LONGEST_RUN, subprocess.DEVNULL)
    return ran, called([bmcnet, "undo", undo, *ports, "100"], room, LONGEST_RUN, subprocess.DEVNULL)


def run_logged(bmcnet, board, plan, seed, room):
    """Runs a plan over a lossy link and undoes it, and returns what each says, and the lines of the log."""
    log = f"{room}/link.txt"
    with served(bmcnet, board) as ports, linked(ports, "--seed", str(seed), *LOSSY, "--log", log) as fronts:
        said = run_and_undo(bmcnet, plan, fronts, room)
    with open(log, encoding="ascii") as file:
        return said, file.read().splitlines()


def test_log(tests, bmcnet, board, plan, seed, room):
    """Runs a plan over a lossy link and undoes it: its log, played, ends as that did."""
    for number in range(TRIES):
        said, lines = run_logged(bmcnet, board, plan, seed + number * NEXT_SEED, room)
        if said == SETTLED:
            break
    played = called([f"{TOP}/bmclab", "play", board, plan, f"{room}/link.txt"], room, 200, subprocess.DEVNULL)
    what = f"{plan} over a link of seed {seed}: {said}, {lines}, played {played}"
    tests.expect(said == SETTLED, what)
    tests.expect(lines[0].startswith(REPLAYS), what)
    is_right = played[0] == 0 and played[1].startswith("phase Undone\n") and played[1].endswith("records same\n")
    tests.expect(is_right, what)
    return lines


def test_forged(tests, bmcnet, room):
    """A busy controller is asked again, and the log says that no schedule has that."""
    board, plan = PLANS[0]
    log, ran = f"{room}/forged.txt", f"{room}/ran"
    words = ["--busy", "40,0", "--run-after", "5", f"touch {ran}", "--slow", "5", "--log", log]
    with served(bmcnet, board) as ports, linked(ports, *words) as fronts:
        said = run_and_undo(bmcnet, plan, fronts, room)
    with open(log, encoding="ascii") as file:
        head = file.readline()
    tests.expect(said == SETTLED, f"a plan on a busy controller: {said}")
    is_told = "doesn't replay" in head and all(sort in head for sort in ("forged codes", "commands", "slowness"))
    tests.expect(is_told and os.path.exists(ran), f"the log of forged codes begins {head!r}")


def test_links(tests, bmcnet, seeds, room):
    met = []
    for board, plan in PLANS:
        for seed in seeds:
            met += test_log(tests, bmcnet, board, plan, seed, room)
    words = {re.match(r"[a-z-]*", line)[0] for line in met}
    tests.expect({"start", "undo", "quiet", "noise", "to-bmc", "to-mgr"} <= words, f"the logs have {words}")
    test_forged(tests, bmcnet, room)
