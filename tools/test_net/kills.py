"""Runs and undos of `bmcnet` that are ended by SIGKILL at a call of the system, or whose files meet with an error there; and what is left is taken back."""
import collections
import os
import random
import re
import shutil
import signal
import socket
import subprocess

import frames

from . import servers
from .disks import ON_DISK, PAGE, UNMOUNTED, called, need, texts_in
from .plans import IPMB, SMBUS, attribute, event_enable, hysteresis, power_policy, text_of, thresholds
from .records import board_by, differences, long_asset, read_records
from .proxy import Troubles
from .servers import HOST, Asker, Failed, Server, Skipped, expect
from .ways import LONG_WAIT, TURNS, Fate
from .ways import called as called_over

# A served port that nobody speaks to uses these up in an hour.
SERVED_TURNS = 20000
RETRIES = 3
# The calls of the system that are watched: those that change files, and those that frames go through.
FILE_CALLS = ("openat", "write", "fsync", "fdatasync", "rename", "renameat", "renameat2", "unlink", "unlinkat", "flock", "ftruncate", "mkdir")
WATCHED = (*FILE_CALLS, "sendto", "recvfrom")
TRACED = re.compile(r"^\d+ +(\w+)\(")
# How many undos in a row are killed, at most.
MOST_KILLS = 3
# The errors that calls end with, each call's own.
ERRORS = {"openat": "ENOSPC", "write": "ENOSPC", "fsync": "EIO", "fdatasync": "EIO", "rename": "ENOSPC", "renameat": "ENOSPC", "renameat2": "ENOSPC"}
# The numbers of a greeting on SMBus, where the requests behind it count from 0, and how many tags there are.
ON_SMBUS, TAGS = (15, *range(24, 32)), 8
GET_TID = bytes([0x00, 0x02])
# What a way does to datagrams, of a hundred, and how many tries of a request meet with it: an undo has four.
LOSSY = Troubles(lose=15, repeat=15, most_tries=2)
# Within how many datagrams, or seconds, a run over such a way is killed, and an undo.
RUN_ENDS, UNDO_ENDS = (70, 2.0), (30, 0.8)
JOURNAL = "journal 1\n"
# How an undo ends that took everything back: of a journal whose manager did nothing, there was nothing to take back.
TAKEN_BACK = ("phase Undone\n", "phase Fresh\n")

Point = collections.namedtuple("Point", "name number")
Point.__doc__ = "A call of the system: its name, and the how manieth of that name it is in its process."


def plan_by(draw):
    """Returns the text of a plan over both buses, one of whose strings goes in parts."""
    kinds = [thresholds, long_asset, event_enable, attribute, power_policy, hysteresis]
    draw.shuffle(kinds)
    return text_of([kind(draw) for kind in kinds], RETRIES)


def greet_for_manager(ports):
    """Greets in the manager's place, so that a call that greets nobody finds a server as a new one is."""
    with Asker(ports, frames.MANAGER, frames.MANAGER_EID) as asker:
        for number in frames.GREETING_NUMBERS:
            asked = frames.Request(frames.CONTROLLER, 0x06, 0, frames.MANAGER, 0, number, 0x01, frames.GREETING)
            asker.ask(IPMB, frames.write_ipmb(asked))
        for number in ON_SMBUS:
            message = bytes([0x01, 0x80 | number]) + GET_TID + frames.GREETING
            names = frames.CONTROLLER, frames.MANAGER_WIRE, frames.CONTROLLER_EID, frames.MANAGER_EID
            asker.ask(SMBUS, frames.split(message, *names, 1, number % TAGS)[0])


class Place:
    """A server with a plan, and the folder of the plan's files; nothing is left there between two trials."""

    def __init__(self, program, folder, seed):
        self.program, self.folder = program, folder
        self.draw = random.Random(f"kills {seed}")
        self.board = servers.write(f"{folder}/board.toml", board_by(self.draw))
        self.plan = servers.write(f"{folder}/plan.toml", plan_by(self.draw))
        self.room = f"{folder}/files"
        self.undo = f"{self.room}/undo.txt"

    def __enter__(self):
        self.server = Server(self.program, self.board, SERVED_TURNS, "--periods").__enter__()
        self.asker = Asker(self.server.ports)
        self.before = read_records(self.asker)
        self.clear()
        return self

    def __exit__(self, *_):
        self.asker.__exit__()
        self.server.stop()

    def clear(self):
        """Has no files left, and the server keep nothing of the manager."""
        shutil.rmtree(self.room, ignore_errors=True)
        os.mkdir(self.room)
        greet_for_manager(self.server.ports)

    # The options with which calls are tried, the turns that one is given, and whether it tells on standard error what came of it.
    OPTIONS = ((), ("--greet",))
    RUN, UNDO, GIVEN = "run", "undo", (TURNS,)
    TELLS = False

    def run_words(self, *options):
        return [self.program, "run", "--wait", LONG_WAIT, *options, self.plan, *self.server.ports, TURNS, self.undo]

    def undo_words(self, file, *options):
        return [self.program, "undo", "--wait", LONG_WAIT, *options, file, *self.server.ports, TURNS]

    def expect_taken_back(self, what, said):
        """Tests that an undo ended as one that took everything back."""
        if said not in [(0, phase, "") for phase in TAKEN_BACK]:
            raise Failed(f"{what}: {said!r}")

    def run_whole(self):
        """Runs the plan, which nothing disturbs."""
        expect("the run", called(self.run_words()), (0, "phase Done\n", ""))

    def over(self, at, fate, task, file, *others):
        """Makes a call over a lossy way."""
        return called_over(self.program, self.server.ports, at, LOSSY, fate, task, file, *others, turns=self.GIVEN)

    def run_over(self, at, fate, *options):
        return self.over(at, fate, "run", self.plan, self.undo, *options)

    def left(self):
        """Returns the file that has what is to be taken back, or None."""
        return next((file for file in (f"{self.undo}.part", self.undo) if os.path.exists(file)), None)

    def traced(self, words, *inject):
        """Makes a call under strace, and returns how it ends, with the calls of the system that it made."""
        head = ["strace", "-f", "-qq", "-o", f"{self.folder}/trace", "-e", f"trace={','.join(WATCHED)}", *inject]
        said = called([*head, *words])
        with open(f"{self.folder}/trace", encoding="utf-8", errors="replace") as file:
            return said, [(found[1], line) for line in file if (found := TRACED.match(line))]

    def points(self, words):
        """Returns the points of a call: from the first on that names a file of the room, or sends."""
        said, calls = self.traced(words)
        expect("a call that is traced", (said[0], self.TELLS or said[2]), (0, self.TELLS or ""))
        counts, points = collections.Counter(), []
        for name, line in calls:
            counts[name] += 1
            if points or (self.room in line and "O_RDONLY" not in line) or name == "sendto":
                points.append(Point(name, counts[name]))
        return points

    def killed(self, words, point):
        """Makes a call that is killed before it makes this call of the system, and returns how it ends: it may make none such."""
        return self.traced(words, "-e", f"inject={point.name}:signal=KILL:when={point.number}")[0]

    def failing(self, words, point, goes_on):
        """Makes a call in which this call of the system fails, and with `goes_on` each later one of its name, too."""
        fault = f"inject={point.name}:error={ERRORS[point.name]}:when={point.number}{'+' if goes_on else ''}"
        return self.traced(words, "-e", fault)[0]

    def take_back(self, kills, points, *options):
        """Undoes what is left, after so many undos that are killed at one of these points, and tests that each record is as at the start."""
        for _ in range(kills):
            if self.left():
                said = self.killed(self.undo_words(self.left(), *options), self.draw.choice(points))
                if said[0] != -signal.SIGKILL:
                    self.expect_taken_back("an undo that ends before it is killed", said)
        file = self.left()
        if file:
            said = called(self.undo_words(file, *options))
            self.expect_taken_back(f"the undo of {os.path.basename(file)}", said)
            self.ask_nobody(file, said)
        others = differences(read_records(self.asker), self.before)
        expect("the records that are others (as they are, and as they have to be)", others, {})

    def ask_nobody(self, file, said):
        """Of a journal that is undone, a further undo says so, too, and sends nothing."""
        if not os.path.exists(file) or not servers.read(file).startswith(JOURNAL):
            return
        with socket.socket(socket.AF_INET, socket.SOCK_DGRAM) as nobody:
            nobody.bind((HOST, 0))
            nobody.settimeout(0)
            port = nobody.getsockname()[1]
            expect("a further undo", called([self.program, "undo", file, port, port, TURNS]), said)
            try:
                raise Failed(f"a further undo sends {nobody.recv(100).hex()}")
            except BlockingIOError:
                pass

    def try_point(self, is_undo, how, point, kills, options, undo_points):
        """Runs the plan, or undoes it, while something comes in the way at a point, and takes back what is left."""
        self.clear()
        if is_undo:
            self.run_whole()
        words = self.undo_words(self.undo, *options) if is_undo else self.run_words(*options)
        said = how(words, point)
        try:
            self.take_back(kills, undo_points, *options)
        except Failed as why:
            raise Failed(f"{self.UNDO if is_undo else self.RUN} {' '.join(options)} at {point.name} {point.number}, which ended so: {said}: {why}") from why
        return said


class Applied(Place):
    """The same of `apply` and `revert`: one file has what is to be taken back."""

    OPTIONS = ((),)
    RUN, UNDO, GIVEN = "apply", "revert", ()
    TELLS = True

    def run_words(self, *options):
        return [self.program, "apply", "--wait", LONG_WAIT, "--undo", self.undo, *options, self.plan, *self.server.ports]

    def undo_words(self, file, *options):
        return [self.program, "revert", "--wait", LONG_WAIT, *options, file, *self.server.ports]

    def run_over(self, at, fate, *options):
        return self.over(at, fate, "apply", self.plan, "--undo", self.undo, *options)

    def left(self):
        return self.undo if os.path.exists(self.undo) else None

    def run_whole(self):
        expect("the plan", called(self.run_words())[:2], (0, ""))

    def expect_taken_back(self, what, said):
        """Tests that a revert took everything back, or had nothing to take back."""
        if said[0] or not any(words in said[1] + said[2] for words in ("taken back: ", "has nothing to take back")):
            raise Failed(f"{what}: {said!r}")

    def ask_nobody(self, file, said):
        """A further revert has nothing to take back, and sends nothing."""
        with socket.socket(socket.AF_INET, socket.SOCK_DGRAM) as nobody:
            nobody.bind((HOST, 0))
            nobody.settimeout(0)
            port = nobody.getsockname()[1]
            wanted = (0, "", f"{file} has nothing to take back; nothing was sent\n")
            expect("a further revert", called([self.program, "revert", file, port, port]), wanted)
            try:
                raise Failed(f"a further revert sends {nobody.recv(100).hex()}")
            except BlockingIOError:
                pass


def trials(place, every, is_undo, options):
    """Yields trials of a call: the name of each, and its function. Of the points each so manieth is tried, from a place that is drawn."""
    words = place.undo_words(place.undo, *options) if is_undo else place.run_words(*options)
    if is_undo:
        place.run_whole()
    points = place.points(words)
    undo_points = points if is_undo else place.points(place.undo_words(place.undo))
    task = f"{place.UNDO if is_undo else place.RUN}{''.join(f' {it}' for it in options)}"
    first = place.draw.randrange(every)
    for at, point in enumerate(points[first::every]):
        yield f"{task} killed at {point.name} {point.number}", place.killed, point, at % (MOST_KILLS + 1), undo_points
    for point in [it for it in points if it.name in ERRORS][first::every]:
        for goes_on in (False, True):
            how = lambda words, at, goes_on=goes_on: place.failing(words, at, goes_on)
            yield f"{task}, {point.name} {point.number}{' and later ones' if goes_on else ''} failing", how, point, 0, undo_points


def tries_calls(kind, program, folder, seed, every, is_undo, options, told):
    """Tries the points of a run, or of an undo, at a place of this kind. Returns why some failed."""
    need("strace", "-qq", "-o", "/dev/null", "-e", "inject=fsync:error=EIO", "true")
    failed = []
    with kind(program, folder, f"{seed} {is_undo} {options}") as place:
        for name, how, point, kills, undo_points in trials(place, every, is_undo, options):
            try:
                told(name, place.try_point(is_undo, how, point, kills, options, undo_points))
            except Failed as why:
                failed.append(str(why))
                place.before = read_records(place.asker)
    return failed


def fate_by(draw, ends):
    """Draws when a call is killed: at one of so many datagrams, or within so many seconds."""
    datagrams, seconds = ends
    if draw.random() < 0.5:
        return Fate(draw.randint(1, datagrams), draw.random() < 0.5)
    return Fate(seconds=draw.uniform(0.01, seconds))


def moment(place, at):
    """Runs the plan over a lossy way, kills it at a moment that is drawn, and takes back what is left, killed again up to three times. Returns how often it
    was killed."""
    place.clear()
    options = place.draw.choice(place.OPTIONS)
    killed = int(place.run_over(at, fate_by(place.draw, RUN_ENDS), *options)[0] is None)
    for _ in range(place.draw.randint(0, MOST_KILLS)):
        if place.left():
            killed += place.over(at, fate_by(place.draw, UNDO_ENDS), place.UNDO, place.left(), *options)[0] is None
    if place.left():
        place.expect_taken_back("the undo", (*place.over(at, Fate(), place.UNDO, place.left(), *options), ""))
    others = differences(read_records(place.asker), place.before)
    expect("the records that are others (as they are, and as they have to be)", others, {})
    return killed


def tries_moments(kind, program, folder, seed, moments, told):
    """Kills runs and undos at moments that are drawn, at a place of this kind. Returns why some failed."""
    failed = []
    with kind(program, folder, f"moments {seed}") as place:
        for at in moments:
            try:
                told(f"killed {moment(place, f'{seed} {at}')} times", (0, "", ""))
            except Failed as why:
                failed.append(f"moment {at} of seed {seed}: {why}")
                place.before = read_records(place.asker)
    return failed


def small_disk(program, folder, pages, told):
    """A run whose files are on a disk of so many pages: what is set there is listed."""
    need("unshare", "--mount", "true")
    disk = f"{folder}/disk"
    os.mkdir(disk)
    with Place(program, folder, f"disk {pages}") as place:
        head = ["unshare", "--mount", "--propagation", "private", "sh", "-c", ON_DISK, "sh", pages * PAGE, disk, place.room]
        said = called([*head, *place.run_words()[:-1], f"{disk}/undo.txt"])
        if said[0] == UNMOUNTED:
            raise Skipped("no disk may be mounted")
        told(f"a disk of {pages} pages, with {sorted(texts_in(place.room))}", said)
        place.take_back(0, [])
