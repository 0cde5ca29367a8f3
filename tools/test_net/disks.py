"""What `bmcnet run` does where a disk is full, or doesn't take what it is told to keep."""
import os
import shutil
import subprocess

from . import servers
from .plans import text_of
from .runs import TURNS, distinct_steps
from .servers import Asker, Server, Skipped, expect

STEPS = 2
PAGE = os.sysconf("SC_PAGE_SIZE")
# How long one quiet turn of these runs lasts, in milliseconds: a reply comes at once, but on a busy machine.
WAIT = 5000
# What the journal of a manager that did nothing says of its stage.
FRESH = "stage fresh 0 0"
# Mounts a disk of so many bytes over a folder, in a namespace of its own, runs the words there, and then keeps what the folder has.
ON_DISK = 'mount -t tmpfs -o size="$1" tmpfs "$2" || exit 77; folder=$2; kept=$3; shift 3; "$@"; status=$?; cp "$folder"/* "$kept"; exit "$status"'
UNMOUNTED = 77


def need(command, *trial):
    """The test is skipped where a command isn't there, or may not do this."""
    if shutil.which(command) is None:
        raise Skipped(f"{command} isn't installed")
    ran = subprocess.run([command, *trial], stdin=subprocess.DEVNULL, capture_output=True, text=True, check=False)
    if ran.returncode:
        raise Skipped(f"{command} may not do that here")


def called(words):
    """Returns how a call ends. A program with the sanitizers can't look for leaks where another one traces it."""
    about = {**os.environ, "ASAN_OPTIONS": "detect_leaks=0"}
    ran = subprocess.run([*map(str, words)], stdin=subprocess.DEVNULL, capture_output=True, text=True, timeout=servers.CALL, check=False, env=about)
    return ran.returncode, ran.stdout, ran.stderr


def run_words(program, plan, ports, undo):
    return [program, "run", "--wait", WAIT, plan, *ports, TURNS, undo]


def texts_in(folder):
    return {name: servers.read(f"{folder}/{name}") for name in sorted(os.listdir(folder))}


def changed(asker, before):
    """Returns how many records are others than before."""
    behind = asker.get_all(before)
    return sum(behind[get] != before[get] for get in before)


def full_disk(program, folder, board, pages, wanted, names, is_run):
    """A run whose files are on a disk of so many pages. Each text has one, and one is written before the one before it goes. A run whose
    journal can't be kept sends nothing."""
    need("unshare", "--mount", "true")
    plan = servers.write(f"{folder}/plan.toml", text_of(distinct_steps("disk", STEPS), 3))
    disk, kept = f"{folder}/disk", f"{folder}/kept"
    os.mkdir(disk)
    os.mkdir(kept)
    with Server(program, board, 4000) as server, Asker(server.ports) as asker:
        before = asker.get_all(step.get for step in distinct_steps("disk", STEPS))
        head = ["unshare", "--mount", "--propagation", "private", "sh", "-c", ON_DISK, "sh", pages * PAGE, disk, kept]
        said = called([*head, *run_words(program, plan, server.ports, f"{disk}/undo.txt")])
        if said[0] == UNMOUNTED:
            raise Skipped("no disk may be mounted")
        expect("run", said, (*wanted[:2], f"file {disk}/undo.txt\n" if wanted[0] else ""))
        texts = texts_in(kept)
        expect("the files", sorted(texts), names)
        (last,) = [text for name, text in texts.items() if not name.endswith((".next", ".lock"))]
        expect("a request of each step, to undo it or to carry it out", last.count("\nipmb "), STEPS)
        expect("the journal of a manager that did nothing", FRESH in last.split("\n"), not is_run)
        expect("the records that the run changed", changed(asker, before), STEPS if is_run else 0)
        server.ended()


def failing_call(program, folder, board, name, first, wanted):
    """A run in which a call of the system fails from the one of this place on, before a journal of an open request was kept: it is told, and nothing
    is sent."""
    need("strace", "-qq", "-o", "/dev/null", "-e", f"inject={name}:error=EIO", "true")
    plan, undo = servers.write(f"{folder}/plan.toml", text_of(distinct_steps("sync", STEPS), 3)), servers.write(f"{folder}/undo.txt", "what was there\n")
    with Server(program, board, 4000) as server, Asker(server.ports) as asker:
        before = asker.get_all(step.get for step in distinct_steps("sync", STEPS))
        head = ["strace", "-f", "-qq", "-o", f"{folder}/trace", "-e", f"trace={name}", "-e", f"inject={name}:error=EIO:when={first}+"]
        said = called([*head, *run_words(program, plan, server.ports, undo)])
        expect("run", said, (3, wanted, f"file {undo}\n"))
        expect("UNDO", servers.read(undo), "what was there\n")
        lines = servers.read(f"{undo}.part").split("\n") if os.path.exists(f"{undo}.part") else None
        expect("the journal", lines and (lines[0], FRESH in lines), ("journal 1", True) if first > 1 else None)
        expect("the records that the run changed", changed(asker, before), 0)
        server.ended()


def tests(board):
    """Returns the tests of this file: the name, the function and its words."""
    syncs, renames = "fsync,fdatasync", "rename,renameat,renameat2"
    return [
        ("a disk with room for two texts", full_disk, (board, 2, (0, "phase Done\n"), ["undo.txt", "undo.txt.lock"], True)),
        ("a disk that gets full", full_disk, (board, 1, (3, "phase Fresh\n"), ["undo.txt.lock", "undo.txt.next", "undo.txt.part"], False)),
        ("a disk that keeps nothing", failing_call, (board, syncs, 1, "")),
        ("a disk that keeps no name", failing_call, (board, syncs, 2, "")),
        ("a disk that keeps the first text alone", failing_call, (board, syncs, 3, "phase Fresh\n")),
        ("a name that can't be given", failing_call, (board, renames, 1, "")),
        ("names that can't be given but the first", failing_call, (board, renames, 2, "phase Fresh\n")),
    ]
