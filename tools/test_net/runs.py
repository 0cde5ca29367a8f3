"""What `bmcnet run` does with its options, and what it leaves."""
import os
import socket
import subprocess
import time

from . import servers
from .plans import IPMB, steps_by, text_of
from .proxy import Proxies, Troubles
from .servers import HOST, Asker, Failed, Server, expect

# How long one quiet turn of these runs lasts, in milliseconds; and of those that a reply has to reach, however busy the machine is.
WAIT, LONG_WAIT = 50, 5000
TURNS = 2000
# How many datagrams are lost while a link is silent: ten of them are five requests, each sent twice.
MOST_LOST = 10
# A request of this number and those behind it are lost while a link is silent.
SILENT_FROM = 4
STEPS = 3


def ipmb_steps(seed, number):
    """Returns so many steps over IPMB."""
    return [step for step in steps_by(seed, 10 * number, 10 * number) if step.get[0] == IPMB][:number]


class Run:
    """A call of `bmcnet run`, or of another task, that goes on. At the end of a `with` it has ended, by itself or by its process id."""

    def __init__(self, program, *words, task="run"):
        self.words = [program, task, *map(str, words)]

    def __enter__(self):
        self.process = subprocess.Popen(self.words, stdin=subprocess.DEVNULL, stdout=subprocess.PIPE, stderr=subprocess.PIPE, text=True)
        return self

    def __exit__(self, *_):
        self.stop()

    def stop(self):
        if self.process.poll() is None:
            self.process.kill()
        self.process.communicate()

    def ended(self):
        """Returns the status, standard output and standard error, once it has ended by itself."""
        try:
            out, err = self.process.communicate(timeout=servers.CALL)
        except subprocess.TimeoutExpired as late:
            raise Failed(f"{' '.join(self.words)} didn't end in {servers.CALL} s") from late
        return self.process.returncode, out, err


def wait_until(what, holds):
    """Waits until something holds."""
    until = time.monotonic() + servers.START
    while not holds():
        if time.monotonic() > until:
            raise Failed(f"{what} didn't come in {servers.START} s")
        time.sleep(0.005)


def tries_again(program, folder, board):
    """A run over a link that drops everything for a while: without `--again` it ends unsettled, and with it the plan is done and undone."""
    steps = ipmb_steps("again", STEPS)
    plan, undo = servers.write(f"{folder}/plan.toml", text_of(steps, 1)), f"{folder}/undo.txt"
    with Server(program, board, 3000) as server, Proxies(server.ports, 1) as proxies:
        silent = Troubles(silent_from=SILENT_FROM)
        said = proxies.call(silent, program, "run", plan, 8, f"{folder}/lost.txt", "--wait", LONG_WAIT)
        expect("run, silent", said, (0, "phase Unsettled 1\n", ""))
        expect("its undo text", os.path.exists(f"{folder}/lost.txt"), False)
        server.ended()
    with Server(program, board, 3000) as server, Asker(server.ports) as asker, Proxies(server.ports, 1) as proxies:
        gets = [step.get for step in steps]
        before = asker.get_all(gets)
        for proxy in proxies.each:
            proxy.troubles = silent
        words = ["--wait", WAIT, "--again", 1000, plan, *(proxy.port for proxy in proxies.each), TURNS, undo]
        with Run(program, *words) as run:
            wait_until("the silence", lambda: proxies.each[IPMB].counts["lost"] >= MOST_LOST)
            for proxy in proxies.each:
                proxy.troubles = Troubles()
            expect("run, silent for a while", run.ended(), (0, "phase Done\n", ""))
        if [get for get in gets if asker.get_all(gets)[get] == before[get]]:
            raise Failed("the run changed no record")
        expect("undo", proxies.call(Troubles(), program, "undo", undo, TURNS, "--wait", LONG_WAIT), (0, "phase Undone\n", ""))
        expect("the records behind the undo", asker.get_all(gets), before)
        expect("serve", server.ended(), (0, f"served {3 * STEPS + sum(asker.asked)}\nrecords same\n", ""))


def stays_in_its_turns(program, folder):
    """However often a run may try again, its turns end it. Nobody answers it."""
    plan = servers.write(f"{folder}/plan.toml", text_of(ipmb_steps("turns", 1), 0))
    with socket.socket(socket.AF_INET, socket.SOCK_DGRAM) as nobody:
        nobody.bind((HOST, 0))
        nobody.settimeout(0)
        port = nobody.getsockname()[1]
        for again, turns, sent in [(0, 6, 1), (2, 6, 3), (4294967295, 6, 6), (3, 0, 1)]:
            said = servers.call(program, "run", "--wait", WAIT, "--again", again, plan, port, port, turns, f"{folder}/undo.txt")
            expect(f"--again {again}, {turns} turns", said, (0, "phase Getting 0\n" if turns == 0 else "phase Unsettled 0\n", ""))
            heard = set()
            for _ in range(sent):
                heard.add(nobody.recv(100))
            expect(f"--again {again}, {turns} turns: its requests", len(heard), 1)
            try:
                raise Failed(f"--again {again}, {turns} turns: one more request, {nobody.recv(100).hex()}")
            except BlockingIOError:
                pass


def waits_first(program, folder):
    """A run with `--forget N` sends nothing for N turns and one more."""
    plan = servers.write(f"{folder}/plan.toml", text_of(ipmb_steps("forget", 1), 0))
    with socket.socket(socket.AF_INET, socket.SOCK_DGRAM) as nobody:
        nobody.bind((HOST, 0))
        nobody.settimeout(servers.START)
        port, begun = nobody.getsockname()[1], time.monotonic()
        with Run(program, "--wait", WAIT, "--forget", 20, plan, port, port, 1, f"{folder}/undo.txt") as run:
            nobody.recv(100)
            took = time.monotonic() - begun
            if took < 21 * WAIT / 1000:
                raise Failed(f"the first request came after {took} s")
            expect("run", run.ended(), (0, "phase Unsettled 0\n", ""))


def waits_as_told(program, folder):
    """An undo that nobody answers uses up its turns, each of which lasts as long as `--wait` says."""
    undo = servers.write(f"{folder}/list.txt", "undo 2\nnext ipmb 2 smbus 0\nnames ipmb 2C 20 smbus 30 20 eid 08 0A\nipmb 102805E080000000\n")
    with socket.socket(socket.AF_INET, socket.SOCK_DGRAM) as nobody:
        nobody.bind((HOST, 0))
        port, begun = nobody.getsockname()[1], time.monotonic()
        expect("undo", servers.call(program, "undo", "--wait", LONG_WAIT, undo, port, port, 2), (0, "phase Undoing 0\n", ""))
        took = time.monotonic() - begun
        if took < 2 * LONG_WAIT / 1000:
            raise Failed(f"two turns took {took} s")


def distinct_steps(seed, number):
    """Returns so many steps over IPMB, each of which sets another record."""
    return list({step.get: step for step in steps_by(seed, 100, 100) if step.get[0] == IPMB}.values())[:number]


def killed(program, folder, board, place):
    """A run that is killed once the controller set the record of the step of this place, and before the run heard of that: its journal, undone, leaves every
    record as it was, and the file UNDO is as it was."""
    steps = distinct_steps("killed", STEPS)
    gets = [step.get for step in steps]
    plan, undo = servers.write(f"{folder}/plan.toml", text_of(steps, 15)), servers.write(f"{folder}/undo.txt", "what was there\n")
    with Server(program, board, 3000) as server, Asker(server.ports) as asker, Proxies(server.ports, 1) as proxies:
        before = asker.get_all(gets)
        proxies.each[IPMB].troubles = Troubles(mute_from=2 * place + 2)
        words = [plan, *(proxy.port for proxy in proxies.each), TURNS, undo]
        with Run(program, *words) as run:
            wait_until("the reply that is held", lambda: proxies.each[IPMB].counts["muted"] > 0)
            run.stop()
        expect("UNDO behind the kill", servers.read(undo), "what was there\n")
        lines = servers.read(f"{undo}.part").split("\n")
        expect("the journal", (lines[0], f"stage set {place} 0" in lines), ("journal 1", True))
        behind = asker.get_all(gets)
        expect("the records that the run left", [behind[get] != before[get] for get in gets], [at <= place for at in range(STEPS)])
        expect("undo", proxies.call(Troubles(), program, "undo", f"{undo}.part", TURNS), (0, "phase Undone\n", ""))
        undone = asker.get_all(gets)
        expect("the records behind the undo", [undone[get] == before[get] for get in gets], [True] * STEPS)
        server.ended()


def unmade(program, folder):
    """A run that can't make the file of its journal, or whose UNDO is a folder, says so, and sends nothing."""
    plan = servers.write(f"{folder}/plan.toml", text_of(distinct_steps("unmade", 1), 0))
    os.mkdir(f"{folder}/taken.part")
    os.mkdir(f"{folder}/folder")
    os.mkdir(f"{folder}/next.next")
    with socket.socket(socket.AF_INET, socket.SOCK_DGRAM) as nobody:
        nobody.bind((HOST, 0))
        nobody.settimeout(0)
        port = nobody.getsockname()[1]
        for undo in [f"{folder}/none/undo.txt", f"{folder}/taken", f"{folder}/folder", f"{folder}/next"]:
            expect(undo, servers.call(program, "run", "--wait", WAIT, plan, port, port, 3, undo), (3, "", f"file {undo}\n"))
            try:
                raise Failed(f"{undo}: a request came: {nobody.recv(100).hex()}")
            except BlockingIOError:
                pass
    expect("the files", sorted(os.listdir(folder)), ["folder", "next.lock", "next.next", "plan.toml", "taken.lock", "taken.part"])


def tests(board):
    """Returns the tests of this file: the name, the function and its words."""
    return [
        ("a run that tries again", tries_again, (board,)),
        ("a run that tries again in its turns", stays_in_its_turns, ()),
        ("a run that waits first", waits_first, ()),
        ("an undo that waits", waits_as_told, ()),
        *((f"a run that is killed in step {place}", killed, (board, place)) for place in range(STEPS)),
        ("a run that can't make its list", unmade, ()),
    ]
