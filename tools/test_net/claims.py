"""Which files `bmcnet run` and `bmcnet undo` take for themselves, which they leave alone, and what they do with links, FIFOs and devices."""
import os
import socket
import threading

from . import servers
from .plans import IPMB, text_of
from .proxy import Proxies, Troubles
from .runs import STEPS, TURNS, WAIT, Run, distinct_steps, wait_until
from .servers import HOST, Asker, Server, expect

# How long a call waits for the other one's turn to end, in milliseconds: that goes on meanwhile.
HOLDING = 60000
HEAD = "journal 1\nretries 3\nnames 2C203020080A\nunlisted\nsteps 1\nipmb 102605380000004B5C64\n"
UNDOES = "undo 1\nipmb 10260538000000505F6E\nwaiting 0\n"
BEHIND = "stop\ncounts 2 0\nno replies\n"
# Journals with something to take back: a list, and an open request that undoes.
DONE, UNDOING = f"{HEAD}{UNDOES}stage done 0 0\n{BEHIND}", f"{HEAD}{UNDOES}stage undo 0 0\n{BEHIND}"
# A journal that has none: all was taken back.
UNDONE = f"{HEAD}{UNDOES}stage undone 0 0\n{BEHIND}"
# The undo text of the list that DONE has.
LIST = "undo 1\nnext ipmb 2 smbus 0\nipmb 10260538000000505F6E\n"


class Nobody:
    """A port that nobody answers at."""

    def __enter__(self):
        self.socket = socket.socket(socket.AF_INET, socket.SOCK_DGRAM)
        self.socket.bind((HOST, 0))
        self.socket.settimeout(0)
        self.port = self.socket.getsockname()[1]
        return self

    def __exit__(self, *_):
        self.socket.close()

    def has_heard(self):
        """Returns whether a request came."""
        try:
            self.socket.recv(100)
            return True
        except BlockingIOError:
            return False


def names_in(folder):
    return sorted(os.listdir(folder))


def texts_in(folder):
    return {name: servers.read(f"{folder}/{name}") for name in names_in(folder) if os.path.isfile(f"{folder}/{name}")}


def refused(folder, port, what, said, word):
    """Tests that a call was refused by its word, and sent nothing."""
    expect(what, said, (3, "", f"file {folder}/{word}\n"))
    expect(f"{what}: whether it sent something", port.has_heard(), False)


def one_at_a_time(program, folder):
    """While a run holds its files, a run and an undo of the same are refused, by either word; once it was killed they aren't."""
    plan, undo = servers.write(f"{folder}/plan.toml", text_of(distinct_steps("held", 1), 0)), f"{folder}/undo.txt"
    with Nobody() as first, Nobody() as second:
        with Run(program, "--wait", HOLDING, plan, first.port, first.port, 1, undo) as run:
            wait_until("the first request", first.has_heard)
            before = texts_in(folder)
            ports = second.port, second.port
            refused(folder, second, "a second run", servers.call(program, "run", plan, *ports, 1, undo), "undo.txt")
            refused(folder, second, "one that replaces", servers.call(program, "run", "--replace", plan, *ports, 1, undo), "undo.txt")
            refused(folder, second, "an undo", servers.call(program, "undo", undo, *ports, 1), "undo.txt")
            refused(folder, second, "an undo of the journal", servers.call(program, "undo", f"{undo}.part", *ports, 1), "undo.txt.part")
            expect("the files", texts_in(folder), before)
            expect("their names", names_in(folder), ["plan.toml", "undo.txt.lock", "undo.txt.part"])
            run.stop()
        said = servers.call(program, "undo", "--wait", WAIT, f"{undo}.part", *ports, 1)
        expect("an undo of what the killed run left", said, (0, "phase Unsettled 0\n", ""))


def keeps_what_was_left(program, folder):
    """A run isn't begun over a journal with something to take back, or over what is none: `--replace` puts it aside."""
    plan, undo = servers.write(f"{folder}/plan.toml", text_of(distinct_steps("left", 1), 0)), f"{folder}/undo.txt"
    asides = []
    with Nobody() as nobody:
        words = "--wait", WAIT, plan, nobody.port, nobody.port, 1, undo
        for text in (DONE, UNDOING, LIST, "what was there\n", ""):
            servers.write(f"{undo}.part", text)
            before = texts_in(folder)
            refused(folder, nobody, f"a run over {text!r}", servers.call(program, "run", *words), "undo.txt")
            expect("the files", {**texts_in(folder), "undo.txt.lock": ""}, {**before, "undo.txt.lock": ""})
            aside = f"undo.txt.part.{len(asides) + 1}"
            said = servers.call(program, "run", "--replace", *words)
            expect(f"a run that replaces {text!r}", said, (0, "phase Unsettled 0\n", f"aside {folder}/{aside}\n"))
            expect("whether it sent something", nobody.has_heard(), True)
            asides.append((aside, text))
            expect("what was put aside", [(name, servers.read(f"{folder}/{name}")) for name, _ in asides], asides)
        servers.write(undo, LIST)
        for text in (UNDONE, DONE, LIST.replace("ipmb 10260538000000505F6E\n", "")):
            servers.write(f"{undo}.part", text)
            expect(f"a run over {text!r}", servers.call(program, "run", *words), (0, "phase Unsettled 0\n", ""))
            expect("whether it sent something", nobody.has_heard(), True)


def killed_undo(program, folder, board):
    """An undo of an undo text that is killed once the controller undid a step, and before it heard of that: another is refused, and that of its journal goes
    on. The undo text stays."""
    steps = distinct_steps("killed undo", STEPS)
    gets = [step.get for step in steps]
    plan, undo = servers.write(f"{folder}/plan.toml", text_of(steps, 3)), f"{folder}/undo.txt"
    with Server(program, board, 3000) as server, Asker(server.ports) as asker, Proxies(server.ports, 1) as proxies:
        before = asker.get_all(gets)
        expect("run", proxies.call(Troubles(), program, "run", plan, TURNS, undo), (0, "phase Done\n", ""))
        text = servers.read(undo)
        proxies.each[IPMB].troubles = Troubles(mute_from=2 * STEPS + 2)
        with Run(program, undo, *(proxy.port for proxy in proxies.each), TURNS, task="undo") as run:
            wait_until("the reply that is held", lambda: proxies.each[IPMB].counts["muted"] > 0)
            run.stop()
        lines = servers.read(f"{undo}.part").split("\n")
        expect("the journal", (lines[0], f"stage undo {STEPS - 2} 0" in lines), ("journal 1", True))
        expect("a second undo", proxies.call(Troubles(), program, "undo", undo, TURNS), (3, "", f"file {undo}\n"))
        expect("a run", proxies.call(Troubles(), program, "run", plan, TURNS, undo), (3, "", f"file {undo}\n"))
        expect("the undo of its journal", proxies.call(Troubles(), program, "undo", f"{undo}.part", TURNS), (0, "phase Undone\n", ""))
        expect("the records behind it", asker.get_all(gets), before)
        expect("the undo text", servers.read(undo), text)
        server.ended()


def undoes_alone(program, folder, board):
    """An undo keeps a journal until it took all back, beside the file where its word leads."""
    steps = distinct_steps("link", STEPS)
    plan, undo, real = servers.write(f"{folder}/plan.toml", text_of(steps, 3)), f"{folder}/undo.txt", f"{folder}/real"
    os.mkdir(real)
    os.symlink("real/list.txt", undo)
    with Server(program, board, 400) as server:
        expect("run", servers.call(program, "run", plan, *server.ports, TURNS, undo), (0, "phase Done\n", ""))
        expect("the link", os.readlink(undo), "real/list.txt")
        expect("the files where it leads", names_in(real), ["list.txt", "list.txt.lock"])
        expect("the files beside it", names_in(folder), ["plan.toml", "real", "undo.txt"])
        text = servers.read(undo)
        expect("undo", servers.call(program, "undo", undo, *server.ports, TURNS), (0, "phase Undone\n", ""))
        expect("the files behind it", texts_in(real), {"list.txt": text, "list.txt.lock": ""})
        expect("serve", server.ended(), (0, f"served {3 * STEPS}\nrecords same\n", ""))


def pours(program, folder, board):
    """A FIFO and devices get the list by a plain write: they stay, and nothing lies beside them. An undo reads a pipe."""
    steps = distinct_steps("pipe", STEPS)
    plan, pipe, heard = servers.write(f"{folder}/plan.toml", text_of(steps, 3)), f"{folder}/pipe", []
    os.mkfifo(pipe)
    with Server(program, board, 4000) as server:
        reader = threading.Thread(target=lambda: heard.append(servers.read(pipe)))
        reader.start()
        expect("a run to a FIFO", servers.call(program, "run", plan, *server.ports, TURNS, pipe), (0, "phase Done\n", ""))
        reader.join(servers.CALL)
        expect("what the FIFO got", [text.split("\n")[0] for text in heard], ["undo 2"])
        expect("the files", names_in(folder), ["pipe", "plan.toml"])
        writer = threading.Thread(target=lambda: servers.write(pipe, heard[0]))
        writer.start()
        expect("an undo of it", servers.call(program, "undo", pipe, *server.ports, TURNS), (0, "phase Undone\n", ""))
        writer.join(servers.CALL)
        expect("the files behind it", names_in(folder), ["pipe", "plan.toml"])
        expect("serve", server.ended(), (0, f"served {3 * STEPS}\nrecords same\n", ""))
    with Server(program, board, 4000) as server:
        expect("a run to /dev/null", servers.call(program, "run", plan, *server.ports, TURNS, "/dev/null"), (0, "phase Done\n", ""))
    with Server(program, board, 4000) as server:
        status, out, err = servers.call(program, "run", plan, *server.ports, TURNS, "/dev/stdout")
        expect("a run to /dev/stdout", (status, out, err), (0, f"{heard[0]}phase Done\n", ""))


def tests(board):
    """Returns the tests of this file: the name, the function and its words."""
    return [
        ("calls with one UNDO at once", one_at_a_time, ()),
        ("a journal that is in the way", keeps_what_was_left, ()),
        ("an undo that is killed", killed_undo, (board,)),
        ("an UNDO that is a link", undoes_alone, (board,)),
        ("an UNDO that is a FIFO or a device", pours, (board,)),
    ]
