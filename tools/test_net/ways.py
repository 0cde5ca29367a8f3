"""Calls of `bmcnet` over ways that lose and repeat datagrams, and that are killed at a datagram."""
import subprocess
import threading

from . import servers
from .proxy import Proxy
from .servers import Failed

# How long a quiet turn lasts where each reply has to come, and where some are lost, in milliseconds; and how many turns a call has.
LONG_WAIT, SHORT_WAIT = 1500, 200
TURNS = 1000
# How late a second copy of a reply may come, in seconds.
LATE = 0.2


class Fate:
    """At which datagram of a call the program that made it is killed, before the datagram is handed on or behind that; or behind how many seconds. Where
    neither is said, it is spared."""

    def __init__(self, at=None, is_behind=False, seconds=None):
        self.at, self.is_behind = at, is_behind
        self.timer = threading.Timer(seconds, self.kill) if seconds else None
        self.process = None
        self.begun = threading.Event()
        self.lock = threading.Lock()
        self.seen = 0
        self.is_over = False

    def begin(self, process):
        self.process = process
        self.begun.set()
        if self.timer:
            self.timer.start()

    def end(self):
        """Has nothing come any more, once the program has ended."""
        if self.timer:
            self.timer.cancel()

    def kill(self):
        """Ends the program, unless it ended by itself: behind that no datagram of it is handed on."""
        self.begun.wait()
        self.is_over = self.process.poll() is None
        self.process.kill()

    def meets(self, hand_on):
        """Counts a datagram, hands it on unless the program's end comes first, and returns whether that came."""
        with self.lock:
            if self.is_over:
                return True
            self.seen += 1
            if self.seen != self.at:
                return False
            if self.is_behind:
                hand_on()
            self.kill()
            return True


class Way(Proxy):
    """The way of one bus: it loses and repeats datagrams, and a reply may come late, too. A request comes twice at once alone, before the next is begun."""

    def __init__(self, bus, port, seed, fate):
        super().__init__(bus, port, seed)
        self.fate = fate

    def meet(self, seen):
        if self.fate.meets(lambda: self.hand_on(seen)):
            return
        asked, place = self.troubles, self.draw.uniform(0, 100)
        is_spared = self.tries > asked.most_tries
        if place < asked.lose and not is_spared:
            self.counts["lost"] += 1
            return
        self.hand_on(seen)
        if asked.lose <= place < asked.lose + asked.repeat and not is_spared:
            self.counts["repeated"] += 1
            if seen.to_server:
                self.hand_on(seen)
            else:
                self.hold(seen, self.draw.uniform(0, LATE))


def called(program, ports, seed, troubles, fate, task, file, *others, turns=(TURNS,)):
    """Makes a call over ways of its own, and returns its status and what it printed; the status is None where it was killed. What is held of it is lost.
    A call that takes no turns is given none."""
    ways = [Way(bus, port, f"{seed} {task} {file}", fate) for bus, port in enumerate(ports)]
    for way in ways:
        way.troubles = troubles
    wait = SHORT_WAIT if troubles.lose else LONG_WAIT
    with ways[0], ways[1]:
        words = [program, task, "--wait", wait, file, ways[0].port, ways[1].port, *turns, *others]
        process = subprocess.Popen([*map(str, words)], stdin=subprocess.DEVNULL, stdout=subprocess.PIPE, stderr=subprocess.STDOUT, text=True)
        fate.begin(process)
        try:
            out, _ = process.communicate(timeout=servers.CALL)
        except subprocess.TimeoutExpired as late:
            raise Failed(f"{task} didn't end in {servers.CALL} s") from late
        finally:
            fate.end()
            process.kill()
            process.wait()
    return (None if fate.is_over else process.returncode), out
