"""Proxies between a manager and a server, one for each bus: links that lose, repeat and delay datagrams by a seed, and count requests."""
import collections
import random

from lossy_link import Link

from .servers import call, number_of

Troubles = collections.namedtuple("Troubles", "lose repeat hold most_tries slow silent_from late mute_from", defaults=(0, 0, 0, 0, 0.0, None, None, None))
Troubles.__doc__ = """What becomes of datagrams: how many in a hundred are lost, repeated and held; how many tries of a request may meet with that; how long
each waits anyhow; from which request on all are lost; behind how many newer requests a copy of the second request, a plan's first Set, comes once more; and
from which request on no reply comes."""

# How many newer requests may have begun on the bus before a datagram that is held is let go: eight would be too many.
MOST_NEWER = 6
# How long a datagram is held at most, in seconds.
MOST_HELD = 0.5


class Proxy(Link):
    """The proxy of one bus. Within a `with` it runs; `port` is the one that the manager speaks to."""

    def __init__(self, bus, server_port, seed):
        super().__init__(server_port)
        self.bus, self.draw, self.troubles = bus, random.Random(f"{seed} {bus}"), Troubles()
        self.begun = 0
        self.number = None
        self.tries = 0

    def hold_for(self, seen, seconds, newer):
        """Holds a datagram so long, or until so many newer requests have begun."""
        until = self.begun + newer
        self.hold(seen, seconds, lambda: self.begun >= until)

    def note(self, datagram):
        """Notes that the manager sent this."""
        number = number_of(self.bus, datagram)
        if number is None:
            return
        if number != self.number:
            self.number, self.tries = number, 0
            self.begun += 1
        self.tries += 1

    def hear(self, seen):
        if seen.to_server:
            self.note(seen.data)
            self.release()
        self.meet(seen)

    def meet(self, seen):
        """Does what the troubles do to a datagram."""
        asked = self.troubles
        if asked.late and seen.to_server and self.begun == 2 and self.tries == 1:
            self.hold_for(seen, 3600, asked.late)
        if asked.silent_from and self.begun >= asked.silent_from:
            self.counts["lost"] += 1
            return
        if asked.mute_from and not seen.to_server and self.begun >= asked.mute_from:
            self.counts["muted"] += 1
            return
        place = self.draw.uniform(0, 100)
        if self.tries > asked.most_tries or place >= asked.lose + asked.repeat + asked.hold:
            if asked.slow:
                self.hold_for(seen, asked.slow, MOST_NEWER)
            else:
                self.hand_on(seen)
        elif place < asked.lose:
            self.counts["lost"] += 1
        else:
            is_repeated = place < asked.lose + asked.repeat
            self.counts["repeated" if is_repeated else "held"] += 1
            if is_repeated:
                self.hand_on(seen)
            self.hold_for(seen, self.draw.uniform(0, MOST_HELD), self.draw.randint(1, MOST_NEWER))


class Proxies:
    """The proxies of both buses. Within a `with` they run; what they hold of one call may come during the next."""

    def __init__(self, ports, seed):
        self.each = [Proxy(bus, port, seed) for bus, port in enumerate(ports)]

    def __enter__(self):
        for proxy in self.each:
            proxy.__enter__()
        return self

    def __exit__(self, *_):
        for proxy in self.each:
            proxy.__exit__()

    def call(self, troubles, program, command, file, *others):
        """Calls the program with the proxies' ports behind the file's name, while they make these troubles."""
        for proxy in self.each:
            proxy.troubles = troubles
        return call(program, command, file, *(proxy.port for proxy in self.each), *others)

    def counts(self):
        return dict(sum((proxy.counts for proxy in self.each), collections.Counter()))
