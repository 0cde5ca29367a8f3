"""Links of UDP between whoever speaks to a port and a server at another. One that loses, repeats, delays, damages and forges does so by a seed."""
import collections
import random
import socket
import threading
import time

import frames
import program

# The longest delay where nothing else is said, in milliseconds.
LONGEST = 150
# No turn of the link waits longer than this, in seconds.
TURN = 0.1
# How many clients a link keeps apart; the one that was silent longest goes first.
MOST_CLIENTS = 64

Held = collections.namedtuple("Held", "until number is_free to_server seen data")
Held.__doc__ = "A datagram that waits until this time, or until `is_free` says that it need not wait any more."


class Seen:
    """A datagram that came to the link: from the client at `whence` to the server, or back to it."""

    def __init__(self, to_server, data, whence):
        self.to_server = to_server
        self.data = data
        self.whence = whence


class Link(threading.Thread):
    """A link to the server's port. Within a `with` it runs in a thread of its own; `port` is the one that clients speak to.

    `hear` says what becomes of a datagram: it hands it on, holds it, or does neither."""

    def __init__(self, server, port=0, listen=program.LOOPBACK, host=program.LOOPBACK, log=None):
        super().__init__(daemon=True)
        self.front = socket.socket(socket.AF_INET, socket.SOCK_DGRAM)
        self.front.bind((listen, port))
        self.port = self.front.getsockname()[1]
        self.server = (host, server)
        self.log = log
        # The socket by which the server hears each client, which was heard last at the end.
        self.backs = {}
        self.held = []
        self.given = 0
        self.counts = collections.Counter()
        self.is_over = False

    def __enter__(self):
        self.start()
        return self

    def __exit__(self, *_):
        self.is_over = True
        if self.is_alive():
            self.join()
        for link in (self.front, *self.backs.values()):
            link.close()

    def run(self):
        while not self.is_over:
            self.turn()

    def turn(self, longest=TURN):
        """Hears what comes until the next datagram that is held is due, for no longer than this, and lets that go."""
        due = min((it.until for it in self.held), default=time.monotonic() + TURN)
        whences = {back: whence for whence, back in self.backs.items()}
        for link in program.ready_of([self.front, *whences], min(longest, due - time.monotonic())):
            try:
                data, sender = link.recvfrom(program.MOST_READ)
            except OSError:
                continue
            seen = Seen(link is self.front, data, sender if link is self.front else whences[link])
            if self.log:
                self.log.came(seen)
            self.hear(seen)
        self.release()

    def hear(self, seen):
        """Hands a datagram on."""
        self.hand_on(seen)

    def release(self):
        """Hands on what waited long enough."""
        now = time.monotonic()
        free = sorted((it for it in self.held if it.until <= now or (it.is_free and it.is_free())), key=lambda it: it[:2])
        self.held = [it for it in self.held if it not in free]
        for it in free:
            self.hand_on(it.seen, it.to_server, it.data)

    def hold(self, seen, seconds, is_free=None, to_server=None, data=None):
        """Hands a datagram on later, or another in its place."""
        self.given += 1
        to_server = seen.to_server if to_server is None else to_server
        self.held.append(Held(time.monotonic() + seconds, self.given, is_free, to_server, seen, seen.data if data is None else data))

    def hand_on(self, seen, to_server=None, data=None):
        """Hands a datagram on, or another in its place; one that nobody takes is lost."""
        to_server = seen.to_server if to_server is None else to_server
        data = seen.data if data is None else data
        if self.log:
            self.log.went(seen, to_server, data)
        try:
            if to_server:
                self.back_of(seen.whence).send(data)
            else:
                self.front.sendto(data, seen.whence)
        except OSError:
            self.counts["refused"] += 1

    def back_of(self, whence):
        """Returns the socket by which the server hears this client."""
        back = self.backs.pop(whence, None)
        if not back:
            back = socket.socket(socket.AF_INET, socket.SOCK_DGRAM)
            back.connect(self.server)
        self.backs[whence] = back
        if len(self.backs) > MOST_CLIENTS:
            self.backs.pop(next(iter(self.backs))).close()
        return back


Troubles = collections.namedtuple("Troubles", "lose repeat delay damage slow codes longest", defaults=(0, 0, 0, 0, 0, (), LONGEST))
Troubles.__doc__ = """What a lossy link does: how many of a hundred datagrams are lost, come twice, come late and come damaged; how many milliseconds
each waits anyhow; pairs of a completion code with how many get that; and by how many milliseconds at most a datagram, or its copy, is late. Each
but the last is a number, or a pair of them: to the server, and back."""


def of_way(value, way):
    """Returns what a trouble is for one way: 0 to the server, 1 back."""
    return value[way] if isinstance(value, tuple) else value


class LossyLink(Link):
    """A link whose troubles are drawn by a seed, for each way on its own: what comes one way leaves the other's draws as they are."""

    def __init__(self, server, seed, troubles, **given):
        super().__init__(server, **given)
        self.draws = [random.Random(f"{seed} {way}") for way in ("to the server", "back")]
        self.troubles = troubles

    def is_met(self, name, rate, way):
        """Draws whether a trouble is met, and counts it."""
        is_met = self.draws[way].uniform(0, 100) < of_way(rate, way)
        self.counts[name] += is_met
        return is_met

    def hear(self, seen):
        """Draws what becomes of a datagram. Each trouble is drawn of each, so that one changes no other's draws."""
        way = 0 if seen.to_server else 1
        draw, troubles = self.draws[way], self.troubles
        drawn = {name: self.is_met(name, getattr(troubles, name), way) for name in ("lose", "repeat", "delay", "damage")}
        late, twice, place = draw.uniform(0, troubles.longest / 1000), draw.uniform(0, troubles.longest / 1000), draw.random()
        codes = [code for code, rate in troubles.codes if self.is_met("code", rate, way)]
        if drawn["lose"]:
            return
        slow = of_way(troubles.slow, way)
        if slow and self.log:
            self.log.say("slowness", f"a datagram waits {slow} ms")
        data = damaged(seen.data, place) if drawn["damage"] else seen.data
        forged = forged_reply(seen.data, codes[0]) if codes else None
        for wait in [late if drawn["delay"] else 0.0, *([twice] if drawn["repeat"] else [])]:
            self.give(seen, slow / 1000 + wait, data, forged)

    def give(self, seen, wait, data, forged):
        """Hands a datagram on at its time, or the reply that is forged in its place."""
        to_server = seen.to_server and forged is None
        data = data if forged is None else forged
        if wait:
            self.hold(seen, wait, None, to_server, data)
        else:
            self.hand_on(seen, to_server, data)


def damaged(data, place):
    """Returns a datagram with one bit turned, at this part of its bits."""
    made = bytearray(data)
    if made:
        bit = int(place * len(made) * 8)
        made[bit // 8] ^= 1 << bit % 8
    return bytes(made)


def forged_reply(data, code):
    """Returns the reply with this code alone to a request on IPMB, or in place of a reply; None of other bytes."""
    try:
        message = frames.read_ipmb(data)
    except frames.Fault:
        return None
    reply = frames.reply_to(message, code) if frames.is_request(message) else message._replace(data=bytes([code]))
    return frames.write_ipmb(reply)
