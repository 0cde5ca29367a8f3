"""What strangers send to a server's ports: damaged, empty and oversized datagrams, beginnings of messages, and Gets of their own."""
import random
import threading
import time

import frames

from .plans import IPMB, SMBUS
from .servers import Asker, number_of

# The addresses and endpoint identifiers of six requesters: a port has windows for eight, and the manager and an `Asker` have one each.
STRANGERS = [(0x50 + 2 * place, 0x10 + place) for place in range(6)]
AT_A_TIME = 16
# How many datagrams they send at most while one call goes on. A served history has room for 4,096 requests, and of sixteen datagrams at most four
# are one.
MOST = 4000
# How long the answer to the last datagram of sixteen may take, in seconds, before the next sixteen.
PATIENCE = 5


def is_read(bus, datagram):
    """Returns whether a port would read these bytes: then they are no noise."""
    try:
        frames.read_ipmb(datagram) if bus == IPMB else frames.read_packet(datagram)
        return True
    except (frames.Fault, IndexError):
        return False


class Stranger(Asker):
    """A requester that gets what it may get, and sets nothing."""

    def request(self, bus, draw):
        if bus == IPMB:
            words = draw.choice([(0x06, 0x01), (0x04, 0x27, b"\x05"), (0x00, 0x01), (0x0A, 0x40), (0x06, 0x3F), (0x04, 0x27, b"\x63")])
            return self.ipmb(*words)
        words = draw.choice([(0x00, 0x02), (0x00, 0x04), (0x03, 0x08, bytes([0, 0, 0, 0, 1, 1, 0])), (0x03, 0x77)])
        return self.smbus(*words)

    def beginning(self):
        """Returns the first packet of a message that doesn't go on."""
        return frames.write_packet(
            frames.Packet(frames.CONTROLLER, self.source, frames.CONTROLLER_EID, self.eid, 1, 0, 0, 1, 0, b"\x01" + bytes(frames.UNIT - 1))
        )


class Noise(threading.Thread):
    """Strangers on one port of a server. Within a `with` they send what they are allowed to; `gets` and `others` count what they sent."""

    def __init__(self, bus, ports, seed):
        super().__init__(daemon=True)
        self.bus = bus
        self.draw = random.Random(f"noise {seed} {bus}")
        self.strangers = [Stranger(ports, *names) for names in STRANGERS]
        self.gets = self.others = self.unanswered = 0
        self.allowed = 0
        self.is_over = False

    def __enter__(self):
        self.start()
        return self

    def __exit__(self, *_):
        self.is_over = True
        self.join()
        for stranger in self.strangers:
            stranger.__exit__()

    def sent(self):
        return self.gets + self.others

    def go_on(self):
        """Allows as many datagrams more as one call may meet with. Returns how many were sent before."""
        sent = self.sent()
        self.allowed = sent + MOST
        return sent

    def disturbance(self, stranger):
        """Returns bytes that no port takes for a request."""
        draw = self.draw
        frame = stranger.request(self.bus, draw)
        at = draw.randrange(len(frame))
        made = draw.choice(
            [
                b"",
                draw.randbytes(draw.randint(1, 80)),
                draw.randbytes(draw.randint(81, 1400)),
                frame[:at],
                frame[:at] + bytes([frame[at] ^ 1 << draw.randrange(8)]) + frame[at + 1 :],
                frame + draw.randbytes(draw.randint(1, 70)),
            ]
        )
        return b"" if is_read(self.bus, made) else made

    def send(self, stranger, datagram):
        try:
            stranger.links[self.bus].send(datagram)
        except ConnectionRefusedError:
            pass

    def round(self):
        """Sends sixteen datagrams of one stranger, of which the last is a request, and waits for the answers."""
        stranger = self.draw.choice(self.strangers)
        gets = self.draw.randint(0, 3)
        for _ in range(AT_A_TIME - 1 - gets):
            self.send(stranger, stranger.beginning() if self.bus == SMBUS and self.draw.random() < 0.1 else self.disturbance(stranger))
            self.others += 1
        stranger.links[self.bus].settimeout(PATIENCE)
        asked = [stranger.request(self.bus, self.draw) for _ in range(gets + 1)]
        for request in asked:
            self.send(stranger, request)
            self.gets += 1
        for request in asked:
            if stranger.heard(self.bus, number_of(self.bus, request)) is None:
                self.unanswered += 1

    def run(self):
        while not self.is_over:
            if self.sent() < self.allowed:
                self.round()
            time.sleep(0.001)
