"""Proxies that send strangers' datagrams to a server, a few before each frame of the manager."""
import collections
import random
import socket

from .noise import AT_A_TIME, Noise
from .plans import SMBUS
from .proxy import Proxy


class Flood:
    """What strangers send to both ports of a server. `sent` counts it by sort, until there was enough."""

    # How many in a hundred datagrams are requests that are carried out, and how many begin a message that doesn't go on.
    CARRIED, BEGUN = 10, 5

    def __init__(self, ports, seed, enough):
        self.noises = [Noise(bus, ports, f"flood {seed}") for bus in range(len(ports))]
        self.draw = random.Random(f"flood {seed}")
        self.enough = enough
        self.sent = collections.Counter()
        self.most_between = 0

    def __enter__(self):
        return self

    def __exit__(self, *_):
        for noise in self.noises:
            for stranger in noise.strangers:
                stranger.__exit__()

    def count(self):
        return sum(self.sent.values())

    def datagram(self, bus, stranger):
        """Returns what sort of datagram comes, and its bytes."""
        place = self.draw.uniform(0, 100)
        if place < self.CARRIED:
            return "requests", stranger.request(bus, self.draw)
        if bus == SMBUS and place < self.CARRIED + self.BEGUN:
            return "beginnings", stranger.beginning()
        return "noise", self.noises[bus].disturbance(stranger)

    def come(self, bus):
        """Strangers send what comes before a frame of the manager on this bus."""
        strangers = self.noises[bus].strangers
        many = min(AT_A_TIME, self.enough - self.count())
        for _ in range(many):
            stranger = self.draw.choice(strangers)
            sort, datagram = self.datagram(bus, stranger)
            self.noises[bus].send(stranger, datagram)
            self.sent[sort] += 1
        self.most_between = max(self.most_between, many)
        for stranger in strangers:
            hear_all(stranger.links[bus])


def hear_all(link):
    """Takes what came, so that no replies wait."""
    link.setblocking(False)
    try:
        while True:
            link.recv(2048)
    except (BlockingIOError, ConnectionRefusedError, socket.timeout):
        pass


class FloodProxy(Proxy):
    """The proxy of one bus, which has strangers send before each frame that it hands on to the server."""

    def __init__(self, bus, server_port, flood):
        super().__init__(bus, server_port, "flood")
        self.flood = flood

    def hand_on(self, seen, to_server=None, data=None):
        if seen.to_server:
            self.flood.come(self.bus)
        super().hand_on(seen, to_server, data)
