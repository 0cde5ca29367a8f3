"""Requests that are sent once, each of which a server answers, and how long it listens."""
import time

from . import servers
from .periods import ATTRIBUTE, POLICY
from .servers import Asker, Failed, Server, expect, number_of

# How many requests each port gets.
MANY = 150
# How often a server listens to which nobody speaks.
TURNS = 30


def each_is_answered(program, folder, board):
    """One after another, and none is sent again: a reply that a server doesn't send is missed."""
    with Server(program, board, 4 * MANY) as server, Asker(server.ports) as asker:
        for link in asker.links:
            link.settimeout(servers.START)
        for place in range(MANY):
            for bus, words in (POLICY, ATTRIBUTE):
                frame = asker.ipmb(*words) if bus == 0 else asker.smbus(*words)
                asker.links[bus].send(frame)
                if asker.heard(bus, number_of(bus, frame)) is None:
                    raise Failed(f"no answer to request {place} at port {bus}")
        expect("serve", server.ended(), (0, f"served {2 * MANY}\nrecords same\n", ""))


def makes_all_turns(program, folder, board):
    """A server to which nobody speaks listens as often as it is to, for 200 ms each time. It may have begun just before it told its ports."""
    with Server(program, board, TURNS) as server:
        begun = time.monotonic()
        expect("serve", server.told(), (0, "served 0\nrecords same\n", ""))
        took = time.monotonic() - begun
        if took < (TURNS - 1) * servers.QUIET:
            raise Failed(f"{TURNS} turns took {took} s")


def tests(board):
    """Returns the tests of this file: the name, the function and its words."""
    return [("each request is answered", each_is_answered, (board,)), ("a server in its turns", makes_all_turns, (board,))]
