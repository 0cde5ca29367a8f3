"""The boards of a fleet: each a controller that is served, with a reader of its own of all its records; and plans of six kinds for all of them."""
import concurrent.futures
import contextlib
import random
import re

from test_net import servers
from test_net.plans import attribute, event_enable, hysteresis, power_policy, text_of, thresholds, user_name
from test_net.records import board_by, differences, get_of, read_records
from test_net.servers import Asker, Server, expect

FIVE_KINDS = (thresholds, hysteresis, event_enable, power_policy, user_name)
# The attributes that plans set: one that each board takes, and one that some boards refuse.
TAKEN, REFUSED = 0, 1
# How long a board is served at most: so many turns of 200 ms.
SERVED_TURNS = 4_000_000
RETRIES = 3
# How many boards are begun or read at once.
AT_ONCE = 4
WRITABLE = re.compile(r'(name = "Asset"\n(?:.*\n)*?)readonly = false')


def steps_of(seed, handle=None):
    """Returns a step of each of the five kinds, over IPMB, and one that sets this attribute, over SMBus."""
    draw = random.Random(seed)
    steps = [kind(draw) for kind in FIVE_KINDS]
    while handle is not None:
        step = attribute(draw)
        if step.get == get_of(handle):
            return [*steps, step]
    return steps


def wanted_of(before, steps):
    """Returns what all records are once these steps were done."""
    wanted = dict(before)
    for step in steps:
        wanted[step.get] = step.makes(bytes.fromhex(wanted[step.get])).hex()
    return wanted


class Board:
    """A board that is served: its name in the fleet, its ports, and what its records were at first."""

    def __init__(self, name, server):
        self.name, self.server, self.ports = name, server, server.ports
        self.asker = Asker(server.ports)
        self.before = read_records(self.asker)

    def now(self):
        return read_records(self.asker)


class Fleet:
    """Boards of different records, of which the last ones refuse to have an attribute set. At the end of a `with` none is served."""

    def __init__(self, program, room, count, refusing):
        self.program, self.room, self.count, self.refusing = program, room, count, refusing
        self.boards, self.open = [], contextlib.ExitStack()

    def text_of(self, place):
        text = board_by(random.Random(f"board {place}"))
        return WRITABLE.sub(r"\1readonly = true", text) if place >= self.count - self.refusing else text

    def begin(self, place):
        """Serves a board."""
        path = servers.write(f"{self.room}/board{place}.toml", self.text_of(place))
        server = Server(self.program, path, SERVED_TURNS, "--periods")
        self.open.enter_context(server)
        return Board(f"m{place:03}", server)

    def __enter__(self):
        try:
            with concurrent.futures.ThreadPoolExecutor(AT_ONCE) as pool:
                begun = [pool.submit(self.begin, place) for place in range(self.count)]
                try:
                    self.boards = [board.result() for board in begun]
                except BaseException:
                    pool.shutdown(cancel_futures=True)
                    raise
        except BaseException:
            self.open.close()
            raise
        return self

    def __exit__(self, *_):
        for board in self.boards:
            board.asker.__exit__()
        self.open.close()

    def names(self):
        return [board.name for board in self.boards]

    def looks(self, boards=None):
        """Returns what all records of these boards are now, by their names."""
        boards = self.boards if boards is None else boards
        with concurrent.futures.ThreadPoolExecutor(AT_ONCE) as pool:
            return dict(zip([it.name for it in boards], pool.map(lambda board: board.now(), boards)))

    def expect_as_before(self, when, boards=None):
        """Tests that each record of each board is as at first."""
        boards = self.boards if boards is None else boards
        seen = self.looks(boards)
        found = {it.name: differences(seen[it.name], it.before) for it in boards if seen[it.name] != it.before}
        expect(f"the records {when}, where they aren't as before", found, {})

    def expect_applied(self, when, steps, boards=None):
        """Tests that each record of each board is as these steps leave it."""
        boards = self.boards if boards is None else boards
        seen = self.looks(boards)
        wanted = {it.name: wanted_of(it.before, steps) for it in boards}
        found = {name: differences(seen[name], wanted[name]) for name in seen if seen[name] != wanted[name]}
        expect(f"the records {when}, where they aren't as the plan leaves them", found, {})

    def changed(self):
        """Returns the names of the boards of which a record isn't as at first."""
        seen = self.looks()
        return [it.name for it in self.boards if seen[it.name] != it.before]


def plan_of(room, name, steps):
    """Returns the file of a plan of these steps."""
    return servers.write(f"{room}/{name}.toml", text_of(steps, RETRIES))
