"""Servers on whose boards something happens by a file of readings."""
import re
import time

from . import servers
from .periods import ROOM, events_of
from .plans import IPMB
from .servers import Asker, Failed, Server, call, expect

# Get Sensor Reading of sensor 5, Get SEL Info, and Get SEL Time.
READING = (IPMB, (0x04, 0x2D, b"\x05"))
LOG = (IPMB, (0x0A, 0x40))
TIME = (IPMB, (0x0A, 0x48))
# What a server tells once the room of its one history is over.
ROOM_OVER = "bmcnet: room is over: 4096 events; serve --periods goes on\n"
# How long a tick of a board's clock is, in seconds, and how many seconds of it are waited for.
TICK, SECONDS = 0.1, 3
# A reading of sensor 5 above its upper critical threshold, the one of which the log tells, and another one.
HOT, COOL = 0x60, 0x2A
# When it's cool again, in milliseconds.
COOL_AT = 1500
# More turns than any of these servers makes by itself while it's tested, which empty datagrams use up.
TURNS = 12000
# How long one turn of a server lasts that ends once it's quiet, in milliseconds, and how many quiet ones end it.
WAIT, QUIET_TURNS = 50, 10
# How many quiet ones end it where all that a history has room for happens meanwhile, however busy the machine is.
MANY_QUIET_TURNS = 200


def wait_for(asker, raw):
    """Reads sensor 5 until it has this reading."""
    until = time.monotonic() + servers.CALL
    while asker.get(*READING)[1] != raw:
        if time.monotonic() > until:
            raise Failed(f"sensor 5 never has the reading {raw:02X}")
        time.sleep(0.01)


def expect_logged(asker, count):
    expect("the entries of the log", int.from_bytes(asker.get(*LOG)[2:4], "little"), count)


def happens_in_time(program, folder, board):
    """A sensor gets hot, which the log tells, and cool again, not before its time. Each line is one event, that of a sensor which isn't there, too."""
    lines = ["# sensor 5", f"0 scan 05 {COOL:02X}", "", "0 scan 63 01", f"20 scan 05 {HOT:02X}", "20 tick", "20 chassis 01", f"{COOL_AT} scan 05 {COOL:02X}"]
    path = servers.write(f"{folder}/readings.txt", "\n".join(lines))
    begun = time.monotonic()
    with Server(program, board, TURNS, "--readings", path) as server:
        with Asker(server.ports) as asker:
            until = begun + servers.END / 2
            while asker.get(*LOG)[2:4] == b"\0\0":
                if time.monotonic() > until:
                    raise Failed("the log stays empty")
            wait_for(asker, COOL)
            if time.monotonic() - begun < COOL_AT / 1000:
                raise Failed("it's cool again before its time")
            expect_logged(asker, 1)
        expect("serve", server.ended(), (0, f"served {6 + sum(asker.asked)}\nrecords same\n", ""))


def goes_on(program, folder, board):
    """More happens than one period has room for: the rest happens in the next ones, while a client asks."""
    ticks = events_of(program)
    path = servers.write(f"{folder}/readings.txt", "0 tick\n" * ticks + f"0 scan 05 {HOT:02X}\n")
    with Server(program, board, TURNS, "--periods", "--readings", path) as server:
        with Asker(server.ports) as asker:
            wait_for(asker, HOT)
            expect_logged(asker, 1)
        expect("serve", server.ended(), (0, f"served {ticks + 1 + sum(asker.asked)}\nrecords same\n", ""))


def ends_when_full(program, folder, board):
    """Without periods a server ends once its history is full, though nobody asks, and what is left doesn't happen. It tells that its room is over, but
    not where there is room for one event more."""
    path = servers.write(f"{folder}/readings.txt", "0 tick\n" * (ROOM + 1))
    with Server(program, board, TURNS, "--readings", path) as server:
        expect("serve", server.told(), (0, f"served {ROOM}\nrecords same\n", ROOM_OVER))
    servers.write(path, "0 tick\n" * (ROOM - 1))
    with Server(program, board, TURNS, "--wait", WAIT, "--quiet", MANY_QUIET_TURNS, "--readings", path) as server:
        expect("serve with room", server.told(), (0, f"served {ROOM - 1}\nrecords same\n", ""))


def clock_of(asker):
    """Returns the seconds that the board's clock shows."""
    return int.from_bytes(asker.get(*TIME)[1:5], "little")


def clock_runs(program, folder, board):
    """The board's clock goes on by itself, and not faster than that of this host. Each tick is an event."""
    begun = time.monotonic()
    with Server(program, board, TURNS, "--periods", "--clock") as server:
        with Asker(server.ports) as asker:
            first, until = clock_of(asker), begun + servers.CALL
            while clock_of(asker) < first + SECONDS:
                if time.monotonic() > until:
                    raise Failed("the clock stands still")
                time.sleep(TICK)
        status, out, err = server.ended()
    took = time.monotonic() - begun
    told = re.fullmatch(r"served (\d+)\nrecords same\n", out)
    expect("serve", (status, told is not None, err), (0, True, ""))
    ticks = int(told[1]) - sum(asker.asked)
    if not (SECONDS - 1) / TICK <= ticks <= took / TICK:
        raise Failed(f"{ticks} ticks in {took} s")


def begins_anew(program, folder, board):
    """What a file says happens again once it is over, each round as long as its last time says, and over periods."""
    path = servers.write(f"{folder}/readings.txt", f"0 scan 05 {COOL:02X}\n300 scan 05 {HOT:02X}\n600 tick\n")
    with Server(program, board, TURNS, "--periods", "--readings", path, "--repeat-readings") as server:
        with Asker(server.ports) as asker:
            for raw in [COOL, HOT] * 3:
                wait_for(asker, raw)
        status, out, _ = server.ended()
    expect("serve", (status, out.endswith("records same\n")), (0, True))


def refused_clocks(program, folder, board):
    """A clock and a file that begins anew go over periods, and stand each by itself."""
    path = servers.write(f"{folder}/readings.txt", "0 tick\n")
    for options, said in [
        (["--clock"], "'--clock' and '--repeat-readings' need '--periods'"),
        (["--readings", path, "--repeat-readings"], "'--clock' and '--repeat-readings' need '--periods'"),
        (["--periods", "--repeat-readings"], "'--repeat-readings' needs '--readings <FILE>'"),
        (["--periods", "--clock", "--readings", path], "'--clock' cannot be used with '--readings <FILE>'"),
    ]:
        status, out, err = call(program, "serve", *options, board, 0, 0, 1)
        expect(f"{options}", (status, out, err.split("\n")[0]), (2, "", f"error: {said}"))
    servers.write(path, "# nothing\n")
    with Server(program, board, TURNS, "--periods", "--wait", WAIT, "--quiet", QUIET_TURNS, "--readings", path, "--repeat-readings") as server:
        expect("nothing, again and again", server.told(), (0, "served 0\nrecords same\n", ""))


def is_not_heard(program, folder, board):
    """What happens by a file of readings keeps no port from being quiet, and a server that is quiet waits for nothing of it."""
    times = [*range(0, 200, 20), 3600000]
    path = servers.write(f"{folder}/readings.txt", "".join(f"{at} tick\n" for at in times))
    with Server(program, board, TURNS, "--wait", WAIT, "--quiet", QUIET_TURNS, "--readings", path) as server:
        expect("serve", server.told(), (0, f"served {len(times) - 1}\nrecords same\n", ""))


def refused_readings(program, folder, board):
    """Files that can't be read, and texts with a bad line. No port is opened."""
    bad = servers.write(f"{folder}/bad.toml", "tid = 5\n")
    path, gone = f"{folder}/readings.txt", f"{folder}/gone"
    for text, line in [
        ("5 tick\n4 tick\n", 2),
        ("# nothing\n\n0 scan 05\n", 3),
        ("0 scan 5 60\n", 1),
        ("0 scan 05 60 01\n", 1),
        ("0 chassis 20\n", 1),
        ("0 tock\n", 1),
        ("tick\n", 1),
        ("+0 tick\n", 1),
        ("0x1 tick\n", 1),
        (" 0 tick\n", 1),
        ("0  tick\n", 1),
        ("0 tick\r\n", 1),
        ("0 tick\n18446744073709551616 tick\n", 2),
    ]:
        servers.write(path, text)
        expect(f"{text!r}", call(program, "serve", "--readings", path, board, 0, 0, 1), (3, "", f"readings Line {line}\n"))
    for words, said in [
        ([gone, board], f"file {gone}"),
        ([gone, bad], f"file {gone}"),
        ([path, gone + "er"], f"file {gone}er"),
        ([path, bad], "board Missing top clock"),
    ]:
        expect(f"{words}", call(program, "serve", "--readings", *words, 0, 0, 1), (3, "", f"{said}\n"))
    with open(path, "wb") as file:
        file.write(b"0 tick\n\xff\n")
    expect("no UTF-8", call(program, "serve", "--readings", path, board, 0, 0, 1), (3, "", f"file {path}\n"))
    servers.write(path, "")
    status, out, _ = call(program, "serve", "--readings", path, board, 0, 0, 1)
    expect("nothing to happen", (status, out), (0, "served 0\nrecords same\n"))


def tests(board):
    """Returns the tests of this file: the name, the function and its words."""
    return [
        ("readings in time", happens_in_time, (board,)),
        ("readings over periods", goes_on, (board,)),
        ("readings that fill a history", ends_when_full, (board,)),
        ("readings while a server is quiet", is_not_heard, (board,)),
        ("readings that begin anew", begins_anew, (board,)),
        ("a clock that runs", clock_runs, (board,)),
        ("a clock and readings that are refused", refused_clocks, (board,)),
        ("readings that are refused", refused_readings, (board,)),
    ]
