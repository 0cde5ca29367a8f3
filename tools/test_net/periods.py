"""Servers whose histories go over several periods."""
from test_net import servers
from test_net.plans import IPMB, SMBUS
from test_net.servers import Asker, Server, call, expect

# The most events of a history.
ROOM = 4096
# A Get of the power restore policy on IPMB (Get Chassis Status), and one of a BIOS attribute on SMBus.
POLICY = (IPMB, (0x00, 0x01))
ATTRIBUTE = (SMBUS, (0x03, 0x08, bytes([0, 0, 0, 0, 1, 1, 0])))
# Where a history has so many events, it is closed while there is room for what is under way.
CLOSED_AT = ROOM - 2
# What comes at the change of periods waits until the next one is opened: on a busy machine that takes the program with the sanitizers ten seconds.
PATIENT = ("--wait", 30000)
# A server whose ports wait so many milliseconds in a turn, far longer than a change takes.
LONG_WAIT = 600000
# How often they listen, and a server.
TURNS = 300
SERVED_TURNS = 12000
# How many histories are filled where there are many: a hundred thousand events and more. The program with the sanitizers takes seconds for each.
FEW_PERIODS, MANY_PERIODS = 2, 25
# How many requests are under way together on a bus, and a Get on SMBus whose reply is one packet (GetTID).
AT_ONCE = 16
TERMINUS = (SMBUS, (0x00, 0x02))


def drive(asker, gets, count):
    """Asks so many Gets, each a request of its own, which all show the same."""
    shown = {get: asker.get(*get) for get in gets}
    for place in range(count - len(gets)):
        get = gets[place % len(gets)]
        expect(f"the Get {get}", asker.get(*get), shown[get])


def three_periods(program, folder, board, plan, requests):
    """A plan runs while one period ends, and is undone while the next one does. What was answered before both changes is repeated behind them, and
    is answered from what is kept. Each request is one event, of all periods."""
    undo = f"{folder}/undo.txt"
    with Server(program, board, SERVED_TURNS, "--periods") as server:
        with Asker(server.ports, 0x42, 0x0C) as first, Asker(server.ports, 0x44, 0x0D) as other:
            early = [(IPMB, first.ipmb(*POLICY[1])), (SMBUS, first.smbus(*ATTRIBUTE[1]))]
            replies = [first.ask(*frame) for frame in early]
            expect("the codes of the first requests", [reply[:1] for reply in replies], [b"\0", b"\0"])
            drive(other, [POLICY, ATTRIBUTE], CLOSED_AT - len(early) - requests // 2)
            expect("run", call(program, "run", *PATIENT, plan, *server.ports, TURNS, undo), (0, "phase Done\n", ""))
            expect("repeats in the second period", [first.ask(*frame) for frame in early], replies)
            # The undo has half as many requests: the second period ends in its midst.
            drive(other, [POLICY, ATTRIBUTE], CLOSED_AT - requests // 2 - requests // 4)
            expect("undo", call(program, "undo", *PATIENT, undo, *server.ports, TURNS), (0, "phase Undone\n", ""))
            expect("repeats in the third period", [first.ask(*frame) for frame in early], replies)
        expect("serve", server.ended(), (0, f"served {2 * CLOSED_AT + requests // 4}\nrecords same\n", ""))


def loses_nothing(program, folder, board, plan, requests):
    """A plan whose requests are sent once alone is begun two events before the end of a period. The port on SMBus waits for a frame that never
    comes, and is woken."""
    once = servers.write(f"{folder}/plan.toml", "retries = 0\n" + servers.read(plan))
    undo = f"{folder}/undo.txt"
    with Server(program, board, SERVED_TURNS, "--periods", "--wait", LONG_WAIT) as server:
        with Asker(server.ports) as asker:
            drive(asker, [POLICY], CLOSED_AT - 2)
        expect("run", call(program, "run", *PATIENT, once, *server.ports, TURNS, undo), (0, "phase Done\n", ""))
        expect("undo", call(program, "undo", *PATIENT, undo, *server.ports, TURNS), (0, "phase Undone\n", ""))
        expect("serve", server.ended(), (0, f"served {CLOSED_AT - 2 + requests}\nrecords same\n", ""))


def events_of(program):
    """Returns how many events fill the histories of this program."""
    return ROOM * (FEW_PERIODS if program.endswith(".unproved") else MANY_PERIODS)


def many_periods(program, folder, board):
    """A server is asked more than many histories have room for. Each request is answered as the first was, and is one event."""
    count = events_of(program)
    with Server(program, board, count + SERVED_TURNS, "--periods") as server:
        with Asker(server.ports) as asker:
            wanted = {bus: asker.get(bus, words) for bus, words in (POLICY, TERMINUS)}
            while sum(asker.asked) < count:
                on_ipmb = asker.ask_together(IPMB, [asker.ipmb(*POLICY[1]) for _ in range(AT_ONCE)])
                on_smbus = asker.ask_together(SMBUS, [asker.smbus(*TERMINUS[1]) for _ in range(AT_ONCE)])
                expect("the replies", (set(on_ipmb.values()), set(on_smbus.values())), ({wanted[IPMB]}, {wanted[SMBUS]}))
        expect("serve", server.ended(), (0, f"served {sum(asker.asked)}\nrecords same\n", ""))
