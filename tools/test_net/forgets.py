"""Servers that forget a requester that is silent, so that one of them takes more runs than one."""
import time

from . import servers
from .plans import IPMB, SMBUS, Step, text_of
from .servers import Asker, Server, call, expect

# How long one quiet turn of these servers lasts, in milliseconds, and one of the runs, which is longer so that no load of the host matters.
WAIT = 50
RUN_WAIT = 100
# Behind how many silent turns a requester is forgotten: more than a run here waits for a reply, which are four tries of two turns each.
FORGET = 40
SERVED_TURNS = 6000
TURNS = 300
RETRIES = 3
# A change over each bus: of the power restore policy, which the board begins with at 0, and of the first BIOS attribute.
STEPS = [
    Step('kind = "power-policy"\npolicy = 2\n', (IPMB, (0x00, 0x01))),
    Step('kind = "bios-attribute"\nhandle = 0\nindexes = [1]\n', (SMBUS, (0x03, 0x08, bytes([0, 0, 0, 0, 1, 0, 0])))),
]
GETS = [step.get for step in STEPS]
# How many requests a run and its undo make.
PER_RUN, PER_UNDO = 2 * len(STEPS), len(STEPS)


def runs(program, server, folder, plan, name, *options):
    """A run of the plan ends as done. Returns where its undo text is."""
    undo = f"{folder}/{name}.txt"
    expect(f"the {name} run", call(program, "run", "--wait", RUN_WAIT, *options, plan, *server.ports, TURNS, undo), (0, "phase Done\n", ""))
    return undo


def undoes(program, server, undo):
    expect("undo", call(program, "undo", "--wait", RUN_WAIT, undo, *server.ports, TURNS), (0, "phase Undone\n", ""))


def twice(program, folder, board, server_options, run_options, is_carried_out):
    """One plan runs twice on one server, and is undone between: the second run is carried out, or answered from what is kept of the first."""
    plan = servers.write(f"{folder}/plan.toml", text_of(STEPS, RETRIES))
    with Server(program, board, SERVED_TURNS, "--wait", WAIT, *server_options) as server, Asker(server.ports) as asker:
        before = asker.get_all(GETS)
        first = runs(program, server, folder, plan, "first", *run_options)
        changed = asker.get_all(GETS)
        expect("records that the first run left", [get for get in GETS if changed[get] == before[get]], [])
        undoes(program, server, first)
        expect("the records behind the undo", asker.get_all(GETS), before)
        second = runs(program, server, folder, plan, "second", *run_options)
        expect("the records behind the second run", asker.get_all(GETS), changed if is_carried_out else before)
        expect("its undo text", servers.read(second), servers.read(first))
        requests = PER_RUN + PER_UNDO + (PER_RUN if is_carried_out else 0) + sum(asker.asked)
        said = f"served {requests}\nrecords {'changed 2' if is_carried_out else 'same'}\n"
        expect("serve", server.ended(), (0, said, ""))


def forgets_alone(program, folder, board, bus):
    """A requester that is silent for the turns is forgotten, and its request is carried out again; one that isn't gets the kept reply."""
    with Server(program, board, SERVED_TURNS, "--wait", WAIT, "--forget", FORGET) as server:
        with Asker(server.ports) as silent, Asker(server.ports, 0x44, 0x0D) as other:
            words = STEPS[bus].get[1]
            asked, heard = [asker.ipmb(*words) if bus == IPMB else asker.smbus(*words) for asker in (silent, other)]
            replies = silent.ask(bus, asked), other.ask(bus, heard)
            until = time.monotonic() + 3 * FORGET * WAIT / 1000
            while time.monotonic() < until:
                expect("the kept reply of one that isn't silent", other.ask(bus, heard), replies[1])
                time.sleep(0.3 * FORGET * WAIT / 1000)
            expect("the reply of a silent one", silent.ask(bus, asked), replies[0])
            expect("its repeat", silent.ask(bus, asked), replies[0])
        # Three requests are carried out: one of each, and the silent one's again.
        expect("serve", server.ended(), (0, "served 3\nrecords same\n", ""))


def tests(board):
    """Returns the tests of this file: the name, the function and its words."""
    forget = ["--forget", FORGET]
    return [
        ("a plan that runs twice, where a silent requester is forgotten", twice, (board, forget, forget, True)),
        ("a plan that runs twice on a server of periods that forgets", twice, (board, ["--periods", *forget], forget, True)),
        ("a plan that runs twice, where nobody is forgotten", twice, (board, [], forget, False)),
        ("a plan that runs twice at once, where a silent requester would be forgotten", twice, (board, ["--forget", 10 * SERVED_TURNS], [], False)),
        ("a requester that is silent on IPMB, and one that isn't", forgets_alone, (board, IPMB)),
        ("a requester that is silent on SMBus, and one that isn't", forgets_alone, (board, SMBUS)),
    ]
