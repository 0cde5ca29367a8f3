"""Plans one after another on OpenIPMI's simulator, through one clients/controller-bridge that forgets nobody: with `--greet` each is carried out."""
import subprocess

from .programs import TOP, called, free_port, started
from .simulator import LONGEST_RUN, PLAN, TURNS, expect_phase, settings, simulator

# What turns PLAN into another plan of the same records: each value with the one in its place.
OTHER = [("0x5A", "0x58"), ("positive = 3", "positive = 4"), ("assert = [7, 9]", "assert = [11]"), ('"night shift"', '"day shift"'), ("limit = 3", "limit = 2")]


def other_plan(room):
    """Writes another plan of the records of PLAN, and returns its name."""
    with open(PLAN, encoding="utf-8") as file:
        text = file.read()
    for old, new in OTHER:
        text = text.replace(old, new)
    with open(f"{room}/other.toml", "w", encoding="utf-8") as file:
        file.write(text)
    return f"{room}/other.toml"


class Operator:
    """Who runs plans over one bridge, and compares what the simulator shows behind each."""

    def __init__(self, tests, bmcnet, ask, port, room):
        self.tests, self.bmcnet, self.ask, self.room = tests, bmcnet, ask, room
        self.ports = [port, str(free_port())]

    def settings(self):
        return settings(self.ask, self.room)

    def undo_text(self, name):
        return f"{self.room}/greeted-{name}.txt"

    def run(self, plan, name, *options):
        expect_phase(self.tests, [self.bmcnet, "run", *options, plan, *self.ports, TURNS, self.undo_text(name)], self.room, "Done")

    def undo(self, name, *options):
        expect_phase(self.tests, [self.bmcnet, "undo", *options, self.undo_text(name), *self.ports, TURNS], self.room, "Undone")

    def expect_changed(self, before, what):
        shown = self.settings()
        self.tests.expect(all(old != new for old, new in zip(before, shown)), f"{what} changed {before} to {shown}")
        return shown

    def expect_settings(self, wanted, what):
        shown = self.settings()
        self.tests.expect(shown == wanted, f"behind {what} the settings are {shown}, and not {wanted}")


def test_again(operator):
    """A plan is run, undone, run and undone again, and undone once more, by runs that greet."""
    before = operator.settings()
    for time in "the first run", "the second run":
        operator.run(PLAN, "again", "--greet")
        operator.expect_changed(before, time)
        operator.undo("again", "--greet")
        operator.expect_settings(before, f"the undo of {time}")


def test_in_turn(operator, other):
    """Two plans of the same records are undone, the last first."""
    before = operator.settings()
    operator.run(PLAN, "a", "--greet")
    first = operator.expect_changed(before, "plan A")
    operator.run(other, "b", "--greet")
    operator.expect_changed(first, "plan B")
    operator.undo("b", "--greet")
    operator.expect_settings(first, "the undo of B")
    operator.undo("a", "--greet")
    operator.expect_settings(before, "the undo of A")


def test_ungreeted(operator):
    """Where nobody greets, the bridge takes the requests of the second run for copies of the first one's: it says Done, and nothing is carried out."""
    before = operator.settings()
    operator.run(PLAN, "first")
    operator.expect_changed(before, "a run without a greeting")
    operator.undo("first")
    operator.run(PLAN, "second")
    operator.expect_settings(before, "a second run without a greeting")


def test_silent(operator, room):
    """Nobody is behind the bridge: that is said, and nothing is begun."""
    undo = f"{room}/silent.txt"
    words = [operator.bmcnet, "run", "--greet", "--wait", "50", PLAN, *operator.ports, TURNS, undo]
    said = called(words, room, LONGEST_RUN, subprocess.STDOUT)
    is_told = said[0] == 0 and said[1].endswith("phase Fresh\nno answer on ipmb\n")
    operator.tests.expect(is_told, f"a greeting over a bridge without a controller: {said}")


def bridge(*command):
    return [f"{TOP}/clients/controller-bridge", "--plan", PLAN, "--wait", "5", "0", "--", *command]


def test_greetings(tests, bmcnet, room):
    ipmi_sim, ipmitool = tests.part("ipmi_sim"), tests.part("ipmitool")
    if not ipmi_sim or not ipmitool:
        return
    announced = r"ipmb on [0-9.]+:([0-9]+)"
    with simulator(ipmi_sim, room) as ask:
        with started(bridge(*ask), announced) as told:
            operator = Operator(tests, bmcnet, ask, told[1], room)
            test_again(operator)
            test_in_turn(operator, other_plan(room))
        with started(bridge(*ask), announced) as told:
            test_ungreeted(Operator(tests, bmcnet, ask, told[1], room))
        with started(bridge("false"), announced) as told:
            test_silent(Operator(tests, bmcnet, ask, told[1], room), room)
