"""Labs by a seed: a plan, an earlier run of it on a served board, and runs and undos behind that, which greet. A reader of its own looks at all records."""
import os
import random

from . import servers
from .plans import KINDS, Step, text_of
from .proxy import Troubles
from .records import board_by, differences, long_asset, read_records
from .servers import Asker, Failed, Server, expect
from .ways import Fate, called

RETRIES = 15
# A served port that nobody speaks to uses these up in an hour, so none does in a lab.
SERVED_TURNS = 20000
# How many labs one server has.
SERIES = 10
MOST_STEPS = 6
# How many datagrams a step has at least, there and back: a Get and a Set; and what undoes it.
DATAGRAMS, UNDO_DATAGRAMS = 4, 2
# A sensor that no board here has: the step halts its plan.
NOBODY = Step('kind = "thresholds"\nsensor = 77\nuc = 90\n', None)
# What a way does to datagrams, of a hundred, and how many tries of a request meet with it: an undo has four.
LOSSY = Troubles(lose=10, repeat=15, most_tries=2)
# What came before: a run that ended, one that was undone, one that was killed at a datagram, or whose undo was.
EARLIER = ["ended", "undone", "killed", "undo killed"]


def plan_by(draw):
    """Returns the steps of a plan, and at which of them it halts, or None."""
    steps = [draw.choice([*KINDS, long_asset])(draw) for _ in range(draw.randint(1, MOST_STEPS))]
    if draw.random() < 0.75:
        return steps, None
    halt = draw.randint(1, len(steps))
    return [*steps[:halt], NOBODY, *steps[halt:]], halt


class Lab:
    """A lab on a server: its plan, and what is drawn of the rest."""

    def __init__(self, program, folder, seed):
        self.program, self.folder, self.seed = program, folder, seed
        self.draw = random.Random(f"lab {seed}")
        self.steps, self.halt = plan_by(self.draw)
        self.plan = servers.write(f"{folder}/plan.toml", text_of(self.steps, RETRIES))

    def undo_text(self, name):
        return f"{self.folder}/{name}.txt"

    def left(self, name):
        """Returns the file that has what is to be taken back: the one beside UNDO, where one was left."""
        part = f"{self.undo_text(name)}.part"
        return part if os.path.exists(part) else self.undo_text(name)

    def made_of(self, shown):
        """Returns what the plan makes of the records."""
        made = dict(shown)
        for step in self.steps[: self.halt]:
            made[step.get] = step.makes(bytes.fromhex(made[step.get])).hex()
        return made

    def fate(self, datagrams):
        """Draws when a call with so many datagrams a step is killed. It may end before, and then isn't."""
        return Fate(self.draw.randint(1, datagrams * len(self.steps)), self.draw.random() < 0.5)

    def troubles(self):
        return LOSSY if self.draw.random() < 0.3 else Troubles()

    def expect_phase(self, what, said, wanted):
        if said[0] != 0 or not said[1].startswith(f"phase {wanted}") or said[1].count("\n") != 1:
            raise Failed(f"{what}: {said!r}, and not the phase {wanted}")

    def ended(self):
        """Returns how the phase of a run begins."""
        return "Done" if self.halt is None else f"Halted {self.halt} "

    def run(self, name, fate, options):
        return called(self.program, self.server.ports, self.seed, self.troubles(), fate, "run", self.plan, self.undo_text(name), *options)

    def undo(self, file, fate, options):
        return called(self.program, self.server.ports, self.seed, self.troubles(), fate, "undo", file, *options)

    def expect_records(self, what, wanted):
        expect(f"{what}: the records that are others (as they are, and as they have to be)", differences(read_records(self.asker), wanted), {})

    def earlier(self, options):
        """Makes an earlier run, and returns what came of it."""
        how = self.draw.choice(EARLIER)
        said = self.run("first", self.fate(DATAGRAMS) if how == "killed" else Fate(), options)
        if said[0] is None:
            return "killed"
        self.expect_phase("the first run", said, self.ended())
        if how in ("ended", "killed"):
            return "ended"
        said = self.undo(self.undo_text("first"), self.fate(UNDO_DATAGRAMS) if how == "undo killed" else Fate(), options)
        if said[0] is None:
            return "undo killed"
        self.expect_phase("the first undo", said, "Undone")
        return "undone"

    def run_again(self, what, options):
        """Runs the plan again, and takes that back."""
        state = read_records(self.asker)
        self.expect_phase("the second run", self.run("second", Fate(), options), self.ended())
        self.expect_records(f"{what}, and run again", self.made_of(state))
        self.expect_phase("its undo", self.undo(self.undo_text("second"), Fate(), options), "Undone")
        self.expect_records(f"{what}, run again and undone", state)

    def undo_again(self, what, before, options):
        """Takes the first run back, once more where it was undone."""
        self.expect_phase("the first run's undo", self.undo(self.left("first"), Fate(), options), "Undone")
        self.expect_records(f"{what}, and undone", before)

    def play(self, server, asker, first_options, options):
        """Plays the lab with these options of its first calls and of those behind them, and returns what came before the latter."""
        self.server, self.asker = server, asker
        before = read_records(asker)
        earlier = self.earlier(first_options)
        what = f"{earlier}{'' if self.halt is None else ', halted'}"
        if earlier == "ended":
            self.expect_records("the first run", self.made_of(before))
        # While a request of an undo is open, the controller serves no other run.
        undoes_first = self.draw.random() < 0.5 or earlier == "undo killed"
        if earlier != "killed" and undoes_first:
            self.undo_again(what, before, options)
        if earlier == "killed" or not undoes_first or self.draw.random() < 0.5:
            self.run_again(what, options)
        if earlier != "killed" and not undoes_first:
            self.undo_again(what, before, options)
        return what


def play_series(program, folder, seeds, told, greets=True):
    """Plays the labs of these seeds on one server, whose first run greets nobody, and tells of each what came before the calls that greet."""
    options = ["--greet"] if greets else []
    board = servers.write(f"{folder}/board.toml", board_by(random.Random(f"board {seeds[0]}")))
    with Server(program, board, SERVED_TURNS, "--periods") as server, Asker(server.ports) as asker:
        for seed in seeds:
            os.mkdir(f"{folder}/{seed}")
            lab = Lab(program, f"{folder}/{seed}", seed)
            try:
                told(lab.play(server, asker, options if seed != seeds[0] else [], options))
                expect("how the server ended", server.process.poll(), None)
            except Failed as why:
                raise Failed(f"lab {seed}, of the labs from {seeds[0]} on: {why}\n{servers.read(board)}\n{servers.read(lab.plan)}") from why
