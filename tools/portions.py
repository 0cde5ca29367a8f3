"""How tools/random-plays and tools/random-histories run a generator that stands in tools/: as tests in a copy of the crates, unproved, in portions."""
import argparse
import concurrent.futures
import os
import re
import shutil
import subprocess

from crate_order import lines_of, with_those_below

TOP = os.path.dirname(os.path.dirname(os.path.realpath(__file__)))


def number(least):
    """Returns a reader of numbers that are at least so great."""

    def read(word):
        if not re.fullmatch(r"[0-9]{1,18}", word) or int(word) < least:
            raise argparse.ArgumentTypeError(f"{word!r} is no number from {least} on")
        return int(word)

    return read


def portions_of(first, many, whole):
    """Returns the first seed and the number of each portion."""
    end = first + many
    return [(seed, min(whole, end - seed)) for seed in range(first, end, whole)]


def edit_of(path):
    """Returns an edit of a crate: the file that it changes, from the top, and pairs of what stands there and what stands there then."""
    folder = os.path.dirname(os.path.dirname(os.path.realpath(path)))
    try:
        with open(path, encoding="utf-8") as file:
            lines = [line.rstrip("\n").partition(": ") for line in file if line.strip()]
    except OSError as fault:
        raise argparse.ArgumentTypeError(f"{path}: {fault.strerror}") from fault
    if not lines or lines[0][0] != "file" or [head for head, _, _ in lines[1:]] != ["old", "new"] * (len(lines) // 2):
        raise argparse.ArgumentTypeError(f"{path} is no edit")
    texts = [text for _, _, text in lines[1:]]
    return os.path.relpath(f"{folder}/{lines[0][2]}", TOP), list(zip(texts[::2], texts[1::2]))


class Generator:
    """A generator: its name, the crates that it stands on, files of other generators that it has beside its own, and an edit of a crate or none."""

    def __init__(self, name, below, shared=(), edit=None):
        self.name, self.below, self.shared, self.edit = name, below, shared, edit

    def copy_tree(self, to):
        """Copies what `rt` reads of the crates below."""
        taken = with_those_below(TOP, self.below)
        shutil.copy(f"{TOP}/HANDLES", to)
        for name in taken:
            shutil.copytree(f"{TOP}/crates/{name}", f"{to}/crates/{name}", ignore=shutil.ignore_patterns("out", "must-fail", "wrong-bodies"))
        if self.edit:
            self.apply(to)
        return lines_of(TOP, taken)

    def apply(self, to):
        """Applies the edit to the copy."""
        path, pairs = self.edit
        with open(f"{to}/{path}", encoding="utf-8") as file:
            text = file.read()
        for old, new in pairs:
            if text.count(old) != 1:
                raise SystemExit(f"{path} doesn't have this once: {old}")
            text = text.replace(old, new)
        with open(f"{to}/{path}", "w", encoding="utf-8") as file:
            file.write(text)

    def write_crate(self, to, name, calls):
        """Writes a crate of the generator's, with a test for each of these calls."""
        source, sources = f"{to}/crates/{name}/src", f"{TOP}/tools/{self.name}"
        for folder, _, files in os.walk(sources):
            below = os.path.normpath(os.path.join(source, os.path.relpath(folder, sources)))
            os.makedirs(below)
            for file in files:
                if file.endswith(".rs"):
                    shutil.copy(f"{folder}/{file}", f"{below}/{file[:-3]}.rt")
        for file in self.shared:
            shutil.copy(f"{TOP}/tools/{file}", f"{source}/tests/{os.path.basename(file)[:-3]}.rt")
        with open(f"{source}/tests/asked.rt", "w", encoding="utf-8") as file:
            file.write("//! What is asked for.\nuse super::*;\n")
            for place, (_, call) in enumerate(calls):
                file.write(f"\n#[test]\nfn asked_{place}(rt: HostRuntime) -> Result<(), Fail> {{\n    {call}\n}}\n")

    def run_all(self, folder, calls, jobs, seconds):
        """Runs the calls, in as many crates as are to run side by side, and yields what `said_of` does."""
        lines, running = self.copy_tree(folder), set()
        parts = {f"{self.name}_{place}": calls[place::jobs] for place in range(min(jobs, len(calls)))}
        for name, part in parts.items():
            self.write_crate(folder, name, part)
            lines.append(f"{name}: {' '.join(self.below)}\n")
        with open(f"{folder}/crates.txt", "w", encoding="utf-8") as file:
            file.writelines(lines)
        with concurrent.futures.ThreadPoolExecutor(len(parts)) as pool:
            try:
                ran = {pool.submit(run, folder, name, seconds, running): part for name, part in parts.items()}
                for it in concurrent.futures.as_completed(ran):
                    yield from said_of(ran[it], it.result())
            except BaseException:
                for it in list(running):
                    it.terminate()
                raise


def run(folder, name, seconds, running):
    """Runs the tests of a generator's crate, and returns what they said."""
    words = ["rt", "try", "--test", "--seconds", str(seconds)]
    with subprocess.Popen(
        words, cwd=f"{folder}/crates/{name}", stdin=subprocess.DEVNULL, stdout=subprocess.PIPE, stderr=subprocess.STDOUT, text=True, errors="replace"
    ) as ran:
        running.add(ran)
        said, _ = ran.communicate()
        running.discard(ran)
    return said


def said_of(calls, said):
    """Yields of each call what it is called, whether it passed, and what was said of it."""
    parts = re.split(r"^test tests::asked::asked_(\d+) \.\.\. ", said.partition("\ntest result:")[0] + "\n", flags=re.M)
    told = {int(place): part for place, part in zip(parts[1::2], parts[2::2])}
    for place, (called, _) in enumerate(calls):
        passed, end, rest = told.get(place, said).partition("\n")
        is_well = place in told and passed == "ok"
        yield called, is_well, re.sub(r"^    ", "", rest if is_well else passed + end + rest, flags=re.M)


def count_in(said, shown):
    """Adds to the counts what a portion counted."""
    for count, name in re.findall(r"^counted (\d+) (.+)$", said, re.M):
        shown[name] = shown.get(name, 0) + int(count)


def print_counts(shown):
    for name, count in shown.items():
        print(f"{count:9,} {name}", flush=True)
