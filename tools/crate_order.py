"""The crates of this repository, for the tools beside this file."""


def crates_listed(top):
    """Returns the crates of crates.txt, lowest first, each with those of the repository that it stands on."""
    named = {}
    with open(f"{top}/crates.txt", encoding="utf-8") as file:
        for line in file:
            name, colon, below = line.partition("#")[0].partition(":")
            if colon:
                named[name.split()[0]] = below.split()
    ordered = {}

    def visit(name):
        if name not in ordered:
            below = [it for it in named[name] if it in named]
            for it in below:
                visit(it)
            ordered[name] = below

    for name in named:
        visit(name)
    return ordered


def with_those_below(top, names):
    """Returns these crates and all that they stand on, of this repository."""
    listed, taken = crates_listed(top), set()

    def take(name):
        taken.add(name)
        for below in listed[name]:
            take(below)

    for name in names:
        take(name)
    return taken


def lines_of(top, names):
    """Returns the lines of crates.txt that name these crates."""
    with open(f"{top}/crates.txt", encoding="utf-8") as file:
        return [line for line in file if line.partition("#")[0].partition(":")[0].split()[:1] and line.split()[0].rstrip(":") in names]
