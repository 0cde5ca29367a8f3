"""What pages show: tables of commands and calls with what they print, of examples/clients.md and docs/CLIENTS.md."""
import re
import shlex

from .programs import TOP


PAGES = ("examples/clients.md", "docs/CLIENTS.md")


def below(heading):
    """Returns the text below a heading of the pages, up to the next one."""
    texts = []
    for page in PAGES:
        with open(f"{TOP}/{page}", encoding="utf-8") as file:
            texts.append(file.read())
    return "\n".join(texts).split(f"### {heading}\n")[1].split("\n#")[0]


def rows_of(heading):
    """Returns the rows of the table below a heading whose first cell is code, as lists of cells."""
    return [re.split(r"\s*[|]\s*", line)[1:-1] for line in below(heading).splitlines() if line.startswith("| `")]


def code_in(cell):
    """Returns the words of a cell that are code."""
    return re.findall(r"`([^`]*)`", cell)


def calls_of(heading):
    """Returns the calls that are shown below a heading, as lists of words, each with the lines below it."""
    return [(shlex.split(call), lines) for call, lines in re.findall(r"^    \$ (.*)\n((?:    (?!\$ ).*\n)*)", below(heading), re.M)]


def squeezed(text):
    """Returns a text whose blanks, line ends and bars are single blanks."""
    return re.sub(r"[\s|]+", " ", text).strip()


def rows_of_plan():
    """Returns what ipmitool is asked beside a plan, and the rows of that table: the call of this tree before it, if there is one, and what is printed."""
    lines = below("A plan that ipmitool sees").splitlines()
    first = next(place for place, line in enumerate(lines) if line.startswith("| | `ipmitool .. "))
    asked = shlex.split(code_in(lines[first])[0])[2:]
    rows = [code_in(line) for line in lines[first + 2 :] if line.startswith("| ")]
    return asked, [(shlex.split(row[0]) if len(row) > 1 else [], row[-1]) for row in rows]
