"""Whether each line of docs/CLAIMS.md has one claim, and beside it a contract that the tree has.

A claim's cell is one sentence. A sentence ends at a full stop, a question mark or an exclamation mark with a blank or the cell's end behind it, and a
semicolon is an end, too; what stands in backquotes or brackets has none. It begins with no word that leans on the line above (LEANING). The cell of a
contract isn't empty. Of what stands in backquotes there each name is one of the tree: a path that begins with a crate has its other parts in that
crate, `Type::function` has the function, or the variant, in a file with that type or an `impl` of it, a file is there, and any other name is a
function, a type, a clause or a word of `specs/`.
"""
import os
import re

LEANING = {"It", "Its", "They", "Their", "So", "Else", "Or", "And", "Then", "This", "These", "Those", "There", "Here", "Likewise", "Both"}
ENDS = r"[.!?](?=\s|$)|;"
IN_CODE = r"\b(?:fn|struct|enum|trait|type|const|static|mod|ensures|requires|invariant)\s+(?:ghost\s+|mut\s+)?(\w+)"
IN_ENUM = r"(?m)^\s+([A-Z]\w*)(?:,|\(.*|\s*\{)$"
IN_SPECS = r"(?m)^\s*(?:(?:abbrev|unfoldable|pub|record|data)\s+)*([A-Za-z_]\w*)\b(?=.*:)"


def tables(text):
    """Yields each row of each table: its line's number, and its cells by the names of the columns."""
    heads = []
    for number, line in enumerate(text.splitlines(), 1):
        cells = [it.strip() for it in re.split(r"(?<!\\)\|", line)[1:-1]] if line.startswith("|") else []
        if not cells:
            heads = []
        elif not heads:
            heads = cells
        elif not all(re.fullmatch(r":?-+:?", it) for it in cells):
            yield number, dict(zip(heads, cells))


def plain(cell):
    """Returns a cell without what stands in backquotes, and then in brackets."""
    cell = re.sub(r"`[^`]*`", "`", cell)
    while True:
        less = re.sub(r"\([^()]*\)", "", cell)
        if less == cell:
            return cell
        cell = less


def faults_of_claim(cell):
    """Yields what keeps a cell from being one sentence that stands alone."""
    ends = re.findall(ENDS, plain(cell))
    if ends != ["."] or not plain(cell).endswith("."):
        yield f"{len(ends)} ends of a sentence"
    if cell.split(" ", 1)[0].rstrip(",") in LEANING:
        yield f"a claim begins with {cell.split(' ', 1)[0]}"


class Names:
    """The names that the crates below a folder have."""

    def __init__(self, top):
        self.top, self.of_crate, self.of_type, self.files = top, {}, {}, set()
        for crate in sorted(os.listdir(f"{top}/crates")):
            self.of_crate[crate] = {crate}
            for at, folders, names in os.walk(f"{top}/crates/{crate}"):
                folders[:] = [it for it in folders if it not in ("out", "proofs")]
                for name in names:
                    self.take(crate, f"{at}/{name}")

    def take(self, crate, path):
        """Takes the names of a file."""
        stem, ending = os.path.splitext(os.path.basename(path))
        self.files |= {os.path.basename(path), os.path.relpath(path, f"{self.top}/crates")}
        if ending not in (".rt", ".antt"):
            return
        with open(path, encoding="utf-8") as file:
            text = file.read()
        found = {*re.findall(IN_CODE, text), *re.findall(IN_ENUM, text)} if ending == ".rt" else set(re.findall(IN_SPECS, text))
        found |= {it for names in re.findall(r"(?m)^(?:ghost |pub )*use [\w.]+\{([^}]*)\}", text) for it in re.findall(r"\w+", names)}
        self.of_crate[crate] |= found | {stem}
        if ending == ".rt":
            for head in re.findall(r"\b(?:impl|trait|enum|struct)\b[^{;]*", text):
                for kind in re.findall(r"\b[A-Z]\w*", head):
                    self.of_type.setdefault(kind, set()).update(found)

    def has(self, name):
        """Whether any crate has the name."""
        return name in self.of_type or any(name in names for names in self.of_crate.values())

    def lacks(self, name):
        """Whether the tree lacks what a contract's cell names."""
        first, *others = name.split("::")
        if re.search(r"\.(?:rt|antt|md)$", name):
            return name not in self.files and not os.path.exists(f"{self.top}/docs/{name}")
        if " " in name:
            return any(self.lacks(word) for word in re.findall(r"[A-Za-z_]\w*", name) if word not in ("impl", "for"))
        if not others:
            return not self.has(name)
        if first in self.of_crate:
            return not set(others) <= self.of_crate[first]
        if first[0].isupper():
            return others != [*others[:1]] or others[0] not in self.of_type.get(first, set())
        return not all(self.has(it) for it in (first, *others))


def faults(text, top):
    """Yields what is wrong in a page of claims."""
    names = Names(top)
    for number, row in tables(text):
        said = list(faults_of_claim(row["Claim"])) if "Claim" in row else []
        if "Contract" in row and not row["Contract"]:
            said.append("no contract")
        said += [f"the tree has no {name}" for name in re.findall(r"`([^`]+)`", row.get("Contract", "")) if names.lacks(name)]
        yield from (f"docs/CLAIMS.md:{number}: {it}" for it in said)
