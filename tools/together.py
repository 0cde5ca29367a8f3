"""Tries the wrong bodies of a crate side by side, for tools/wrong-bodies.

A function's proof cites the contracts of what it calls and no body, so a wrong body of one function changes the verdict on no other. One check
therefore tries as many edits as change different functions, and asks the prover for these functions alone. An edit whose function isn't refused
so, or only by a name that a proof file lacks, is tried once more by itself; so is one that changes something else than functions.

It works over the libraries that `rt ci` left in this tree.
"""
import os
import re
import shutil
import subprocess
import tempfile
from dataclasses import dataclass, field

from crate_order import crates_listed, with_those_below

KIT = os.path.dirname(os.path.dirname(os.path.realpath(shutil.which("rt") or "rt")))
PARTS = ("src", "specs", "proofs")
FUNCTION = re.compile(r"(\s*)(?:pub(?:\([a-z]+\))? )?(?:const |unsafe )*fn (\w+)")
# A proof file that names what an edit took away, and what cites that proof.
LACKS_A_NAME = re.compile(r"(note: )?(\./)?proofs/.*(has no field|is not in scope|has no `|was not admitted)")
# The same words as those of `rt must-fail`.
REFUSED = "refused, as it must be"
ONLY_A_NAME = f"{REFUSED} (only because a proof file names what the edit took away)"


@dataclass
class Place:
    """A function of a source file: its path in the crate, its file, and its first and last line, counted from 0."""

    path: str
    file: str
    first: int
    last: int


@dataclass
class Edit:
    """A wrong body: what it puts in whose place, and the functions that it changes, where it changes nothing else."""

    name: str
    pairs: list
    places: list = field(default_factory=list)

    def only(self):
        """Returns what the prover is asked for: these functions, or else all of the files that change."""
        if self.places:
            return sorted({it.path for it in self.places})
        return sorted({module_of(file) for file, _, _ in self.pairs if file.startswith("src/")})

    def meets(self, other):
        """Returns whether both change one function."""
        return any((a.file, a.first) == (b.file, b.first) for a in self.places for b in other.places)


def module_of(file):
    path = file.removeprefix("src/").removesuffix(".rt").removesuffix("/mod")
    return "" if path in ("lib", "main") else path.replace("/", "::")


def text_of(path):
    with open(path, encoding="utf-8") as file:
        return file.read()


def read_edit(folder, name):
    pairs, file, old = [], None, None
    for line in text_of(f"{folder}/wrong-bodies/{name}").split("\n"):
        if line.startswith("file: "):
            file = line[len("file: ") :].strip()
        elif line.startswith("old: "):
            old = line[len("old: ") :]
        elif line.startswith("new:"):
            pairs.append((file, old, line[len("new:") :].removeprefix(" ")))
    edit = Edit(name, pairs)
    places = [place_of(folder, file, old) for file, old, _ in pairs]
    edit.places = places if all(places) else []
    return edit


def plain(type_):
    """Returns the name of a type or of a trait without what stands around it."""
    return re.sub(r"<.*", "", type_.strip().lstrip("&").removeprefix("mut ")).split("::")[-1].strip()


def without_parameters(head):
    """Returns what stands behind the type parameters of an `impl`."""
    depth = 0
    for at, sign in enumerate(head):
        depth += sign == "<"
        depth -= sign == ">" and head[at - 1] != "-"
        if depth == 0 and sign == ">":
            return head[at + 1 :]
        if depth == 0 and sign not in "<> ":
            return head[at:] if at else head
    return head


def owner_of(lines, at):
    """Returns how the prover names the type, and the trait, of the `impl` in which this line stands; None for that of a trait."""
    for number in range(at, -1, -1):
        if re.match(r"(pub(\(\w+\))? )?trait ", lines[number]):
            return None
        if lines[number].startswith("impl"):
            head = " ".join(it.strip() for it in lines[number:at])
            head = without_parameters(head.partition("{")[0].removeprefix("impl").strip())
            trait, is_for, type_ = head.partition(" for ")
            return plain(type_) + plain(trait) if is_for else plain(head)
    return None


def file_of_type(folder, name, file):
    """Returns the file that defines the type, whose module the prover names its functions by; where none does, the file of the function itself."""
    defines = re.compile(rf"^(pub(\(\w+\))? )?(struct|enum|union) {re.escape(name)}\b", re.M)
    if not name or defines.search(text_of(f"{folder}/{file}")):
        return file
    found = [it for it in sources_of(folder) if defines.search(text_of(f"{folder}/{it}"))]
    return found[0] if len(found) == 1 else file


def sources_of(folder):
    """Returns the source files of a crate."""
    below = [f"{at}/{it}" for at, _, names in os.walk(f"{folder}/src") for it in sorted(names) if it.endswith(".rt")]
    return [os.path.relpath(it, folder) for it in below]


def place_of(folder, file, old):
    """Returns the function in whose body or head the text stands, or None where it stands elsewhere."""
    if not file.startswith("src/") or not os.path.isfile(f"{folder}/{file}"):
        return None
    text = text_of(f"{folder}/{file}")
    if text.count(old) != 1:
        return None
    lines, at = text.split("\n"), text[: text.index(old)].count("\n")
    first = next((it for it in range(at, -1, -1) if FUNCTION.match(lines[it])), None)
    if first is None:
        return None
    indent, name = FUNCTION.match(lines[first]).groups()
    last = next((it for it in range(first, len(lines)) if lines[it] == f"{indent}}}"), first)
    owner = owner_of(lines, first) if indent else ""
    if last < at or owner is None:
        return None
    home = file_of_type(folder, owner, file)
    path = "::".join(it for it in (module_of(home), owner, name) if it)
    return Place(path, file, first, last)


def words_for(top, name):
    """Returns the words of a check of the crate over the libraries of this tree, or None where one of these is older than its sources."""
    listed = crates_listed(top)
    below = with_those_below(top, [name]) - {name}
    if not all(is_fresh(f"{top}/crates/{it}", it) for it in below):
        return None
    of_kit = [it for it in kit_libraries(top, name) if it not in listed]
    root = "src/main.rt" if os.path.isfile(f"{top}/crates/{name}/src/main.rt") else "src/lib.rt"
    words = ["--crate-name", name, root]
    for it in ["std", *of_kit]:
        words += ["--extern", f"{it}={KIT}/rlibs/{it}.rlib"]
    words += ["-L", f"dependency={KIT}/rlibs"]
    for it in listed[name]:
        words += ["--extern", f"{it}={top}/crates/{it}/out/rlib/{it}.rlib"]
    for it in sorted(below):
        words += ["-L", f"dependency={top}/crates/{it}/out/rlib"]
    words += ["--antt-project", f"{KIT}/rattle/logic/antt-project.json", "--logic-built", f"{KIT}/logic_built"]
    return [*words, "--jobs", "1", "--links", f"{name}="]


def kit_libraries(top, name):
    for line in text_of(f"{top}/crates.txt").splitlines():
        crate, colon, libraries = line.partition("#")[0].partition(":")
        if colon and crate.strip() == name:
            return libraries.split()
    return []


def is_fresh(folder, name):
    """Returns whether the library of a crate was built behind the last change of its files."""
    rlib = f"{folder}/out/rlib/{name}.rlib"
    if not os.path.isdir(rlib):
        return False
    built = os.path.getmtime(rlib)
    files = [f"{at}/{it}" for part in PARTS for at, _, names in os.walk(f"{folder}/{part}") for it in names]
    return all(os.path.getmtime(it) <= built for it in files)


def checked(folder, words, edits, only):
    """Checks these functions of a copy of the crate with these edits, and returns the status and what the prover said."""
    with tempfile.TemporaryDirectory(prefix="wrong-bodies-") as room:
        for part in PARTS:
            if os.path.isdir(f"{folder}/{part}"):
                shutil.copytree(f"{folder}/{part}", f"{room}/{part}")
        for file, old, new in [pair for edit in edits for pair in edit.pairs]:
            text = text_of(f"{room}/{file}").replace(old, new)
            with open(f"{room}/{file}", "w", encoding="utf-8") as it:
                it.write(text)
        asked = [word for it in only for word in ("--only", it)]
        how = {"stdin": subprocess.DEVNULL, "stdout": subprocess.PIPE, "stderr": subprocess.STDOUT, "text": True, "errors": "replace"}
        ran = subprocess.run([f"{KIT}/bin/rattle", "check", *words, *asked], cwd=room, **how)
    return ran.returncode, ran.stdout


def faults_in(said):
    told = [it for it in said.split("\n") if re.match(r"(note: )?\S+:\d+:\d+:", it)]
    return [it for it in told if ": error" in it or it.startswith("note: ")] or told


def is_at(fault, place):
    """Returns whether the prover found this fault in the function, or in a proof of it."""
    found = re.match(r"(?:note: )?(?:\./)?(\S+?):(\d+):", fault)
    if not found:
        return False
    proofs = f"proofs/{place.path.replace('::', '/')}/"
    return found[1].startswith(proofs) or (found[1] == place.file and place.first <= int(found[2]) - 1 <= place.last)


def unproved_in(said):
    return [it[1] for it in re.finditer(r"^fn (\S+): (?:not proved|no proof)", said, re.M)]


def verdict_of_one(folder, words, edit):
    """Tries an edit by itself, and returns what to say of it."""
    status, said = checked(folder, words, [edit], edit.only())
    if status == 2 and edit.places:
        edit.places = []
        status, said = checked(folder, words, [edit], edit.only())
    faults = faults_in(said)
    goal = next((it for it in faults if not LACKS_A_NAME.match(it)), "")
    if status == 1 and unproved_in(said):
        return f"{REFUSED}: {goal[:160]}" if goal or not faults else f"{ONLY_A_NAME}: {faults[0][:160]}"
    if status == 0:
        return "NOT REFUSED: the functions that it changes are still proved"
    last = said.rstrip("\n").split("\n")[-1]
    return f"NOT TRIED: its check ended with status {status}: {last[:200]}"


def verdicts(top, name, bodies):
    """Returns what the prover says of each wrong body of a crate, or nothing where the libraries below it aren't there."""
    folder, words = f"{top}/crates/{name}", words_for(top, name)
    if words is None:
        return {}
    edits = [read_edit(folder, it) for it in bodies]
    rounds, alone, found = [], [it for it in edits if not it.places], {}
    for edit in edits:
        if edit.places:
            room = next((it for it in rounds if not any(edit.meets(other) for other in it)), None)
            if room is None:
                rounds.append(room := [])
            room.append(edit)
    for tried in rounds:
        status, said = checked(folder, words, tried, sorted({it for edit in tried for it in edit.only()}))
        unproved, faults = unproved_in(said), faults_in(said)
        for edit in tried:
            places = [it for it in edit.places if f"{name}::{it.path}" in unproved]
            goal = next((it for it in faults if any(is_at(it, place) for place in places) and not LACKS_A_NAME.match(it)), None)
            if status == 1 and goal:
                found[edit.name] = f"{REFUSED}: {goal[:160]}"
            else:
                alone.append(edit)
    for edit in alone:
        found[edit.name] = verdict_of_one(folder, words, edit)
    return found
