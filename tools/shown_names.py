"""Whether docs/CODES.md has a row for each name and each code that a run shows, and docs/SCHEDULES.md one for each fault of an event, and for no other
name: they are those of the enums and constants of code. The rows of codes and phases are those of the crate report_words, word for word."""
import os
import re

from claims import tables

PAGE, FAULTS = "docs/CODES.md", "docs/SCHEDULES.md"
# The column of a table, and the enums whose variants it has: why a frame is ignored, where a plan stands.
IGNORED = {"ipmb_frame/src/fault.rt": "FrameFault", "mctp_net/src/fault.rt": "PacketFault", "mctp_net/src/taken.rt": "DropCause"}
IGNORED = {**IGNORED, "pldm_base/src/fault.rt": "PldmFault", "bmc_core/src/out.rt": "Reason"}
# The variants of `Reason` that hold another enum's value, and print its name.
HOLD = {"Frame", "Packet", "Dropped", "Pldm"}
PHASES = "model_undo/src/phase.rt"
CODES = "two_wire/src/code.rt"
# The file of report_words that has a table, and what its page calls the codes that are none of the rows before.
CODE_ROWS = {"IPMI": ("report_words/src/ipmi.rt", "others, 80h to BEh"), "PLDM": ("report_words/src/pldm.rt", "others from 80h on")}
PHASE_ROWS = "report_words/src/phases.rt"
OF_COMMAND = "particular to a command"


def text_of(top, path):
    with open(os.path.join(top, path), encoding="utf-8") as file:
        return file.read()


def variants(top, path, name):
    """Returns the names of an enum's variants."""
    body = re.search(rf"pub enum {name} \{{\n(.*?)\n\}}", text_of(top, f"crates/{path}"), re.S)[1]
    return set(re.findall(r"(?m)^    ([A-Z]\w*)", body))


def differences(where, what, page, code):
    """Yields what the page lacks of the code, and what it has besides."""
    yield from (f"{where} has no {what} {it}" for it in sorted(code - page))
    yield from (f"{where} has {what} {it}, and code hasn't" for it in sorted(page - code))


def code_rows(top, kind):
    """Yields the rows of a kind of code, the lowest first, as the page has them."""
    path, others = CODE_ROWS[kind]
    found = re.findall(r'(?:0x(\w\w)|_) => row\(\s*(?:OF_COMMAND|"([^"]*)"),\s*"([^"]*)",\s*"([^"]*)",?\s*\)', text_of(top, f"crates/{path}"))
    for code, name, *words in sorted(found, key=lambda row: row[0] or "BF"):
        yield " | ".join([f"{code}h" if code else others, name or OF_COMMAND, *words])


def phase_rows(top):
    """Yields what the page has of each phase: its own name, or why a plan halted, and the words behind it."""
    for name, words in re.findall(r'(?:Phase|Why)::(\w+)(?:\([^)]*\))? => row\(((?:\s*"[^"]*",?){3})\s*\)', text_of(top, f"crates/{PHASE_ROWS}")):
        yield " | ".join([name, *re.findall(r'"([^"]*)"', words)])


def faults_of_rows(top, rows):
    """Yields the rows of the page that report_words has otherwise, and those that the page lacks."""
    for kind in CODE_ROWS:
        shown = [" | ".join(row.values()) for row in rows if kind in row]
        yield from differences(PAGE, f"row of {kind}", set(shown), set(code_rows(top, kind)))
    shown = {" | ".join([re.findall(r"[A-Z][a-z]\w+", phase)[-1], *words]) for phase, *words in (row.values() for row in rows if "Phase" in row)}
    yield from differences(PAGE, "row of phases", shown, set(phase_rows(top)))


def faults(top):
    """Yields what the pages have otherwise than code has it."""
    rows = [row for _, row in tables(text_of(top, PAGE))]
    names = {it for row in rows for it in re.findall(r"`(\w+)`", row.get("Name", ""))}
    ignored = set().union(*(variants(top, path, name) for path, name in IGNORED.items())) - HOLD
    yield from differences(PAGE, "name", names, ignored)
    words = {it for row in rows for it in re.findall(r"[A-Z][a-z]\w+", row.get("Phase", ""))}
    yield from differences(PAGE, "phase", words, variants(top, PHASES, "Phase") | variants(top, PHASES, "Why"))
    events = {it for _, row in tables(text_of(top, FAULTS)) for it in re.findall(r"`(\w+)`", row.get("Fault", ""))}
    yield from differences(FAULTS, "fault", events, variants(top, "model_lab/src/fault.rt", "Fault"))
    constants = re.findall(r"pub const (\w+): Code = Code \{ value: 0x(\w\w) \}", text_of(top, f"crates/{CODES}"))
    for kind in ("IPMI", "PLDM"):
        shown = {row["Code"].rstrip("h") for row in rows if kind in row}
        known = {value for name, value in constants if name.startswith("PLDM") == (kind == "PLDM")}
        yield from (f"{PAGE} has no code {it}h of {kind}" for it in sorted(known - shown))
    yield from faults_of_rows(top, rows)
