"""The program of tools/text_reads, compiled, the texts that it has, how long another program takes to check one, and the lines of a table."""
import os
import subprocess

from trial import compiled, copied_program, literal

TOP = os.path.dirname(os.path.dirname(os.path.realpath(__file__)))
BELOW = "record_base cfg_records undo_plans text_board plan_file text_lines text_journal toml".split()
FORMS = ("board", "plan", "undo", "journal", "schedule")

STEPS = 40
PLAN = "".join(f'[[step]]\nkind = "hysteresis"\nsensor = 5\npositive = {step + 1}\nnegative = 2\n\n' for step in range(STEPS))
UNDO = "undo 2\nnext ipmb 4 smbus 0\nnames ipmb 2C 20 smbus 30 20 eid 08 0A\nipmb 10260530000000005A6E\nipmb 10260518000000505F00\n"
# A Set is open, and the request that undoes it waits.
JOURNAL = """\
journal 1
retries 3
names 2C203020080A
listed 2C203020080A
steps 2
ipmb 102605380000004B5C64
ipmb 102405FF0102
undo 1
ipmb 10260538000000505F6E
waiting 1
ipmb 102405FF0000
stage set 1 0
stop
counts 3 0
no replies
"""
# A Set in four packets, of which one comes too late and is sent again, while others ask.
SCHEDULE = """\
start
to-bmc 0
to-mgr 1
to-bmc 2
to-bmc 3
to-bmc 5
quiet
to-bmc 6
other smbus 0B 01800002
to-bmc 7
other smbus 0C 01800002
to-bmc 8
to-bmc 5
to-bmc 9
to-mgr 12
undo
to-bmc 13
to-mgr 14
"""


def texts():
    with open(f"{TOP}/sample.toml", encoding="utf-8") as file:
        board = file.read()
    return {"Board": board, "Plan": PLAN, "Undo": UNDO, "Journal": JOURNAL, "Schedule": SCHEDULE}


def readers_program(room):
    """Returns the program, compiled, in a folder of this one."""
    arms = "".join(f"        Form::{form} => {literal(text)},\n" for form, text in texts().items())
    files = (
        "//! The texts that are cut off and edited.\nuse super::reading::Form;\n\n/// The text of this form.\npub fn text_of(form: Form) -> &'static str {\n"
        f'    match form {{\n{arms}        Form::Tree => "",\n    }}\n}}\n'
    )
    with open(f"{TOP}/tools/random_plays/tests/dice.rs", encoding="utf-8") as file:
        dice = file.read()
    os.mkdir(f"{room}/tree")
    crate = copied_program(f"{room}/tree", "text_reads", BELOW, [("files.rt", files), ("dice.rt", dice)])
    compiled(crate, f"{room}/reads", ["prefixes", "undo", "1"])
    return f"{room}/reads"


class NotChecked(Exception):
    pass


# A check of a text ends so: it is read as a value, with something to be told or with nothing, or has a fault.
CHECKED = (0, 1, 3)
# How often a text is checked, of which the fastest counts.
TIMES = 3


def check(program, form, file):
    """Returns how many seconds of processor time `bmclab check` of this file takes."""
    with subprocess.Popen([program, "check", "--as", form, file], stdin=subprocess.DEVNULL, stdout=subprocess.DEVNULL, stderr=subprocess.PIPE, text=True, errors="replace") as ran:
        said = ran.stderr.read()
        _, status, used = os.wait4(ran.pid, 0)
        ran.returncode = os.waitstatus_to_exitcode(status)
    if ran.returncode not in CHECKED:
        raise NotChecked(f"{program} check --as {form}: status {ran.returncode}, and this: {said[-2000:]}")
    return used.ru_utime + used.ru_stime


def check_time(reads, words, program, form, room):
    """Returns how many seconds the check of a text takes with a proved program, beyond that of an empty one. The program of tools/text_reads writes the text."""
    whole, empty = f"{room}/{form}.txt", f"{room}/empty.txt"
    with open(whole, "wb") as file:
        subprocess.run([reads, "text", *map(str, words)], stdin=subprocess.DEVNULL, stdout=file, check=True)
    with open(empty, "wb"):
        pass
    taken, nothing = (min(check(program, form, file) for _ in range(TIMES)) for file in (whole, empty))
    return max(taken - nothing, 0)


def table_line(cells, widths, is_page):
    """Returns a line of a table: as wide as this, or in Markdown."""
    if is_page:
        return f"| {' | '.join(cell.strip() for cell in cells)} |"
    return f"{cells[0]:{widths[0]}}" + "".join(f"{cell:>{width}}" for cell, width in zip(cells[1:], widths[1:]))


def table_head(cells, widths, is_page):
    """Returns the lines with which a table begins."""
    return table_line(cells, widths, is_page) + (f"\n|---|{'---:|' * (len(cells) - 1)}" if is_page else "")
