"""A program `bmcnet` whose first `apply` is killed amid its plan.

usage: dies.py FLAG PROGRAM WORDS..

Where the file FLAG is there it is removed, and the `apply` is killed once its journal is behind the second step. Any other call is PROGRAM's.
"""
import os
import re
import subprocess
import sys
import time

AMID = re.compile(r"^stage (?:get|set) [2-4] ", re.M)
KILLED = 137
PAUSE = 0.002


def is_amid(file):
    try:
        with open(file, encoding="utf-8") as journal:
            return AMID.search(journal.read()) is not None
    except FileNotFoundError:
        return False


def main(flag, program, *words):
    if words[:1] != ("apply",) or not os.path.exists(flag):
        os.execv(program, [program, *words])
    os.remove(flag)
    file = words[words.index("--undo") + 1]
    process = subprocess.Popen([program, *words])
    while process.poll() is None and not is_amid(file):
        time.sleep(PAUSE)
    if process.poll() is not None:
        return process.returncode
    process.kill()
    process.wait()
    return KILLED


if __name__ == "__main__" and len(sys.argv) > 2:
    sys.exit(main(*sys.argv[1:]))
