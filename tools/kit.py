"""What the kit's command `rt` can do and what it is, for the tools beside this file: kits of one logic differ in their commands."""
import functools
import re
import subprocess


@functools.lru_cache(maxsize=None)
def said(*words):
    """Returns what `rt` prints for these words."""
    return subprocess.run(["rt", *words], stdin=subprocess.DEVNULL, stdout=subprocess.PIPE, stderr=subprocess.STDOUT, text=True, errors="replace").stdout


def has_command(word):
    """Returns whether the help of the kit lists this command."""
    return re.search(rf"^ +rt {re.escape(word)}\b", said("help"), re.M) is not None


def has_flag(word):
    """Returns whether the help of the kit names this flag."""
    return re.search(rf"(?<!\S){re.escape(word)}(?!\S)", said("help")) is not None


def logic_of_kit():
    """Returns the sum of the kit's logic, as `rt version` prints it."""
    found = re.search(r"\blogic (\S+)", said("version"))
    return found[1] if found else "unknown"
