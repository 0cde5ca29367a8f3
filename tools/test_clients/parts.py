"""What is tested, what failed, and which parts of others are installed."""
import contextlib
import os
import shutil
import subprocess
import sys

# Where parts may be, beside what PATH has.
SEARCHED = os.environ.get("PATH", os.defpath) + ":/usr/sbin:/sbin"
PACKAGES = {
    **{"ipmitool": "ipmitool", "bmc-info": "freeipmi-tools", "pyipmi": "python3-pyipmi", "pyghmi": "python3-pyghmi"},
    **{"ipmi_sim": "openipmi", "openipmish": "openipmi", "tshark": "tshark"},
}
# What Python has to have, by its module.
MODULES = ("pyipmi", "pyghmi")


class Failure(Exception):
    """Why a test failed."""


class Tests:
    """How many tests passed, failed and were skipped."""

    def __init__(self):
        self.counts = {"passed": 0, "failed": 0, "skipped": 0}

    def tell(self, outcome, text):
        self.counts[outcome] += 1
        if outcome != "passed":
            print(f"{outcome}: {text}", flush=True)

    def expect(self, is_right, text):
        self.tell("passed" if is_right else "failed", text)

    def part(self, name):
        """Returns where a part is installed; one that isn't is told of."""
        found = python_with(name) if name in MODULES else shutil.which(name, path=SEARCHED)
        if not found:
            self.tell("skipped", f"{name} isn't installed; the package {PACKAGES[name]} has it")
        return found


def python_with(module):
    """Returns a Python that has the module, or None."""
    for python in (sys.executable, "/usr/bin/python3"):
        with contextlib.suppress(OSError):
            call = [python, "-c", f"import {module}"]
            if subprocess.run(call, stdin=subprocess.DEVNULL, stderr=subprocess.DEVNULL, check=False).returncode == 0:
                return python
    return None
