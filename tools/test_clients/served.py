"""The helper for tests of others, clients/python/served_board.py: its example, and what it refuses."""
from .programs import TOP, called

LONGEST = 120
CALLS = "\n\nfor name, test in list(globals().items()):\n    if name.startswith('test_'):\n        test()\n        print('passed', name)\n"
REFUSED = """
from served_board import NotServed, board
try:
    with board("none.toml") as b:
        pass
except NotServed as fault:
    print("refused", fault)
"""
OVER_LAN = """
import subprocess
from served_board import board
with board("sample.toml", users={"admin": "secret"}) as b:
    words = ["ipmitool", "-I", "lanplus", "-H", "127.0.0.1", "-p", str(b.lan_port), "-U", "admin", "-P", "secret", "mc", "selftest"]
    print(subprocess.run(words, stdin=subprocess.DEVNULL, capture_output=True, text=True).stdout, b.links)
"""


def run(python, script, room):
    """Runs a script beside the helper, and returns its status and what it prints."""
    path = f"{room}/script.py"
    with open(path, "w", encoding="utf-8") as file:
        file.write(f"import sys\nsys.dont_write_bytecode = True\nsys.path.insert(1, '{TOP}/clients/python')\n{script}")
    return called([python, path], room, LONGEST)


def test_served(tests, room):
    """Runs the example of a test, by a Python that has pyipmi."""
    python, pyghmi = tests.part("pyipmi"), tests.part("pyghmi")
    if python:
        with open(f"{TOP}/examples/test_thresholds.py", encoding="utf-8") as file:
            script = file.read()
        status, text = run(python, script + CALLS, room)
        tests.expect((status, text.strip()) == (0, "passed test_thresholds_over_a_lossy_bus"), f"the example ends with {status}: {text}")
        status, text = run(python, REFUSED, room)
        tests.expect(status == 0 and text.startswith("refused") and "none.toml" in text, f"a board that isn't there: {status}, {text}")
    if pyghmi and tests.part("ipmitool"):
        status, text = run(pyghmi, OVER_LAN, room)
        tests.expect("Selftest: passed" in text and text.rstrip().endswith("[]"), f"a board with users: {status}, {text}")
