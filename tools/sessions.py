"""What an operator types and reads beside a served board: examples/NAME/session.txt.

A session is lines `$ ./bmcnet ..`, each with what it says below it, on both streams in their order. The board is board.toml beside it, and its ports stand
as 9620 and 9621. What a call writes lies in a folder of the session's own, which has examples/ in it.
"""
import os
import re
import subprocess
import tempfile

from test_net.servers import TOP, Server, expect, program_of_script

PROMPT = re.compile(r"\$ \./bmcnet (.*)")
SHOWN_PORTS = ("9620", "9621")
# The server hears nothing for so many turns of 200 ms behind the last call, and ends.
QUIET_TURNS = 15
TURNS = 100000


def folders():
    """Returns the folders of examples/ that have a session, in order."""
    found = [f"examples/{name}" for name in sorted(os.listdir(f"{TOP}/examples"))]
    return [folder for folder in found if os.path.isfile(f"{TOP}/{folder}/session.txt")]


def said(program, words, place):
    """Runs a call in this folder, and returns what it says."""
    ran = subprocess.run([program, *words], cwd=place, stdin=subprocess.DEVNULL, stdout=subprocess.PIPE, stderr=subprocess.STDOUT, text=True, check=False)
    return ran.stdout


def with_ports(text, ports, others):
    """Returns the text with the second ports where it has the first."""
    for port, other in zip(ports, others):
        text = re.sub(rf"\b{port}\b", other, text)
    return text


def played(folder):
    """Types the calls of a session anew, and returns it with what they say now. At its end each record must be as the board file has it."""
    with open(f"{TOP}/{folder}/session.txt", encoding="utf-8") as file:
        calls = [line[1] for line in map(PROMPT.fullmatch, file.read().split("\n")) if line]
    program = program_of_script()
    with Server(program, f"{TOP}/{folder}/board.toml", TURNS, "--periods", "--quiet", QUIET_TURNS) as server, tempfile.TemporaryDirectory() as place:
        os.symlink(f"{TOP}/examples", f"{place}/examples")
        ports, told = [str(port) for port in server.ports], []
        for words in calls:
            text = said(program, with_ports(words, SHOWN_PORTS, ports).split(), place)
            told.append(f"$ ./bmcnet {words}\n" + with_ports(text, ports, SHOWN_PORTS))
        expect("the records behind the session", server.told()[1].split("\n")[-2:], ["records same", ""])
    return "".join(told)
