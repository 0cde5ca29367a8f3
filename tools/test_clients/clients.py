"""Clients of others that ask a served controller through clients/lan-bridge, in sessions of IPMI 1.5 and of IPMI 2.0."""
import concurrent.futures
import contextlib
import os
import shlex
import subprocess
import time

import program
from lossy_link import LossyLink, Troubles

from .page import code_in, rows_of, rows_of_plan, squeezed
from .parts import SEARCHED
from .programs import TOP, called, served, started

# How many requests, of which the controller counts those that it carries out, go over lossy links, and how many come at once.
COUNTED = 30
AT_ONCE = 6
LONGEST_LOSSY = 60
# Reserve SEL answers with the next number.
RESERVE = ["raw", "0x0a", "0x42"]
# The words of a bridge of IPMI 1.5.
PLAIN = ["--unauthenticated"]
# What examples/clients.md has for the users and the GUID of a bridge of IPMI 2.0.
USERS = "admin secret\noperator opsecret operator\nguest visitor user\n"
GUID = "3f2b8c1e-5d4a-4e6f-9a7b-0c1d2e3f4a5b"
# How OpenIPMI prints that: the bytes as they come, the node first.
GUID_OF_OPENIPMI = "GUID: 0x5b 0x4a 0x3f 0x2e 0x1d 0x0c 0x7b 0x9a"
# The board that is asked over lanplus.
LISTED = "examples/one_of_each.toml"
# What the links at both sides of a bridge do.
HARSH = Troubles(lose=8, repeat=15, delay=15)
LOSING = Troubles(lose=5)
# FreeIPMI's tools that keep sensor data records in a file.
KEEPS_RECORDS = ("ipmi-sel", "ipmi-sensors")

PYIPMI = """
import sys, pyipmi, pyipmi.interfaces
from pyipmi.session import Session
link = pyipmi.interfaces.create_interface("rmcp", slave_address=0x81, host_target_address=0x20, keep_alive_interval=0)
ipmi = pyipmi.create_connection(link)
ipmi.session.set_session_type_rmcp("127.0.0.1", int(sys.argv[1]))
ipmi.session.set_auth_type_user("", "")
ipmi.session._auth_type = Session.AUTH_TYPE_NONE
ipmi.target = pyipmi.Target(ipmb_address=0x20)
ipmi.session.establish()
for expression in sys.argv[2:]:
    try:
        print(repr(eval(expression)))
    except Exception as fault:
        print(type(fault).__name__, fault)
ipmi.session.close()
"""

PYGHMI = """
import sys
from pyghmi.ipmi import command
board = command.Command(bmc="127.0.0.1", port=int(sys.argv[1]), userid="admin", password="secret")
for expression in sys.argv[2:]:
    try:
        print(repr(eval(expression)))
    except Exception as fault:
        print(type(fault).__name__, fault)
"""


@contextlib.contextmanager
def bridged(bmcnet, board, words=PLAIN, link=lambda port, _: contextlib.nullcontext(port)):
    """Gives the port of a bridge to a controller with this board, with such links at both sides of the bridge. A client's own loses alone, since
    ipmitool takes a reply that comes twice for the next one."""
    with served(bmcnet, board) as ports, link(ports[0], HARSH) as far, bridge(far, words) as port, link(port, LOSING) as near:
        yield str(near)


@contextlib.contextmanager
def bridge(p0, words=PLAIN):
    """Gives the port of a bridge to the controller's port."""
    with started([f"{TOP}/clients/lan-bridge", *words, "--port", "0", str(p0)], r"lan(?:plus)? on [0-9.]+:([0-9]+)") as told:
        yield int(told[1])


def authenticated(room):
    """Returns the words of a bridge with users, which restricts what their levels may."""
    path = f"{room}/users"
    with open(os.open(path, os.O_WRONLY | os.O_CREAT | os.O_TRUNC, 0o600), "w", encoding="utf-8") as file:
        file.write(USERS)
    return ["--users", path, "--privilege", "--guid", GUID]


@contextlib.contextmanager
def lossy(port, seed, troubles):
    """Gives the port of a link to this port that loses, repeats and delays so often."""
    with LossyLink(port, seed, troubles) as link:
        yield link.port


def ipmitool_words(port, words, *options):
    return ["ipmitool", "-I", "lan", "-H", program.LOOPBACK, "-p", port, "-A", "NONE", *options, *words]


def lanplus_words(port, words, *options):
    return ["ipmitool", "-I", "lanplus", "-H", program.LOOPBACK, "-p", port, "-U", "admin", "-P", "secret", *options, *words]


def freeipmi_words(port, words, room, session=("-D", "LAN", "-a", "NONE")):
    kept = ["--sdr-cache-directory", room, "--quiet-cache"] if words[0] in KEEPS_RECORDS else []
    return [words[0], *session, "-h", f"{program.LOOPBACK}:{port}", *kept, *words[1:]]


def test_rows(tests, heading, whole, room):
    """Runs the commands of a table, and looks for what it says of each; where it says nothing, nothing is printed."""
    for command, wanted, wanted_status, _ in rows_of(heading):
        words = whole(shlex.split(code_in(command)[0]))
        status, text = called(words, room)
        texts = code_in(wanted)
        lacking = [it for it in texts if squeezed(it) not in squeezed(text)]
        is_right = not lacking and (texts or not text.strip()) and str(status) == wanted_status
        tests.expect(is_right, f"{shlex.join(words)} ends with {status} and prints\n{text}\nwithout {lacking}")


def test_plan_seen(tests, bmcnet, room):
    """Runs and undoes a plan, and has ipmitool read what the page says before, between and behind."""
    asked, rows = rows_of_plan()
    with served(bmcnet, "sample.toml") as ports, bridge(ports[0]) as port:
        own = {"./bmcnet": bmcnet, "4000": str(ports[0]), "4001": str(ports[1]), "undo.txt": f"{room}/plan-undo.txt"}
        for call, wanted in rows:
            status = called([own.get(word, word) for word in call], room)[0] if call else 0
            _, text = called(ipmitool_words(str(port), asked), room)
            tests.expect(status == 0 and squeezed(text) == wanted, f"behind {shlex.join(call)}, which ends with {status}, ipmitool prints {text}")
    tests.expect(len({text for _, text in rows}) > 1 and rows[0][1] == rows[-1][1], "the page shows nothing that changed and came back")


def test_once(tests, bmcnet, seed, room, words, client):
    """Asks Reserve SEL again and again over lossy links: the controller counts how often it carries that out."""
    asked = f"{room}/asked"
    with open(asked, "w", encoding="utf-8") as file:
        file.write((" ".join(RESERVE) + "\n") * COUNTED)
    with bridged(bmcnet, "sample.toml", words, lambda port, troubles: lossy(port, seed, troubles)) as port:
        status, text = called(client(port, ["exec", asked], "-N", "1", "-R", "9"), room, LONGEST_LOSSY)
    wanted = [f"{count:02x} 00" for count in range(1, COUNTED + 1)]
    found = [line.strip() for line in text.splitlines()]
    tests.expect((status, found) == (0, wanted), f"Reserve SEL by {words[0]} over lossy links of seed {seed} ends with {status} and prints {found}")


def test_at_once(tests, port, room, client):
    """Asks Reserve SEL in several sessions at once: each gets a number of its own."""
    with concurrent.futures.ThreadPoolExecutor(AT_ONCE) as pool:
        found = [*pool.map(lambda _: called(client(port, RESERVE), room), range(AT_ONCE))]
    texts = {text for status, text in found if status == 0}
    tests.expect(len(texts) == AT_ONCE, f"{AT_ONCE} sessions at once got {found}")


def test_bridges_in_turn(tests, bmcnet, room):
    """Asks the same through one bridge after another: the controller keeps what the first asked under the same numbers."""
    found = []
    with served(bmcnet, "sample.toml") as ports:
        for _ in range(3):
            with bridge(ports[0]) as port:
                found.append(called(ipmitool_words(str(port), RESERVE), room))
    wanted = [(0, f" {count:02x} 00\n") for count in (1, 2, 3)]
    tests.expect(found == wanted, f"Reserve SEL through one bridge after another: {found}")


def test_clients(tests, bmcnet, seed, room):
    ipmitool, freeipmi, python = [tests.part(name) for name in ("ipmitool", "bmc-info", "pyipmi")]
    if not ipmitool:
        tests.tell("skipped", "the rows of FreeIPMI and pyipmi, which stand behind those of ipmitool")
        return
    test_plan_seen(tests, bmcnet, room)
    with bridged(bmcnet, "sample.toml") as port:
        test_rows(tests, "ipmitool on the sample board", lambda words: ipmitool_words(port, words), room)
        test_at_once(tests, port, room, ipmitool_words)
    test_bridges_in_turn(tests, bmcnet, room)
    test_once(tests, bmcnet, seed, room, PLAIN, ipmitool_words)
    with bridged(bmcnet, "examples/listed_sensors.toml") as port:
        test_rows(tests, "ipmitool on a board whose sensors are listed", lambda words: ipmitool_words(port, words), room)
        if freeipmi:
            test_rows(tests, "FreeIPMI", lambda words: freeipmi_words(port, words, room), room)
        if python:
            test_values(tests, "pyipmi", [python, "-c", PYIPMI, port], room)


def test_values(tests, heading, call, room):
    """Runs a script with the expressions of a table, and compares what it prints of each."""
    rows = [(code_in(expression)[0], code_in(value)[0]) for expression, value in rows_of(heading)]
    _, text = called([*call, *(expression for expression, _ in rows)], room)
    found = text.splitlines()
    for place, (expression, value) in enumerate(rows):
        is_right = len(found) == len(rows) and found[place].startswith(value)
        tests.expect(is_right, f"{heading} prints {found}, where {expression} is {value}")


def test_lanplus(tests, bmcnet, seed, room):
    """Asks through sessions of IPMI 2.0, of users with passwords."""
    pyghmi, ipmitool = tests.part("pyghmi"), tests.part("ipmitool")
    if not pyghmi or not ipmitool:
        return
    words = authenticated(room)
    with bridged(bmcnet, LISTED, words) as port:
        test_rows(tests, "ipmitool over lanplus", lambda words: lanplus_words(port, words), room)
        test_at_once(tests, port, room, lanplus_words)
        if tests.part("bmc-info"):
            session = ("-D", "LAN_2_0", "-u", "admin", "-p", "secret")
            test_rows(tests, "FreeIPMI over LAN_2_0", lambda words: freeipmi_words(port, words, room, session), room)
        test_values(tests, "pyghmi", [pyghmi, "-c", PYGHMI, port], room)
        if tests.part("openipmish"):
            test_openipmi(tests, port, room)
    test_once(tests, bmcnet, seed, room, words, lanplus_words)
    with bridged(bmcnet, "examples/server.toml", words) as port:
        test_rows(tests, "ipmitool on a board that looks like a server", lambda words: lanplus_words(port, words), room)


def test_openipmi(tests, port, room):
    """Opens a domain by OpenIPMI's shell: it is told of the connection, and of the GUID."""
    asked = f"domain open d lan -U admin -P secret -p {port} {program.LOOPBACK}"
    with open(f"{room}/openipmish", "w+", encoding="utf-8") as said:
        shell = subprocess.Popen(["openipmish"], stdin=subprocess.PIPE, stdout=said, stderr=said, text=True, env={**os.environ, "PATH": SEARCHED})
        try:
            shell.stdin.write(f"{asked}\n")
            shell.stdin.flush()
            is_up = wait_for_text(said.name, "Any Connection Up: true")
            shell.stdin.write("domain info d\n")
            shell.stdin.flush()
            is_known = wait_for_text(said.name, GUID_OF_OPENIPMI)
        finally:
            shell.kill()
            shell.communicate()
        tests.expect(is_up and is_known, f"openipmish says {open(said.name, encoding='utf-8').read()!r}")


def wait_for_text(path, text):
    """Returns whether the file has this text within some seconds."""
    until = time.monotonic() + 20
    while time.monotonic() < until:
        with open(path, encoding="utf-8") as file:
            if text in file.read():
                return True
        time.sleep(0.1)
    return False
