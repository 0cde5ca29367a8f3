"""The sockets of `bmcnet`, by the system's own tables: each is UDP's, and bound to the loopback address alone."""
import os
import re
import socket
import struct

from . import servers
from .plans import text_of
from .runs import Run, distinct_steps
from .servers import HOST, Failed, Server, expect

# Servers and runs with few options, and with all.
SERVED = [(), ("--wait", 100, "--periods", "--quiet", 1000, "--forget", 20)]
RUNS = [(), ("--wait", 100, "--again", 5, "--forget", 1)]


def table(name, pid):
    """Returns the local and the other address of each socket of a table, by its inode. An address of another length isn't IPv4's, and stands as it is."""
    found = {}
    with open(f"/proc/{pid}/net/{name}", encoding="ascii") as file:
        for line in file.read().splitlines()[1:]:
            words = line.split()
            found[words[9]] = [address_of(word) for word in words[1:3]]
    return found


def address_of(word):
    address, port = word.split(":")
    if len(address) != 8:
        return address, int(port, 16)
    return socket.inet_ntoa(struct.pack("=I", int(address, 16))), int(port, 16)


def sockets_of(pid):
    """Returns the addresses of each socket of a process, both ends."""
    udp, found = table("udp", pid), []
    for descriptor in os.listdir(f"/proc/{pid}/fd"):
        try:
            named = re.fullmatch(r"socket:\[(\d+)\]", os.readlink(f"/proc/{pid}/fd/{descriptor}"))
        except FileNotFoundError:
            continue
        if named:
            if named[1] not in udp:
                raise Failed(f"socket {descriptor} isn't one of UDP over IPv4")
            found.append(udp[named[1]])
    return sorted(found)


def expect_loopback(what, sockets, count):
    expect(f"{what}: its sockets", len(sockets), count)
    for (own, _), (other, _) in sockets:
        expect(f"{what}: a socket's own address", own, HOST)
        expect(f"{what}: who it speaks to", other in (HOST, "0.0.0.0"), True)


def serves_there(program, folder, board, options, has_readings):
    """Both sockets of a server have the ports that it tells."""
    options = [*options, *(["--readings", servers.write(f"{folder}/readings.txt", "0 tick\n")] if has_readings else [])]
    with Server(program, board, 1000, *options) as server:
        sockets = sockets_of(server.process.pid)
        expect_loopback("serve", sockets, 2)
        expect("the ports that serve tells", [own[1] for own, _ in sockets], sorted(server.ports))
        server.ended()


def runs_there(program, folder, options):
    """The sockets of a run, and those of its undo, while nobody answers."""
    plan = servers.write(f"{folder}/plan.toml", text_of(distinct_steps("loopback", 1), 3))
    undo = servers.write(f"{folder}/list.txt", "undo 2\nnext ipmb 2 smbus 0\nnames ipmb 2C 20 smbus 30 20 eid 08 0A\nipmb 102805E080000000\n")
    with socket.socket(socket.AF_INET, socket.SOCK_DGRAM) as nobody:
        nobody.bind((HOST, 0))
        nobody.settimeout(servers.START)
        port = nobody.getsockname()[1]
        calls = [["run", *options, plan, port, port, 1000, f"{folder}/undo.txt"], ["undo", *options[:2], undo, port, port, 1000]]
        for words in calls:
            with Run(program, *words[1:], task=words[0]) as run:
                _, sender = nobody.recvfrom(100)
                sockets = sockets_of(run.process.pid)
                expect_loopback(words[0], sockets, 2)
                expect(f"{words[0]}: whom its request comes from", sender in [own for own, _ in sockets], True)


def tests(board):
    """Returns the tests of this file: the name, the function and its words."""
    return [
        *((f"loopback alone: serve{' with all options' if options else ''}", serves_there, (board, options, bool(options))) for options in SERVED),
        *((f"loopback alone: run and undo{' with all options' if options else ''}", runs_there, (options,)) for options in RUNS),
    ]
