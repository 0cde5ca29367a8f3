"""`apply` and `revert` that end at once, with one sentence: beside another process on the same FILE, without a socket, and at a port where nobody is."""
import contextlib
import os
import subprocess
import time

from . import servers
from .applies import LISTED, RETRIES, SERVED_TURNS, apply, revert
from .controllers import Silent
from .greetings import DID_NOTHING, POLICY, critical
from .plans import IPMB, text_of
from .servers import Server, call, expect

# How long a process waits for an answer that doesn't come, in milliseconds.
LONG = 60000
# What is at once, in seconds, on a busy machine: a third of a turn of those that wait so long.
AT_ONCE = 20
# The sockets of both links are one file more than a process of this limit may have.
FEW_FILES = 5


@contextlib.contextmanager
def waiting(program, link, *words):
    """Has a process wait for an answer over a link that loses all, and ends it by its process id."""
    process = subprocess.Popen([program, words[0], "--wait", str(LONG), *words[1:], str(link.port)], stdin=subprocess.DEVNULL, stderr=subprocess.DEVNULL)
    try:
        until = time.monotonic() + servers.START
        while not link.counts["lost"] and time.monotonic() < until:
            time.sleep(0.01)
        expect("a process that waits", (link.counts["lost"], process.poll()), (1, None))
        yield process
    finally:
        process.kill()
        process.wait()


def expect_at_once(what, wanted, task, *words):
    """Tests how a call ends, and that it ends at once."""
    begun = time.monotonic()
    expect(what, task(*words), wanted)
    expect(f"{what}, at once", time.monotonic() - begun < AT_ONCE, True)


def second_process(program, folder, first):
    """While a process has FILE, each other one is refused at once, by whatever name it calls FILE: it sends nothing, and changes no file."""
    plan, file = servers.write(f"{folder}/plan.toml", text_of([POLICY], RETRIES)), f"{folder}/plan.undo"
    if first == "revert":
        servers.write(file, LISTED)
    os.mkdir(f"{folder}/names")
    os.symlink(file, f"{folder}/names/link.undo")
    with Silent(servers.PORTS.take()) as link, waiting(program, link, first, plan if first == "apply" else file):
        texts = {it.name: servers.read(it.path) for it in os.scandir(folder) if it.is_file()}
        for name in file, f"{folder}/names/../plan.undo", f"{folder}/names/link.undo":
            wanted = 3, "", f"{name} is held by another process, or can't be held; nothing was sent\n"
            for options in ((), ("--replace",)):
                expect_at_once("apply", wanted, apply, program, [link.port], plan, "--undo", name, *options)
            expect_at_once("revert", wanted, revert, program, [link.port], name)
        said = call(program, "undo", "--wait", LONG, file, link.port, link.port, 9)
        expect("undo", said, (3, "", f"file {file}\n"))
        expect("the datagrams", link.counts["lost"], 1)
        expect("the files", {it.name: servers.read(it.path) for it in os.scandir(folder) if it.is_file()}, texts)
    expect("what is left", servers.read(file).split("\n")[0], "journal 1")


def no_socket(program, folder, board):
    """Where no socket can be had nothing is sent: that is said, and the status is 4."""
    plan = servers.write(f"{folder}/plan.toml", text_of([POLICY], RETRIES))
    done = servers.write(f"{folder}/done.undo", LISTED)
    with Server(program, board, SERVED_TURNS) as server:
        ipmb = server.ports[IPMB]
        limited = lambda *words: call("prlimit", f"--nofile={FEW_FILES}", program, *words, ipmb)
        expect_at_once("apply", (4, "", "no socket could be had; nothing was set\n"), limited, "apply", "--wait", LONG, plan)
        said = f"no socket could be had; nothing was taken back; to go on: bmcnet revert {done} {ipmb}\n"
        expect_at_once("revert", (4, "", said), limited, "revert", "--wait", LONG, done)
        expect("serve", server.ended(), (0, "served 0\nrecords same\n", ""))


def taken_ports(program, folder, board):
    """A server whose port is taken ends at once (4), and says which; another one's ports go on: a plan is applied there."""
    plan, file = servers.write(f"{folder}/plan.toml", text_of([critical(0x5A)], RETRIES)), f"{folder}/plan.undo"
    with Server(program, board, SERVED_TURNS) as server:
        ipmb, smbus = server.ports
        for ports, port, bus in ((ipmb, smbus), ipmb, "IPMB"), ((ipmb, 0), ipmb, "IPMB"), ((0, smbus), smbus, "SMBus"):
            said = f"port {port} of {bus} can't be opened on 127.0.0.1: is it in use?\n"
            expect_at_once("serve", (4, "", said), call, program, "serve", board, *ports, SERVED_TURNS)
        expect("apply", apply(program, server.ports, plan)[0], 0)
        expect("revert", revert(program, server.ports, file)[0], 0)
        expect("serve", server.ended()[1].split("\n")[1:], ["records same", ""])


def nobody_there(program, folder):
    """At a port where nobody is, or where somebody is who says nothing, either call ends with one sentence (11) once the tries of one request are over, and
    FILE has what it had."""
    plan, file = servers.write(f"{folder}/plan.toml", text_of([critical(0x5A)], RETRIES)), f"{folder}/plan.undo"
    port = servers.PORTS.take()
    expect_at_once("apply", (11, "", f"no answer on ipmb, port {port}; nothing was set\n"), call, program, "apply", plan, port)
    expect("its journal", servers.read(file).split("\n")[-7:-1], DID_NOTHING)
    expect_at_once("a revert of nothing", (0, "", f"{file} has nothing to take back; nothing was sent\n"), call, program, "revert", file, port)
    servers.write(file, LISTED)
    said = f"no answer on ipmb, port {port}; nothing was taken back; to go on: bmcnet revert {file} {port}\n"
    expect_at_once("revert", (11, "", said), call, program, "revert", file, port)
    expect("what is to be taken back", "undo 1\nipmb 000600\n" in servers.read(file), True)


def tests(board):
    """Returns the tests of this file: the name, the function and its words."""
    return [
        ("calls beside an apply on one FILE", second_process, ("apply",)),
        ("calls beside a revert on one FILE", second_process, ("revert",)),
        ("an apply and a revert without a socket", no_socket, (board,)),
        ("ports that are taken, and an apply", taken_ports, (board,)),
        ("an apply and a revert at a port where nobody is", nobody_there, ()),
    ]
