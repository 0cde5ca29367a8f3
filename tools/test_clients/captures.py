"""What tshark shows of the captures that clients/capture writes."""
import os
import shlex
import subprocess
import time

from .page import calls_of, squeezed
from .parts import Failure
from .programs import LONGEST_START, TOP, called, served, started, wait_for_controller


def test_captures(tests, bmcnet, room):
    if not tests.part("tshark"):
        return
    for words, wanted in calls_of("A capture of a play"):
        call = [f"{room}/{word}" if word.endswith(".pcapng") else word for word in words]
        status, text = called(call, room, LONGEST_START, subprocess.DEVNULL)
        is_right = status == 0 and squeezed(text) == squeezed(wanted)
        tests.expect(is_right, f"{shlex.join(call)} ends with {status} and prints\n{text}\nand not\n{wanted}")
    test_ports(tests, bmcnet, room)


def test_ports(tests, bmcnet, room):
    """Captures a request and its reply on a port, where we may."""
    out = f"{room}/ports.pcapng"
    with served(bmcnet, "sample.toml") as ports:
        try:
            with started([f"{TOP}/clients/capture", "ports", *map(str, ports), out], "ipmb on port"):
                wait_for_controller(ports[0])
                wait_for_packets(out)
        except Failure as fault:
            tests.tell("skipped", str(fault))
            return
    shows = ["tshark", "-o", "ipmi.dissect_bus_commands:TRUE", "-r", out, "-T", "fields", "-e", "_ws.col.Info"]
    _, text = called(shows, room, errors=subprocess.DEVNULL)
    wanted = ["Req, Get Device ID", "Rsp, Get Device ID, Command Completed Normally (00h)"]
    tests.expect(text.splitlines() == wanted, f"tshark shows of two datagrams {text!r}")


def wait_for_packets(out):
    """Waits until the capture grows no more."""
    size = -1
    while size != os.path.getsize(out):
        size = os.path.getsize(out)
        time.sleep(0.3)
