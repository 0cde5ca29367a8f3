"""A served controller: the program `bmcnet serve`, what is asked of it, and calls of `bmcnet` beside it."""
import os
import random
import re
import socket
import subprocess
import threading
import time

import frames
from program import ready_of

TOP = os.path.dirname(os.path.dirname(os.path.dirname(os.path.realpath(__file__))))
BOARD = f"{TOP}/sample.toml"
HOST = "127.0.0.1"
# How long a call, the start of a server and its end may take, in seconds. Where each processor has six processes to run, the program with the
# sanitizers takes minutes for a call of seconds.
CALL = 300
START = 120
END = 60
# How long one quiet turn of the program lasts.
QUIET = 0.2
# Get Endpoint ID, from an address and an endpoint of its own: a port answers it by itself, so the board isn't asked and no requester gets a window.
IS_THERE = frames.split(b"\x00\x80\x02", frames.CONTROLLER, 0x44, frames.CONTROLLER_EID, 0x0D, 1, 0)[0]


class Failed(Exception):
    """What came otherwise than it must."""


class Skipped(Exception):
    """Why a test isn't made on this machine."""


def expect(what, found, wanted):
    if found != wanted:
        raise Failed(f"{what}: {found!r} in place of {wanted!r}")


def call(program, *words):
    """Returns the status, standard output and standard error of a call."""
    try:
        ran = subprocess.run([program, *map(str, words)], stdin=subprocess.DEVNULL, capture_output=True, text=True, timeout=CALL, check=False)
    except subprocess.TimeoutExpired as late:
        raise Failed(f"{' '.join(map(str, words))} didn't end in {CALL} s") from late
    return ran.returncode, ran.stdout, ran.stderr


def program_of_script():
    """Returns the program that ./bmcnet runs, once that answers its example."""
    plan = f"{TOP}/examples/reply_lost/plan.toml"
    ran = subprocess.run([f"{TOP}/bmcnet", "pair", BOARD, plan, "20"], stdin=subprocess.DEVNULL, capture_output=True, text=True, check=False)
    expect("./bmcnet pair", (ran.returncode, ran.stdout), (0, "phase Done\nphase Undone\nrecords same\n"))
    return f"{TOP}/crates/bmcnet/out/bmcnet{'.unproved' if 'unproved' in ran.stderr else ''}"


class Ports:
    """Ports of this host that nobody has, below those that the kernel hands out, each given once."""

    LEAST, MOST = 20000, 32000

    def __init__(self):
        self.lock = threading.Lock()
        self.given = set()

    def take(self):
        with self.lock:
            while True:
                port = random.randrange(self.LEAST, self.MOST)
                if port in self.given:
                    continue
                self.given.add(port)
                with socket.socket(socket.AF_INET, socket.SOCK_DGRAM) as probe:
                    try:
                        probe.bind((HOST, port))
                    except OSError:
                        continue
                return port


PORTS = Ports()


# What a server tells on standard error once both of its ports are bound.
PORTS_LINE = re.compile(rf"bmcnet: ipmb on {re.escape(HOST)}:(\d+), smbus on {re.escape(HOST)}:(\d+)\n")


class Server:
    """A controller that is served, at ports that the kernel chooses unless they are named. At the end of a `with` it has ended, by itself or by its
    process id."""

    def __init__(self, program, board, turns, *options, ports=(0, 0), env=None):
        words = [program, "serve", *map(str, options), board, *map(str, ports), str(turns)]
        self.process = subprocess.Popen(words, stdin=subprocess.DEVNULL, stdout=subprocess.PIPE, stderr=subprocess.PIPE, text=True, env=env)

    def __enter__(self):
        self.line = self.first_line()
        told = PORTS_LINE.fullmatch(self.line)
        if told is None:
            self.stop()
            raise Failed(f"serve isn't there, status {self.process.returncode}: {self.line + self.process.stderr.read()!r}")
        self.ports = int(told[1]), int(told[2])
        self.wait_until_served()
        return self

    def wait_until_served(self):
        """Waits until a worker hears: between the line of the ports and that lies the opening of the board, which takes its time on a busy machine."""
        until = time.monotonic() + END
        with socket.socket(socket.AF_INET, socket.SOCK_DGRAM) as probe:
            probe.settimeout(1)
            while self.process.poll() is None and time.monotonic() < until:
                probe.sendto(IS_THERE, (HOST, self.ports[1]))
                try:
                    probe.recv(2048)
                    return
                except (TimeoutError, ConnectionRefusedError):
                    continue

    def first_line(self):
        """Returns the first line on standard error, or what there is of it once that ends or has stayed quiet for too long. Nothing behind it is read."""
        line, until, errors = b"", time.monotonic() + START, self.process.stderr
        while not line.endswith(b"\n") and ready_of([errors], until - time.monotonic()):
            byte = os.read(errors.fileno(), 1)
            if not byte:
                break
            line += byte
        return line.decode()

    def __exit__(self, *_):
        self.stop()

    def stop(self):
        if self.process.poll() is None:
            self.process.kill()
        self.process.wait()

    def told(self):
        """Waits until it ends by itself, and returns the status, standard output, and standard error behind the line of its ports."""
        try:
            out, err = self.process.communicate(timeout=CALL)
        except subprocess.TimeoutExpired as late:
            raise Failed(f"serve didn't end in {CALL} s") from late
        return self.process.returncode, out, err

    def ended(self):
        """The same, once empty datagrams have used up its turns."""
        with socket.socket(socket.AF_INET, socket.SOCK_DGRAM) as stranger:
            until = time.monotonic() + CALL
            while self.process.poll() is None and time.monotonic() < until:
                for port in self.ports * 16:
                    stranger.sendto(b"", (HOST, port))
                time.sleep(0.0005)
        return self.told()


def number_of(bus, frame):
    """Returns the number of the request that these bytes begin, or None where they don't begin one."""
    if bus == 0:
        return frame[4] >> 2 if len(frame) > 4 else None
    return frame[9] & 0x1F if len(frame) > 9 and frame[7] & 0x80 else None


class Asker:
    """Another requester, on both ports of a server, under an address of its own."""

    def __init__(self, ports, source=0x42, eid=0x0C):
        self.source, self.eid = source, eid
        self.links = [socket.socket(socket.AF_INET, socket.SOCK_DGRAM) for _ in ports]
        for link, port in zip(self.links, ports):
            link.connect((HOST, port))
            link.settimeout(QUIET)
        self.asked = [0, 0]

    def __enter__(self):
        return self

    def __exit__(self, *_):
        for link in self.links:
            link.close()

    def next_number(self, bus, numbers):
        number = self.asked[bus] % numbers
        self.asked[bus] += 1
        return number

    def ipmb(self, net_fn, command, data=b""):
        """Returns the frame of a new request on IPMB."""
        number = self.next_number(0, frames.NUMBERS)
        return frames.write_ipmb(frames.Request(frames.CONTROLLER, net_fn, 0, self.source, 0, number, command, bytes(data)))

    def smbus(self, kind, command, data=b""):
        """Returns the one packet of a new request of PLDM."""
        message = bytes([0x01, 0x80 | self.next_number(1, 32), kind, command]) + bytes(data)
        return frames.split(message, frames.CONTROLLER, self.source, frames.CONTROLLER_EID, self.eid, 1, 0)[0]

    def next_reply(self, bus):
        """Returns the number of the next reply, and the code and the data, or None where it stays quiet."""
        whole = b""
        try:
            while True:
                frame = self.links[bus].recv(2048)
                if bus == 0:
                    reply = frames.read_ipmb(frame)
                    return reply.number, reply.data
                packet = frames.read_packet(frame)
                whole = (b"" if packet.start else whole) + packet.payload
                if packet.end:
                    return whole[1] & 0x1F, whole[4:]
        except (TimeoutError, ConnectionRefusedError):
            return None

    def heard(self, bus, number):
        """Returns the reply of this number, the code and the data, or None where it stays quiet."""
        while (reply := self.next_reply(bus)) is not None:
            if reply[0] == number:
                return reply[1]
        return None

    def ask(self, bus, frame):
        """Returns what the controller answers to a request, which is sent again where it stays quiet."""
        for _ in range(int(CALL / QUIET)):
            self.links[bus].send(frame)
            reply = self.heard(bus, number_of(bus, frame))
            if reply is not None:
                return reply
        raise Failed(f"no answer to {frame.hex()}")

    def ask_together(self, bus, requests):
        """Returns what the controller answers to requests that are under way together, by their numbers. What stays quiet is sent again."""
        waiting, replies = {number_of(bus, frame): frame for frame in requests}, {}
        for _ in range(int(CALL / QUIET)):
            for frame in waiting.values():
                self.links[bus].send(frame)
            while waiting and (reply := self.next_reply(bus)) is not None:
                if waiting.pop(reply[0], None) is not None:
                    replies[reply[0]] = reply[1]
            if not waiting:
                return replies
        raise Failed(f"no answers to {[frame.hex() for frame in waiting.values()]}")

    def get(self, bus, words):
        """Returns what a Get answers, whose code must be 00h."""
        reply = self.ask(bus, self.ipmb(*words) if bus == 0 else self.smbus(*words))
        if reply[:1] != b"\0":
            raise Failed(f"the Get {words} is answered by {reply.hex()}")
        return reply

    def get_all(self, gets):
        """Returns what each Get answers, by the Get."""
        return {get: self.get(*get).hex() for get in gets}


def read(path):
    with open(path, encoding="utf-8") as file:
        return file.read()


def write(path, text):
    with open(path, "w", encoding="utf-8") as file:
        file.write(text)
    return path
