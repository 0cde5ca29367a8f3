"""One requester on IPMB over UDP: its requests are numbered, and each is carried out once, however often it is sent."""
import sys
import time

import frames
import program

# How often a request of the requester's own is sent, and how long an answer to each is awaited, in seconds.
TRIES = 6
WAIT = 0.5


class Requester:
    """A requester of the program `name`, at an address of its own. A reply is known by its number."""

    def __init__(self, name, link, address):
        self.name = name
        self.link = link
        self.address = address
        self.begun = 0
        self.open = {}
        self.is_heard = False
        self.is_busy = False

    def send(self, frame):
        """Sends a frame; one that nobody takes is lost."""
        try:
            self.link.send(frame)
        except OSError:
            self.note_silence()

    def note_silence(self):
        """Tells that the controller's port is gone, once."""
        if self.is_heard:
            host, port = self.link.getpeername()
            print(f"{self.name}: nobody hears {host}:{port} any more", file=sys.stderr, flush=True)
        self.is_heard = False

    def begin(self, asked):
        """Sends a request, given as network function, unit, command and data, and returns its count."""
        net_fn, lun, command, data = asked
        count = self.begun
        self.begun += 1
        self.open.pop(count - frames.NUMBERS, None)
        frame = frames.write_ipmb(frames.Request(frames.CONTROLLER, net_fn, lun, self.address, 0, count % frames.NUMBERS, command, data))
        self.open[count] = frame
        self.send(frame)
        return count

    def again(self, count):
        """Sends an open request again, and returns whether the controller can still know it for a repeat."""
        is_known = self.begun - count < frames.FORGOTTEN
        if is_known:
            self.send(self.open[count])
        return is_known

    def hear(self):
        """Returns the count and the answer of the reply that came, or None."""
        try:
            heard = frames.read_ipmb(self.link.recv(program.MOST_READ))
        except OSError:
            return self.note_silence()
        except frames.Fault:
            return None
        self.is_heard = True
        for count, frame in self.open.items():
            asked = frames.message_in(frame)
            if heard._replace(data=b"") == frames.reply_to(asked, 0)._replace(data=b""):
                del self.open[count]
                return count, heard.data
        return None

    def is_answered(self, asked):
        """Sends a request until its reply comes, a few times. A reply that says that the controller is busy is none."""
        count = self.begin(asked)
        frame = self.open[count]
        for _ in range(TRIES):
            until = time.monotonic() + WAIT
            while program.ready_of([self.link], until - time.monotonic()):
                heard = self.hear()
                if heard:
                    self.is_busy = heard[1][:1] == bytes([frames.BUSY])
                    if not self.is_busy:
                        return True
                self.open[count] = frame
                time.sleep(0.01)
            self.send(frame)
        return False

    def greet(self):
        """Has the controller forget what it kept of a former requester at this address: the greeting of `bmcnet`, two requests half the numbers
        apart, each sent until it is answered. Both have data that Get Device ID hasn't, so each is refused and changes nothing.

        From then on the numbers count from 0."""
        for self.begun in frames.GREETING_NUMBERS:
            if not self.is_answered((0x06, 0, 0x01, frames.GREETING)):
                return False
        return True
