"""What a link did, as a schedule that `bmclab play` plays: each datagram has its frame's number, and each delivery a line.

In a lab a frame is sent at once, where the event comes that it answers. On a wire it comes later, when others may have been seen. So a line is
written once it is known what was sent then, or that nothing was: `PATIENCE` seconds later. What no schedule can say is a line that begins
with #, and the first line of the file says then that the log doesn't replay.
"""
import collections
import time

import frames

PATIENCE = 1.0
# The most bytes of noise in a schedule, and how many newer requests of the manager make a frame too old: on IPMB, on SMBus.
MOST_NOISE = 80
AGED = (32, 8)
BUSES = ("ipmb", "smbus")
HEAD = 100
REPLAYS = "# This log replays: ./bmclab play BOARD PLAN LOG"
NOT_REPLAYS = "# This log doesn't replay: no schedule says its"
# The commands that set configuration, which a schedule has nobody but the manager ask: of IPMI by network function, of PLDM by type.
SETS = {0x00: {0x06, 0x08}, 0x04: {0x24, 0x26, 0x28}, 0x06: {0x24, 0x2E, 0x40, 0x43, 0x45}, 0x0C: {0x01}}
PLDM_SETS = {0x02: {0x31, 0x39}, 0x03: {0x07}}

Event = collections.namedtuple("Event", "what frame data at")
Event.__doc__ = "What a link saw: a frame `came` from the manager, somebody else or the server, or `went` to an end, as these bytes."


class Frame:
    """A datagram that came to the link. Its number is known once the event is written at which it was sent."""

    def __init__(self, bus, seen):
        self.bus = bus
        self.to_server = seen.to_server
        self.data = seen.data
        self.whence = seen.whence
        self.number = None
        self.begun = 0
        self.message = read(bus, seen.data)

    def is_of_manager(self):
        return self.message is not None and self.to_server and self.message.source == (frames.MANAGER, frames.MANAGER_WIRE)[self.bus]

    def is_to_manager(self):
        return self.message is not None and not self.to_server and self.message.to == (frames.MANAGER, frames.MANAGER_WIRE)[self.bus]

    def ends(self):
        """Returns whether a message ends with this frame: on IPMB each is one."""
        return self.bus == 0 or bool(self.message.end)

    def key(self):
        """Returns what a message and its reply have in common: on IPMB the requester's number, on SMBus its tag."""
        if self.bus == 0:
            ends = (self.message.to, self.message.source)
            return (ends if self.to_server else ends[::-1], self.message.number, self.message.command)
        ends = (self.message.to_eid, self.message.from_eid)
        return (ends if self.to_server else ends[::-1], self.message.tag)


def read(bus, data):
    """Returns the message or the packet that these bytes are, or None."""
    try:
        return frames.read_packet(data) if bus else frames.read_ipmb(data)
    except (frames.Fault, IndexError):
        return None


def message_of(found):
    """Returns those of these frames that are the first message, up to its end."""
    ends = [place for place, frame in enumerate(found, 1) if frame.ends()]
    return found[: ends[0]] if ends else found


class Assembler:
    """What an end of SMBus makes of packets, by the rule of `mctp_net`: under each name, how many wait for the others of their message."""

    def __init__(self):
        self.waiting = {}

    def joined(self, packet):
        """Returns how many packets this one is joined to, or None where it is dropped."""
        count = 0 if packet.start else self.waiting.get((packet.from_eid, packet.owner, packet.tag), 0)
        is_fitting = (packet.start or count) and packet.sequence == count and (packet.end or len(packet.payload) == frames.UNIT)
        return count if is_fitting else None

    def is_whole(self, packet):
        """Returns whether this packet makes a message whole."""
        return bool(packet.end) and self.joined(packet) is not None

    def take(self, packet):
        """Takes a packet; one that doesn't fit closes what waits."""
        count = self.joined(packet)
        self.waiting[packet.from_eid, packet.owner, packet.tag] = 0 if count is None or packet.end else count + 1


class BusLog:
    """The log of one bus: what its link tells goes into the log of both."""

    def __init__(self, log, bus):
        self.log = log
        self.bus = bus
        self.frames = {}

    def came(self, seen):
        seen.frame = Frame(self.bus, seen)
        self.log.add(Event("came", seen.frame, seen.data, time.monotonic()))

    def went(self, seen, to_server, data):
        self.log.add(Event("to server" if to_server else "to client", seen.frame, data, time.monotonic()))

    def say(self, sort, text):
        self.log.add(Event("say", sort, text, time.monotonic()))


class Log:
    """A log that is written into a file as it becomes known, with what was asked for in its second line."""

    def __init__(self, path, about, buses):
        self.file = open(path, "w", encoding="ascii", errors="backslashreplace")
        self.of_bus = [BusLog(self, bus) for bus in range(buses)]
        self.waiting = collections.deque()
        self.sent = 0
        self.begun = [0, 0]
        self.assemblers = {"to server": Assembler(), "to client": Assembler()}
        # The manager's open request: the frames of its last message, and whether its reply has come.
        self.last = []
        self.is_answered = False
        # By bus, the port from which the manager's present call sends.
        self.ports = {}
        self.unsaid = collections.Counter()
        self.write(REPLAYS.ljust(HEAD))
        self.write(f"# {about}")

    def write(self, line):
        self.file.write(line + "\n")

    def add(self, event):
        self.waiting.append(event)

    def flush(self, now=None):
        """Writes the lines of what is known by now; without a time, of all."""
        while self.waiting and self.is_known(self.waiting[0], now):
            event = self.waiting.popleft()
            if event.what == "say":
                self.comment(event.frame, event.data)
            elif event.what == "came":
                self.write_came(event.frame)
            else:
                self.write_went(event)
        self.file.flush()

    def close(self):
        self.flush()
        self.file.close()

    def comment(self, sort, text):
        """Writes what no schedule can say, and that there was such."""
        self.unsaid[sort] += 1
        self.write(f"# {text}")
        place = self.file.tell()
        counts = ", ".join(f"{sort} ({count})" for sort, count in self.unsaid.items())
        self.file.seek(0)
        self.file.write(f"{NOT_REPLAYS} {counts}".ljust(HEAD)[:HEAD])
        self.file.seek(place)

    def is_known(self, event, now):
        """Returns whether it is known what was sent at an event."""
        if now is None or now - event.at >= PATIENCE or event.what == "say":
            return True
        if event.what == "came":
            is_whole = not event.frame.is_of_manager() or event.frame.number is not None
            return is_whole or message_of([event.frame, *self.coming()])[-1].ends()
        if event.what == "to server":
            return not self.is_whole(event) or any(it.ends() for it in self.replies_to(event.frame))
        return not self.is_awaited(event) or any(it.ends() or not self.is_of_call(it) for it in self.next_message())

    def is_whole(self, event):
        """Returns whether a message is whole, where it comes to, with this frame of it."""
        frame = event.frame
        if event.data != frame.data or not frame.message:
            return False
        return frame.bus == 0 or self.assemblers[event.what].is_whole(frame.message)

    def is_awaited(self, event):
        """Returns whether the manager may go on at this: the reply to its open request, whole and not busy."""
        frame = event.frame
        if not self.is_whole(event) or not frame.is_to_manager() or self.is_answered or not self.last:
            return False
        is_busy = frame.bus == 0 and frame.message.data[:1] == bytes([frames.BUSY])
        return frame.bus == self.last[0].bus and frame.key() == self.last[0].key() and not is_busy

    def replies_to(self, frame):
        """Returns the frames that came from the server as the next answer to this one: up to the end of a message."""
        found = []
        for event in self.waiting:
            it = event.frame
            if event.what == "came" and not it.to_server and it.bus == frame.bus and it.number is None and it.message and it.key() == frame.key():
                found.append(it)
                if it.ends():
                    break
        return found

    def coming(self):
        """Returns the frames that came from the manager and have no number yet."""
        return [it.frame for it in self.waiting if it.what == "came" and it.frame.is_of_manager() and it.frame.number is None]

    def next_message(self):
        """Returns the frames of the manager's next message that isn't its last one again, up to its end."""
        again = [it.data for it in self.last]
        return message_of([it for it in self.coming() if it.data not in again])

    def is_of_call(self, frame):
        """Returns whether a frame comes from the port of the manager's present call."""
        return self.ports.get(frame.bus, frame.whence) == frame.whence

    def send(self, sent):
        """Gives frames their numbers: they are sent at the event that is written."""
        for frame in sent:
            frame.number = self.sent
            frame.begun = self.begun[frame.bus]
            self.sent += 1

    def begin(self, sent):
        """Notes a message of the manager, a new one or its last again."""
        if not self.last or sent[0].data != self.last[0].data:
            self.begun[sent[0].bus] += 1
            self.is_answered = False
        self.send(sent)
        self.last = sent
        self.ports[sent[0].bus] = sent[0].whence

    def write_came(self, frame):
        """Writes at which call the manager sent this, where no reply had it send that."""
        if frame.number is not None:
            return
        if not frame.to_server:
            if frame.message and frame.is_to_manager():
                self.comment("replies", f"{BUSES[frame.bus]} {frame.data.hex().upper()} comes from the controller, and answers nothing here")
            return
        if not frame.is_of_manager():
            return
        if not self.last:
            self.write("start")
        elif frame.data == self.last[0].data:
            self.write("quiet")
        elif self.is_answered and self.is_undo(frame):
            self.write("undo")
            self.ports = {}
        else:
            self.comment("calls", f"the manager sends {BUSES[frame.bus]} {frame.data.hex().upper()}, and neither goes on nor undoes")
            self.ports = {}
        self.begin(message_of([frame, *self.coming()]))

    def is_undo(self, frame):
        """Returns whether a manager goes on from another port with the next number, as an undo does."""
        return not self.is_of_call(frame) and (frame.bus != 0 or frame.message.number == self.begun[0] % frames.NUMBERS)

    def write_went(self, event):
        """Writes that something came to an end."""
        frame = event.frame
        if event.data != frame.data or not frame.message:
            self.write_noise(frame, event.data)
        elif event.what == "to server":
            self.write_to_server(event)
        elif frame.is_to_manager() and frame.number is not None:
            self.write_to_manager(event)
        if event.data == frame.data and frame.message and frame.bus:
            self.assemblers[event.what].take(frame.message)

    def write_to_server(self, event):
        """Writes that a frame came to the controller, and numbers what that sent at once."""
        frame = event.frame
        replies = self.replies_to(frame) if self.is_whole(event) else []
        if not frame.is_of_manager():
            self.write_other(frame)
        elif self.begun[frame.bus] - frame.begun >= AGED[frame.bus]:
            self.comment("old frames", f"frame {frame.number} comes to the controller, too old for a lab")
        else:
            self.write(f"to-bmc {frame.number}")
        self.send(replies)

    def write_noise(self, frame, data):
        if read(frame.bus, data) or not 1 <= len(data) <= MOST_NOISE:
            sort, what = ("forged codes", "is forged") if read(frame.bus, data) else ("long noise", "is noise")
            self.comment(sort, f"{BUSES[frame.bus]} {data.hex().upper()} {what}")
        else:
            self.write(f"noise {BUSES[frame.bus]} {data.hex().upper()}")

    def write_other(self, frame):
        """Writes that somebody else's request came to the controller."""
        message, text = frame.message, frame.data.hex().upper()
        if frame.bus == 0:
            is_said = frames.is_request(message) and message.command not in SETS.get(message.net_fn, ())
            text = f"{message.source:02X} {text[2:4]}{text[8:-2]}"
        else:
            payload = message.payload
            is_said = bool(message.start and message.end) and len(payload) > 3 and payload[3] not in PLDM_SETS.get(payload[2] & 0x3F, ())
            text = f"{message.from_eid:02X} {payload.hex().upper()}"
        if is_said:
            self.write(f"other {BUSES[frame.bus]} {text}")
        else:
            self.comment("others", f"other {BUSES[frame.bus]} {text}")

    def write_to_manager(self, event):
        """Writes that a reply came to the manager, and numbers what the manager sent at once."""
        frame = event.frame
        if self.begun[frame.bus] - frame.begun >= AGED[frame.bus]:
            self.comment("old frames", f"frame {frame.number} comes to the manager, too old for a lab")
            return
        is_awaited = self.is_awaited(event)
        sent = [it for it in self.next_message() if is_awaited and self.is_of_call(it)]
        # What the manager sent again while the reply was on its way was sent before the reply came.
        for again in self.coming()[: self.coming().index(sent[0])] if sent else ():
            if again.number is None:
                self.write("quiet")
                self.begin(message_of([it for it in self.coming() if it not in sent]))
        self.write(f"to-mgr {frame.number}")
        self.is_answered = self.is_answered or is_awaited
        if sent:
            self.begin(sent)
