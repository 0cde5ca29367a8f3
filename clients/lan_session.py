"""The sessions of IPMI 1.5 over LAN, without authentication: RMCP, the session's header, and the commands that a session itself needs.

Nothing here opens a socket or reads a clock: `Lan.hear` is given a datagram and the time.
"""
import secrets
import struct

import frames
from lan_channel import ACTIVATE, ADMINISTRATOR, APP, BAD_DATA, CAPABILITIES, CHALLENGE, USER, Channel
from lan_requests import Sessions
from repeats import Window

RMCP = b"\x06\x00\xff"
CLASS_ASF = 0x06
CLASS_IPMI = 0x07
# The enterprise number of ASF, and its messages.
ASF = 4542
PING = 0x80
PONG = 0x40

NO_SLOT = 0x81
# Authentication none alone: any name is taken.
NO_AUTHENTICATION = 0x00

# How far a packet's sequence number may be from the highest that was heard.
REACH = 16
WRAP = 1 << 32

WAITING = "waiting"
OPEN = "open"
CLOSED = "closed"


class Session:
    """A session, from its challenge on: it waits, is open, and is closed, when repeats alone are heard."""

    def __init__(self, identifier, now):
        self.identifier = identifier
        self.challenge = secrets.token_bytes(16)
        self.begin_inbound = 1 + secrets.randbelow(WRAP - 1)
        self.heard_at = now
        self.state = WAITING
        self.window = Window()

    def activate(self, limit, outbound):
        """Opens the session; doing so again changes nothing."""
        if self.state == WAITING:
            self.state = OPEN
            self.limit = limit
            self.level = min(limit, USER)
            self.highest = self.begin_inbound
            self.outbound = outbound

    def is_open(self):
        return self.state == OPEN

    def is_closed(self):
        return self.state == CLOSED

    def end(self):
        self.state = CLOSED

    def is_near(self, sequence):
        """Returns whether a packet of this sequence number is heard: one from long ago isn't."""
        ahead = (sequence - self.highest) % WRAP
        if ahead <= REACH:
            self.highest = sequence
        return ahead <= REACH or WRAP - ahead <= REACH

    def next_outbound(self):
        """Returns the sequence number of the next packet to the client."""
        number = self.outbound
        self.outbound = number % (WRAP - 1) + 1
        return number


def write_packet(message, identifier=0, sequence=0):
    """Returns a datagram with a message, without authentication."""
    return RMCP + bytes([CLASS_IPMI, NO_AUTHENTICATION]) + struct.pack("<IIB", sequence, identifier, len(message)) + message


def read_packet(datagram):
    """Returns the session's identifier, the packet's sequence number and the message, or None."""
    if len(datagram) < 14 or datagram[4] != NO_AUTHENTICATION:
        return None
    sequence, identifier, length = struct.unpack_from("<IIB", datagram, 5)
    read = request_in(datagram[14 : 14 + length], length)
    return (identifier, sequence, read) if read else None


def request_in(message, length):
    """Returns the request that these bytes are, so many, or None."""
    if len(message) != length or length < 7 or frames.sum8(message[:3]) or frames.sum8(message[3:]):
        return None
    read = frames.message_in(message)
    return read if read.to == frames.CONTROLLER and frames.is_request(read) else None


def pong(datagram):
    """Returns the answer to a presence ping, or None."""
    if len(datagram) < 12 or struct.unpack_from(">IB", datagram, 4) != (ASF, PING):
        return None
    return RMCP + bytes([CLASS_ASF]) + struct.pack(">IBBBB", ASF, PONG, datagram[9], 0, 16) + struct.pack(">II", ASF, 0) + bytes([0x81, 0]) + bytes(6)


class Lan(Sessions):
    """The sessions of one port, without authentication."""

    def __init__(self, channel=None):
        super().__init__(channel or Channel())

    def hear(self, datagram, now):
        """Returns the datagram that answers this one, an `Ask` for the controller, or None."""
        self.forget_silent(now)
        if datagram[:2] != RMCP[:2]:
            return None
        if datagram[3:4] == bytes([CLASS_ASF]):
            return pong(datagram)
        packet = read_packet(datagram) if datagram[3:4] == bytes([CLASS_IPMI]) else None
        return self.hear_message(*packet, now) if packet else None

    def hear_message(self, identifier, sequence, message, now):
        command = (message.net_fn, message.command)
        if command == (APP, CAPABILITIES) and identifier == 0:
            return write_packet(answer(message, *self.channel.capabilities(message.data)))
        if command == (APP, CHALLENGE) and identifier == 0:
            return write_packet(answer(message, *self.challenged(message.data, now)))
        session = self.sessions.get(identifier)
        if session and command == (APP, ACTIVATE):
            return self.activated(session, message, now)
        if not session or session.state == WAITING or not session.is_near(sequence):
            return None
        session.heard_at = now
        heard = self.reply_or_ask(session, message)
        return written(session, message, heard) if isinstance(heard, bytes) else heard

    def challenged(self, data, now):
        """Returns the code and the data that answer Get Session Challenge."""
        if len(data) != 17:
            return frames.LENGTH, b""
        if data[0] != NO_AUTHENTICATION:
            return BAD_DATA, b""
        self.make_room()
        identifier = 0
        while identifier == 0 or identifier in self.sessions:
            identifier = secrets.randbelow(WRAP)
        self.sessions[identifier] = Session(identifier, now)
        return frames.OK, struct.pack("<I", identifier) + self.sessions[identifier].challenge

    def activated(self, session, message, now):
        """Returns the answer to Activate Session. A client that repeats it gets the same session."""
        code, data = self.activation(session, message.data)
        if code != frames.OK:
            return write_packet(answer(message, code), session.identifier)
        session.heard_at = now
        return write_packet(answer(message, code, data), session.identifier, session.next_outbound())

    def activation(self, session, data):
        if len(data) != 22:
            return frames.LENGTH, b""
        kind, limit, outbound = data[0], data[1] & 0x0F, struct.unpack_from("<I", data, 18)[0]
        if kind != NO_AUTHENTICATION or data[2:18] != session.challenge or not USER <= limit <= ADMINISTRATOR:
            return BAD_DATA, b""
        if session.state == CLOSED:
            return BAD_DATA, b""
        if session.state == WAITING and self.is_full():
            return NO_SLOT, b""
        session.activate(limit, outbound or 1)
        return frames.OK, struct.pack("<BIIB", kind, session.identifier, session.begin_inbound, session.limit)

    def told(self, ask, reply):
        """Returns the datagram with the reply to what was asked: the completion code, and the data."""
        return written(ask.session, ask.message, self.kept(ask, reply))


def written(session, message, reply):
    """Returns the datagram with a reply within a session."""
    return write_packet(answer(message, reply[0], reply[1:]), session.identifier, session.next_outbound())


def answer(message, code, data=b""):
    """Returns the bytes of the reply to a message over LAN."""
    return frames.write_ipmb(frames.reply_to(message, code, data))
