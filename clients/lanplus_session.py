"""The sessions of IPMI 2.0 over LAN, on pyghmi's: RMCP+ by cipher suite 3, for users with passwords.

pyghmi derives the keys, authenticates and enciphers. Which session a packet is of, that each request is carried out once, and what a session
may, stands here. A session is known by its identifier, so that a client that sends something again, or several from one port, is heard rightly.
"""
import struct

from pyghmi.ipmi.private import constants, serversession
from pyghmi.ipmi.private import session as pyghmi_session

import frames
from lan_channel import ACTIVATE, APP, CHALLENGE, USER
from lan_requests import Sessions
from lan_session import CLASS_ASF, CLASS_IPMI, RMCP, answer, pong, read_packet, request_in
from lan_session import write_packet as write_plain
from repeats import Window

RMCP_PLUS = 0x06
TYPES = constants.payload_types
KINDS = 0x3F
# The lengths of an Open Session Request, of RAKP 1 before its name (no less than RAKP 3's); and where a packet's payload begins.
OPEN_LENGTH = 32
RAKP1_LENGTH = 28
HEAD = 16

# What the greeting's messages are refused with.
NO_RESOURCES = 0x01
NO_LEVEL = 0x0A
NO_NAME = 0x0D
WRONG_CODE = 0x0F
NO_SUITE = 0x11


class Session(serversession.ServerSession):
    """A session of one client: it greets, is open once `localsid` is set, and is closed, when repeats alone are heard."""

    # Until the greeting has ended there are no keys, and no identifier to hear requests under.
    k1 = None
    localsid = None

    def __new__(cls, *_):
        return object.__new__(cls)

    def __init__(self, server, whence, request, now):
        self.users = server.users
        self.heard_at = now
        self.is_greeting = True
        self.is_ended = False
        self.level = self.limit = USER
        self.window = Window()
        # What each message of the greeting was answered with.
        self.greeted = {}
        self.message = None
        passwords = {name: user.password for name, user in server.users.items()}
        super().__init__(passwords, None, whence, server.link, request, server.channel.guid, server)
        # pyghmi would find the session by the client's address.
        pyghmi_session.Session.bmc_handlers.pop(whence, None)

    @property
    def identifier(self):
        return struct.unpack("<I", self.managedsessionid)[0]

    def is_open(self):
        return self.localsid is not None and not self.is_ended

    def is_closed(self):
        return self.is_ended

    def end(self):
        self.is_ended = True

    def refuse(self, kind, tag, status):
        """Answers a message of the greeting with a status."""
        self.send_payload(bytearray([tag, status, 0, 0]) + self.clientsessionid, TYPES[kind], retry=False)

    def greet(self, kind, payload):
        """Answers RAKP 1 or RAKP 3; one that comes again gets the same answer."""
        key = (kind, bytes(payload))
        if key in self.greeted:
            pyghmi_session._io_sendto(self.socket, self.greeted[key], self.sockaddr)
            return
        if kind == TYPES["rakp1"]:
            self._got_rakp1(payload)
        else:
            self._got_rakp3(payload)
        self.greeted[key] = self.netpacket

    def _got_rakp1(self, data):
        name = bytes(data[RAKP1_LENGTH:])
        user = self.users.get(name.decode("utf-8", "replace"))
        if len(name) != data[27] or not user:
            self.refuse("rakp2", data[0], NO_NAME)
            return
        wanted = data[24] & 0x0F
        if wanted > user.limit:
            self.refuse("rakp2", data[0], NO_LEVEL)
            return
        self.limit = wanted or user.limit
        self.level = min(self.limit, USER)
        super()._got_rakp1(data)

    def _got_rakp3(self, data):
        if not hasattr(self, "Rc") or not self.is_greeting:
            return
        self.is_greeting = False
        super()._got_rakp3(data)
        if self.localsid is None:
            self.refuse("rakp4", data[0], WRONG_CODE)

    def _parse_ipmi_payload(self, payload):
        self.message = request_in(bytes(payload), len(payload))

    def request_of(self, packet):
        """Returns the request of a packet that is authentic and no older than the one before, or None."""
        self.message = None
        self._handle_ipmi2_packet(packet)
        return self.message

    def tell(self, message, reply):
        """Sends a reply: the completion code, and the data."""
        self.send_payload(bytearray(answer(message, reply[0], reply[1:])), TYPES["ipmi"], retry=False)


def is_suite_3(payload):
    """Returns whether an Open Session Request takes cipher suite 3: its three algorithms, or any."""
    return all(payload[at + 3] == 0 or payload[at + 4] & KINDS == 1 for at in (8, 16, 24))


def write_outside(message):
    """Returns a packet of RMCP+ outside a session."""
    return RMCP + bytes([CLASS_IPMI, RMCP_PLUS, TYPES["ipmi"]]) + bytes(8) + struct.pack("<H", len(message)) + message


class Lanplus(Sessions):
    """The sessions of one port, `link`."""

    def __init__(self, link, users, channel):
        super().__init__(channel)
        self.link = link
        self.port = link.getsockname()[1]
        self.users = users
        # The sessions that Open Session Requests began.
        self.opened = {}

    def hear(self, datagram, whence, now):
        """Answers a datagram, or returns the request that the controller is asked, or None."""
        self.forget_silent(now)
        if datagram[:2] != RMCP[:2] or len(datagram) < 12:
            return None
        if datagram[3] == CLASS_ASF:
            self.send(pong(datagram), whence)
        elif datagram[3] == CLASS_IPMI and datagram[4] != RMCP_PLUS:
            packet = read_packet(datagram)
            if packet and packet[0] == 0:
                self.hear_outside(packet[2], whence, write_plain)
        elif datagram[3] == CLASS_IPMI:
            return self.hear_plus(bytearray(datagram), whence, now)
        return None

    def send(self, datagram, whence):
        if datagram:
            self.link.sendto(datagram, whence)

    def hear_plus(self, packet, whence, now):
        """Hears a packet of RMCP+. What pyghmi can't read is dropped."""
        kind, payload = packet[5] & KINDS, packet[HEAD:]
        try:
            if kind == TYPES["rmcpplusopenreq"] and len(payload) == OPEN_LENGTH:
                self.open(payload, whence, now)
            elif kind in (TYPES["rakp1"], TYPES["rakp3"]) and len(payload) >= RAKP1_LENGTH:
                session = self.session_at(payload, 4)
                if session:
                    session.greet(kind, payload)
            elif kind == TYPES["ipmi"] and not any(packet[6:10]):
                message = request_in(bytes(payload), packet[14] | packet[15] << 8)
                self.hear_outside(message, whence, write_outside)
            elif kind == TYPES["ipmi"]:
                return self.hear_in(self.session_at(packet, 6), packet, now)
        except (ValueError, IndexError, struct.error):
            pass
        return None

    def session_at(self, data, at):
        """Returns the session whose identifier stands there, or None."""
        return self.sessions.get(struct.unpack_from("<I", data, at)[0])

    def hear_outside(self, message, whence, written):
        """Answers a request outside a session: those about the channel and its sessions alone."""
        if message and message.net_fn == APP and message.to_lun == 0 and message.command not in (CHALLENGE, ACTIVATE):
            told = self.channel.own_answer(message.command, message.data, self.count_open())
            if told:
                self.send(written(answer(message, *told)), whence)

    def open(self, payload, whence, now):
        """Begins a session; a request that comes again during its greeting gets the same answer."""
        key = (whence, bytes(payload))
        session = self.opened.get(key)
        if session and session.is_greeting and self.sessions.get(session.identifier) is session:
            self.send(session.greeted[key], whence)
            return
        status = NO_SUITE if not is_suite_3(payload) else NO_RESOURCES if self.is_full() else 0
        if status:
            refusal = bytes([payload[0], status, 0, 0]) + bytes(payload[4:8])
            head = bytes([CLASS_IPMI, RMCP_PLUS, TYPES["rmcpplusopenresponse"]]) + bytes(8) + struct.pack("<H", len(refusal))
            self.send(RMCP + head + refusal, whence)
            return
        self.make_room()
        session = Session(self, whence, payload, now)
        session.greeted[key] = session.netpacket
        self.sessions[session.identifier] = session
        self.opened[key] = session

    def forget_silent(self, now):
        super().forget_silent(now)
        self.opened = {it: session for it, session in self.opened.items() if self.sessions.get(session.identifier) is session}

    def hear_in(self, session, packet, now):
        """Answers a request within a session, or returns it for the controller."""
        message = session.request_of(packet) if session else None
        if not message:
            return None
        session.heard_at = now
        heard = self.reply_or_ask(session, message)
        if not isinstance(heard, bytes):
            return heard
        session.tell(message, heard)
        return None

    def tell(self, ask, reply):
        """Gives a reply to whom it is for."""
        ask.session.tell(ask.message, self.kept(ask, reply))
