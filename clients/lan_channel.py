"""The LAN channel of a bridge: the commands that it answers itself, in the controller's place, and what a session's privilege level may.

The levels are those of IPMI 2.0's appendix G, of the commands that the controller has (docs/COMMANDS.md) and of the channel's own.
"""
import uuid

import frames

CHASSIS = 0x00
SENSOR = 0x04
APP = 0x06
STORAGE = 0x0A
TRANSPORT = 0x0C

DEVICE_GUID = 0x08
SYSTEM_GUID = 0x37
CAPABILITIES = 0x38
CHALLENGE = 0x39
ACTIVATE = 0x3A
PRIVILEGE = 0x3B
CLOSE = 0x3C
INFO = 0x42
CIPHER_SUITES = 0x54

BAD_DATA = 0xCC
NO_PRIVILEGE = 0xD4

USER = 2
OPERATOR = 3
ADMINISTRATOR = 4
# No level that a session over LAN has: the command is for the system's own software.
SYSTEM = 6
LEVELS = {"user": USER, "operator": OPERATOR, "administrator": ADMINISTRATOR}

# What each command needs, by network function. A command that isn't named needs no more than a user has.
NEEDED = {
    CHASSIS: {0x06: OPERATOR, 0x08: OPERATOR, 0x09: OPERATOR},
    SENSOR: {0x24: OPERATOR, 0x26: OPERATOR, 0x28: OPERATOR},
    APP: {
        **{0x22: OPERATOR, 0x24: OPERATOR, 0x2E: SYSTEM, 0x40: ADMINISTRATOR, 0x43: ADMINISTRATOR},
        **{0x44: OPERATOR, 0x45: ADMINISTRATOR, 0x46: OPERATOR, 0x47: ADMINISTRATOR},
    },
    STORAGE: {0x44: OPERATOR, 0x47: OPERATOR, 0x49: OPERATOR},
    TRANSPORT: {0x01: ADMINISTRATOR, 0x02: OPERATOR},
}

THIS_CHANNEL = 0x0E
# The bits of Get Channel Authentication Capabilities: kinds of authentication, what is asked of a session, and versions of IPMI.
NO_AUTHENTICATION = (0x01, 0x1F, 0x00)
RMCP_PLUS = (0x80, 0x04, 0x02)
EXTENDED = 0x80
# The medium 802.3 LAN, the protocol IPMB, several sessions at a time, and the number of IPMI's forum.
LAN = 0x04
IPMB = 0x01
SEVERAL_SESSIONS = 0x80
FORUM = bytes([0xF2, 0x1B, 0x00])
# Cipher suite 3: RAKP-HMAC-SHA1, HMAC-SHA1-96 and AES-CBC-128.
ALGORITHMS = bytes([0x01, 0x41, 0x81])
SUITE_3 = bytes([0xC0, 0x03]) + ALGORITHMS
BY_SUITE = 0x80
MOST_LISTED = 16


class Channel:
    """A LAN channel, by its number, with the authentication that its sessions have."""

    def __init__(self, number=1, authentication=NO_AUTHENTICATION, guid=uuid.UUID(int=0), is_restricted=False):
        self.number = number
        self.authentication = authentication
        self.guid = guid
        self.is_restricted = is_restricted

    def is_this(self, byte):
        """Returns whether a byte's channel number is this channel's."""
        return byte & 0x0F in (self.number, THIS_CHANNEL)

    def answer(self, message, level, sessions):
        """Returns the code and the data of a request that is answered here, of a session at this level while so many are open; else None."""
        if self.is_restricted and level < NEEDED.get(message.net_fn, {}).get(message.command, USER):
            return NO_PRIVILEGE, b""
        if message.to_lun == 0 and message.net_fn == APP:
            return self.own_answer(message.command, message.data, sessions)
        return None

    def own_answer(self, command, data, sessions):
        """Returns the code and the data of a command about this channel, or None."""
        if command == CAPABILITIES:
            return self.capabilities(data)
        if command == CIPHER_SUITES:
            return self.cipher_suites(data)
        if command == INFO:
            return self.info(data, sessions)
        if command in (DEVICE_GUID, SYSTEM_GUID):
            # The standard's order: the node first, the time's low bits last.
            return (frames.LENGTH, b"") if data else (frames.OK, self.guid.bytes[::-1])
        return None

    def capabilities(self, data):
        """Returns the code and the data that answer Get Channel Authentication Capabilities."""
        if len(data) != 2:
            return frames.LENGTH, b""
        if not self.is_this(data[0]) or not 1 <= data[1] & 0x0F <= 5:
            return BAD_DATA, b""
        kinds, status, versions = self.authentication
        if not data[0] & EXTENDED:
            kinds, versions = kinds & ~EXTENDED, 0
        return frames.OK, bytes([self.number, kinds, status, versions, 0, 0, 0, 0])

    def cipher_suites(self, data):
        """Returns the code and the data that answer Get Channel Cipher Suites, for messages of IPMI."""
        if len(data) != 3:
            return frames.LENGTH, b""
        if not self.is_this(data[0]) or data[1] & 0x3F:
            return BAD_DATA, b""
        listed = SUITE_3 if data[2] & BY_SUITE else ALGORITHMS
        if not self.authentication[0] & EXTENDED:
            listed = b""
        at = (data[2] & 0x3F) * MOST_LISTED
        return frames.OK, bytes([self.number]) + listed[at : at + MOST_LISTED]

    def info(self, data, sessions):
        """Returns the code and the data that answer Get Channel Info."""
        if len(data) != 1:
            return frames.LENGTH, b""
        if not self.is_this(data[0]):
            return BAD_DATA, b""
        return frames.OK, bytes([self.number, LAN, IPMB, SEVERAL_SESSIONS | min(sessions, 0x3F)]) + FORUM + bytes(2)
