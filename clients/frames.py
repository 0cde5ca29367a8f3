"""The frames of both buses, for the programs beside this file: IPMB messages, and MCTP packets over SMBus, read from bytes and written.

A reader raises `Fault` with the name of the first fault, as `bmclab frame` names it (docs/CODES.md). Addresses are bytes with bit 0 clear.
"""
import collections

# The names of both ends, as `bmclab` and `bmcnet` have them.
CONTROLLER = 0x20
CONTROLLER_EID = 0x0A
MANAGER = 0x2C
MANAGER_WIRE = 0x30
MANAGER_EID = 0x08

# The most bytes of data in a request and in a reply on IPMB, and of a whole frame there.
MOST_ASKED = 25
MOST_TOLD = 24
MOST_FRAME = 32
# The payload of each packet of a message but its last.
UNIT = 64
# How many numbers IPMB's requests have, and how many behind a new one are forgotten.
NUMBERS = 64
FORGOTTEN = 32

# The data of a greeting's requests on IPMB, and their numbers where the requests behind them count from 0 (crates/undo_plans).
GREETING = b"HELO"
GREETING_NUMBERS = (31, 63)

# Completion codes of IPMI.
OK = 0x00
BUSY = 0xC0
NO_COMMAND = 0xC1
NO_LUN = 0xC2
LENGTH = 0xC7
UNSPECIFIED = 0xFF

MCTP_COMMAND = 0x0F
MCTP_VERSION = 1


class Fault(ValueError):
    """What is wrong with the bytes that were read: the fault's name."""


Request = collections.namedtuple("Request", "to net_fn to_lun source source_lun number command data")
Request.__doc__ = "A request on IPMB, or a reply where `net_fn` is odd: the completion code is then the first byte of `data`."

Packet = collections.namedtuple("Packet", "to source to_eid from_eid start end sequence owner tag payload")
Packet.__doc__ = "An MCTP packet over SMBus; `start`, `end` and `owner` are flags."


def sum8(data):
    """Returns the byte that makes the sum of these bytes 0."""
    return -sum(data) & 0xFF


def pec(data):
    """Returns SMBus's packet error code of these bytes: CRC-8, polynomial 07h."""
    code = 0
    for byte in data:
        code ^= byte
        for _ in range(8):
            code = (code << 1 ^ (0x07 if code & 0x80 else 0)) & 0xFF
    return code


def write_ipmb(message):
    """Returns the bytes of a request or a reply."""
    head = bytes([message.to, message.net_fn << 2 | message.to_lun])
    body = bytes([message.source, message.number << 2 | message.source_lun, message.command]) + bytes(message.data)
    return head + bytes([sum8(head)]) + body + bytes([sum8(body)])


def ipmb_fault(frame):
    """Returns the name of the first fault of a frame on IPMB, or None."""
    if len(frame) < 7 or (len(frame) == 7 and frame[1] & 0x04):
        return "Short"
    if len(frame) > MOST_FRAME:
        return "Long"
    if sum8(frame[:3]):
        return "HeadSum"
    if sum8(frame[3:]):
        return "BodySum"
    return "OddAddress" if (frame[0] | frame[3]) & 1 else None


def read_ipmb(frame):
    """Returns what a frame on IPMB holds, a request or a reply."""
    fault = ipmb_fault(frame)
    if fault:
        raise Fault(fault)
    return message_in(frame)


def message_in(frame):
    """Returns what a message holds, whatever its checksums, length and addresses are: seven bytes at least."""
    return Request(frame[0], frame[1] >> 2, frame[1] & 3, frame[3], frame[4] & 3, frame[4] >> 2, frame[5], bytes(frame[6:-1]))


def reply_to(request, code, data=b""):
    """Returns the reply to a request: its addresses exchanged, under its number."""
    told = bytes([code]) + bytes(data)
    return request._replace(
        to=request.source, to_lun=request.source_lun, net_fn=request.net_fn | 1, source=request.to, source_lun=request.to_lun, data=told
    )


def is_request(message):
    """Returns whether the message asks; else it is a reply."""
    return message.net_fn % 2 == 0


def write_packet(packet):
    """Returns the bytes of a packet, with its packet error code."""
    flags = packet.start << 7 | packet.end << 6 | packet.sequence << 4 | packet.owner << 3 | packet.tag
    head = [packet.to, MCTP_COMMAND, 5 + len(packet.payload), packet.source | 1, MCTP_VERSION, packet.to_eid, packet.from_eid, flags]
    body = bytes(head) + bytes(packet.payload)
    return body + bytes([pec(body)])


def packet_fault(frame):
    """Returns the name of the first fault of a packet, or None."""
    if len(frame) < 10:
        return "Short"
    if frame[1] != MCTP_COMMAND or frame[0] & 1 or not frame[3] & 1:
        return "NotMctp"
    if frame[2] + 4 != len(frame) or len(frame) > 73:
        return "Count"
    if pec(frame):
        return "Pec"
    return None if frame[4] & 0x0F == MCTP_VERSION else "Version"


def read_packet(frame):
    """Returns what a frame on SMBus holds."""
    fault = packet_fault(frame)
    if fault:
        raise Fault(fault)
    flags = frame[7]
    return Packet(
        frame[0], frame[3] & 0xFE, frame[5], frame[6], flags >> 7, flags >> 6 & 1, flags >> 4 & 3, flags >> 3 & 1, flags & 7, bytes(frame[8:-1])
    )


def split(message, to, source, to_eid, from_eid, owner, tag):
    """Returns the packets of a message, from its type byte on."""
    parts = [message[at : at + UNIT] for at in range(0, len(message), UNIT)]
    last = len(parts) - 1
    return [
        write_packet(Packet(to, source, to_eid, from_eid, int(place == 0), int(place == last), place % 4, owner, tag, part))
        for place, part in enumerate(parts)
    ]
