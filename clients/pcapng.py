"""Captures in the form pcapng: an interface for each bus, and the frames with their stamps and comments.

IPMB's frames stand under link type 199, as Kontron's cards write them: the bus, and the frame's length, come before the frame. MCTP's packets
stand under link type 113, as Linux captures them: behind a header of sixteen bytes with their sender, from their version byte on.
"""
import struct

import frames

IPMB_KONTRON = 199
LINUX_SLL = 113
# How Linux calls MCTP: the kind of device, and the protocol.
DEVICE_MCTP = 290
PROTOCOL_MCTP = 0x00FA
TO_OTHERS = 3

BYTE_ORDER = 0x1A2B3C4D
SECTION = 0x0A0D0D0A
INTERFACE = 1
PACKET = 6
COMMENT = 1
NAME = 2
RESOLUTION = 9
BUSES = [("ipmb", IPMB_KONTRON), ("smbus", LINUX_SLL)]


def padded(data):
    return data + bytes(-len(data) % 4)


def option(code, data):
    return struct.pack("<HH", code, len(data)) + padded(data)


def block(kind, body):
    length = len(body) + 12
    return struct.pack("<II", kind, length) + body + struct.pack("<I", length)


def head(decimals):
    """Returns what a capture begins with; its stamps count 10 to the minus `decimals` seconds."""
    made = block(SECTION, struct.pack("<IHHq", BYTE_ORDER, 1, 0, -1))
    for name, link in BUSES:
        options = option(NAME, name.encode()) + option(RESOLUTION, bytes([decimals])) + option(0, b"")
        made += block(INTERFACE, struct.pack("<HHI", link, 0, 0) + options)
    return made


def packet(bus, frame, stamp, comment):
    """Returns the block of a frame that was seen on a bus."""
    data, about = (ipmb_data(frame), []) if bus == "ipmb" else smbus_data(frame)
    texts = [text for text in [comment, *about] if text]
    options = option(COMMENT, ", ".join(texts).encode()) + option(0, b"") if texts else b""
    number = [name for name, _ in BUSES].index(bus)
    body = struct.pack("<IIIII", number, stamp >> 32, stamp & 0xFFFFFFFF, len(data), len(data)) + padded(data) + options
    return block(PACKET, body)


def ipmb_data(frame):
    return bytes([0, min(len(frame), 255)]) + frame


def smbus_data(frame):
    """Returns what is captured of a frame on SMBus, and what the comment says of the rest."""
    fault = frames.packet_fault(frame)
    if fault:
        return sll(0, frame), [f"no packet: {fault}"]
    return sll(frame[3] & 0xFE, frame[4:-1]), [f"to {frame[0]:02X}h from {frame[3] & 0xFE:02X}h", f"PEC {frame[-1]:02X}h"]


def sll(sender, data):
    """Returns the data behind Linux's header of a captured packet, with the sender's address."""
    return struct.pack(">HHHB7xH", TO_OTHERS, DEVICE_MCTP, 1, sender, PROTOCOL_MCTP) + data
