"""What the rows of tools/refuse-memory that serve ask of a board: each command that sets something, records until the log is full, strings whole and
in parts, tables, and a message of several packets. The codes of the replies are those of docs/COMMANDS.md."""
import frames

# The sample board has no LAN parameters and no effecters, and its text is short.
MORE = """
[[lan]]
channel = 1
ip = [192, 0, 2, 1]
source = 1
mask = [255, 255, 255, 0]
gateway = [192, 0, 2, 254]
vlan = [0, 0]

[[numeric]]
id = 1
size = 5
operational = 1
lower = 0
upper = 1000
current = 500

[[state]]
id = 2
operational = 1
states = [[1, 2]]
current = [1]
"""
RECORD = "0000 02 00000000 2000 04 01 05 01 59 FF FF"
NAME = "61 62 63 64" + " 00" * 12
# netFn, command, data and the code of the reply.
IPMI = [
    (0x04, 0x24, "05 FF 03 04", 0x00),
    (0x04, 0x26, "05 3F 15 0B 06 51 60 6F", 0x00),
    (0x04, 0x28, "05 D0 00 02 00 00", 0x00),
    (0x04, 0x26, "09 3F 15 0B 06 51 60 6F", 0xCB),
    (0x06, 0x24, "01 00 00 00 64 00", 0x00),
    (0x06, 0x22, "", 0x00),
    (0x06, 0x2E, "0B", 0x00),
    (0x06, 0x40, "01 43 44", 0x00),
    (0x06, 0x43, "91 02 03", 0x00),
    (0x06, 0x45, f"02 {NAME}", 0x00),
    (0x06, 0x47, f"02 02 {NAME}", 0x00),
    (0x00, 0x06, "02", 0x00),
    (0x00, 0x08, "03 0A", 0x00),
    (0x00, 0x08, "04 03 01", 0x00),
    (0x00, 0x08, "05 80 00 00 00 00", 0x00),
    (0x0C, 0x01, "01 03 C0 00 02 02", 0x00),
    (0x0C, 0x01, "01 14 05 80", 0x00),
    (0x0A, 0x49, "00 00 00 60", 0x00),
    (0x0A, 0x44, RECORD, 0x00),
    (0x0A, 0x44, RECORD, 0x00),
    (0x0A, 0x44, RECORD, 0xC4),
    (0x0A, 0x43, "00 00 00 00 00 FF", 0x00),
    (0x0A, 0x42, "", 0x00),
    (0x0A, 0x47, "01 00 43 4C 52 AA", 0x00),
]
WHOLE, START, MIDDLE, END = 5, 1, 2, 4
PART = 192


def entry(letter, length):
    """Returns the entry of the text, so many times this letter."""
    return bytes([1, 0, 1]) + length.to_bytes(2, "little") + letter * length


def set_of(flag, handle, data):
    """Returns a Set of an attribute's entry, or of its part."""
    return 3, 0x07, handle.to_bytes(4, "little") + bytes([flag]) + data


def get_of(operation, handle):
    """Returns a Get of the text, or of its part."""
    return 3, 0x08, handle.to_bytes(4, "little") + bytes([operation, 1, 0])


def pldm():
    """Returns type, command, data and the code of the reply of each request."""
    text = entry(b"a", 400)
    asked = [
        (2, 0x31, "01 00 05 E8 03 00 00", 0x00),
        (2, 0x39, "02 00 01 01 02", 0x00),
        (*set_of(WHOLE, 0, bytes([0, 0, 0, 1, 1])), 0x00),
        (*set_of(WHOLE, 0, bytes([2, 0, 3, 40, 0, 0, 0, 0, 0, 0, 0])), 0x00),
        (*set_of(WHOLE, 0, entry(b"b", 24)), 0x00),
        (*get_of(1, 0), 0x00),
        (*set_of(START, 0, text[:PART]), 0x00),
        (*set_of(END, PART, text[2 * PART :]), 0x03),
        (*set_of(MIDDLE, PART, text[PART : 2 * PART]), 0x00),
        (*set_of(END, 2 * PART, text[2 * PART :]), 0x00),
        (*get_of(1, 0), 0x00),
        (*get_of(0, PART), 0x00),
        (*get_of(0, 2 * PART), 0x00),
        *((3, 0x01, f"00 00 00 00 01 {table:02X}", 0x00) for table in (0, 1, 2)),
        (0, 0x02, "", 0x00),
        (0, 0x02, "00" * 96, 0x03),
    ]
    return [(kind, command, bytes.fromhex(data) if isinstance(data, str) else data, code) for kind, command, data, code in asked]


def ipmb_frames():
    """Returns the frame of each request of IPMI."""
    asked = enumerate(IPMI)
    return [frames.write_ipmb(frames.Request(0x20, net_fn, 0, 0x42, 0, number, command, bytes.fromhex(data))) for number, (net_fn, command, data, _) in asked]


def smbus_frames():
    """Returns the packets of all requests of PLDM."""
    packets = []
    for number, (kind, command, data, _) in enumerate(pldm()):
        message = bytes([0x01, 0x80 | number, kind, command]) + data
        packets += frames.split(message, 0x20, 0x30, 0x0A, 0x0C, 1, number % 8)
    return packets


def codes():
    """Returns the codes of all replies in hexadecimal digits."""
    return bytes([*(code for *_, code in IPMI), *(code for *_, code in pldm())]).hex().upper()


def listed(name, each):
    """Returns a list of frames as Rust writes it."""
    rows = "".join(f"    &[{', '.join(f'0x{byte:02X}' for byte in frame)}],\n" for frame in each)
    return f"pub const {name}: &[&[u8]] = &[\n{rows}];\n"


def source(sample):
    """Returns what the program has of all this: the board file and the frames."""
    board = sample.replace("most = 200", "most = 1024") + MORE
    return board, listed("ON_IPMB", ipmb_frames()) + listed("ON_SMBUS", smbus_frames())
