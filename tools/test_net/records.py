"""Boards by a seed, and a reader of all their records that plans set."""
import random

from .plans import IPMB, KINDS, SMBUS, Step, listed

# The sample board's Asset, which may be longer here: its Gets and Sets go in parts.
ASSET, MOST_ASSET = 1, 1000
# The operations of a Get in parts, and the flags of a first part, and of one behind which none comes.
NEXT_PART, FIRST_PART = 0, 1
LAST_PARTS = (4, 5)
# How much of a record a fault shows, in digits.
BRIEF = 40
# How a Get of an attribute is answered in one part.
WHOLE = bytes([0, 0, 0, 0, 0, 5])
BOARD = """tid = {tid}
clock = 0
log = 4
enables = {enables}
policy = {policy}
users = ["", "{user}"]
watchdog = [0, 0, 0, 0]
sdr = []
boot3 = 0
boot4 = 0
boot5 = [0, 0, 0, 0, 0]

[device]
id = 0x20
revision = 1
major = 1
minor = 0x05
support = 0x07
manufacturer = 0xABCD
product = 0x1234

[[sensor]]
number = 5
type = 1
readable = 0x3F
settable = 0x3F
thresholds = {thresholds}
hysteresis = {hysteresis}
supported = 0xFFF
flags = {flags}
assert = {asserted}
deassert = {deasserted}

[[attribute]]
name = "Quiet"
kind = "enumeration"
values = ["off", "on"]
default = [0]
current = [{quiet}]
readonly = false

[[attribute]]
name = "Asset"
kind = "string"
string_type = 1
least = 0
most = {most}
default = ""
current = "{asset}"
readonly = false

[[attribute]]
name = "Delay"
kind = "integer"
lower = 0
upper = 300
increment = 10
default = 30
current = {delay}
readonly = false
"""
# The thresholds of a board: beside those that plans set each is in order, whichever of them a plan sets.
THRESHOLDS = [(0x14, 0x30), (0x0A, 0x0F), (0x05, 0x07), (0x31, 0x3F), (0x5F, 0x60), (0x6E, 0xFF)]


def board_by(draw):
    """Returns the text of a board."""

    def word(most):
        return "".join(draw.choice("klmnop") for _ in range(draw.randint(0, most)))

    numbers = {name: draw.randrange(below) for name, below in [("tid", 256), ("policy", 3), ("asserted", 4096), ("deasserted", 4096), ("quiet", 2)]}
    return BOARD.format(
        **numbers,
        most=MOST_ASSET,
        enables=draw.randrange(256) & 0xEF,
        user=word(16),
        thresholds=listed(draw.randint(*it) for it in THRESHOLDS),
        hysteresis=listed(draw.randint(0, 2) for _ in range(2)),
        flags=draw.choice([0, 0x40, 0x80, 0xC0]),
        asset=word(200),
        delay=10 * draw.choice([3, 5, 17, 30]),
    )


def long_asset(draw):
    """Returns a step that sets the Asset in parts."""
    text = "y" * draw.randint(206, MOST_ASSET)
    entry = len(text).to_bytes(2, "little") + text.encode()
    return Step(f'kind = "bios-attribute"\nhandle = {ASSET}\ntext = "{text}"\n', get_of(ASSET), lambda shown: shown[: len(WHOLE) + 3] + entry)


def get_of(handle):
    """Returns the Get of an attribute, by its first part."""
    return SMBUS, (0x03, 0x08, bytes([0, 0, 0, 0, FIRST_PART, handle, 0]))


def gets_of_kinds():
    """Returns the Get of each record that a plan may set."""
    draw = random.Random(0)
    return list(dict.fromkeys(draw.choice(KINDS)(draw).get for _ in range(200)))


GETS = gets_of_kinds()


def read_record(asker, get):
    """Returns what a Get answers: of an attribute that comes in parts, as if it came in one."""
    bus, words = get
    reply = asker.get(bus, words)
    if bus == IPMB or reply[5] in LAST_PARTS:
        return reply
    kind, command, asked = words
    whole = reply[6:]
    while reply[5] not in LAST_PARTS:
        reply = asker.get(bus, (kind, command, reply[1:5] + bytes([NEXT_PART]) + asked[5:]))
        whole += reply[6:]
    return WHOLE + whole


def read_records(asker):
    """Returns what all records are, by their Gets."""
    return {get: read_record(asker, get).hex() for get in GETS}


def brief(text):
    """Returns the beginning of a text that is long, and how long it is."""
    return text if len(text) <= BRIEF else f"{text[:BRIEF]}.. ({len(text)})"


def differences(shown, wanted):
    """Returns the records that are others than they have to be: each as it is, and as it has to be."""
    return {get: (brief(shown[get]), brief(wanted[get])) for get in wanted if shown[get] != wanted[get]}
