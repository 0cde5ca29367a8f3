"""Plans by a seed, over both buses, for the sample board: each changes records, and a Get shows each of them."""
import collections
import random

IPMB, SMBUS = 0, 1

Step = collections.namedtuple("Step", "text get makes", defaults=(None,))
Step.__doc__ = """A step of a plan, the Get of its record: a bus, and the words of an `Asker`'s request there; and what the step makes of that Get's reply, the
code and the data."""

# The places of the thresholds in the reply of Get Sensor Thresholds.
THRESHOLD_AT = {"lnc": 2, "lc": 3, "lnr": 4, "unc": 5, "uc": 6, "unr": 7}
# Where an attribute's value begins in the reply of its Get: behind the code, the next handle, the part, the attribute's handle and its type.
VALUE_AT = 9


def listed(numbers):
    return "[" + ", ".join(map(str, numbers)) + "]"


def bits_of(numbers):
    """Returns the two bytes in which these bits are set, the low one first."""
    return sum(1 << number for number in set(numbers)).to_bytes(2, "little")


def replaced(shown, at, part):
    """Returns what is shown with this part in its place."""
    return shown[:at] + part + shown[at + len(part) :]


def thresholds(draw):
    # The sample board's are 14h, 0Ah, 05h, 50h, 5Fh and 6Eh; these are others, and stay in order with any of those.
    ranges = {"lnc": (0x10, 0x13), "lc": (0x08, 0x09), "lnr": (0x01, 0x04), "unc": (0x40, 0x4F), "uc": (0x52, 0x5E), "unr": (0x61, 0x6D)}
    names = draw.sample(sorted(ranges), draw.randint(1, 3))
    values = {name: draw.randint(*ranges[name]) for name in names}
    fields = "".join(f"{name} = {value}\n" for name, value in values.items())

    def makes(shown):
        made = bytearray(shown)
        for name, value in values.items():
            made[THRESHOLD_AT[name]] = value
        return bytes(made)

    return Step(f'kind = "thresholds"\nsensor = 5\n{fields}', (IPMB, (0x04, 0x27, b"\x05")), makes)


def hysteresis(draw):
    positive, negative = draw.randint(3, 9), draw.randint(3, 9)
    fields = f"positive = {positive}\nnegative = {negative}\n"
    return Step(f'kind = "hysteresis"\nsensor = 5\n{fields}', (IPMB, (0x04, 0x25, b"\x05\xff")), lambda shown: replaced(shown, 1, bytes([positive, negative])))


def event_enable(draw):
    chosen = draw.sample([1, 3, 7, 11], draw.randint(1, 4))
    fields = f'messages = true\nscanning = true\nselect = "enable"\nassert = {listed(chosen)}\ndeassert = {listed(chosen)}\n'

    def makes(shown):
        events = bytes(old | new for old, new in zip(shown[2:6], 2 * bits_of(chosen)))
        return replaced(shown, 1, bytes([shown[1] | 0xC0]) + events)

    return Step(f'kind = "event-enable"\nsensor = 5\n{fields}', (IPMB, (0x04, 0x29, b"\x05")), makes)


def power_policy(draw):
    policy = draw.choice([0, 2])
    return Step(f'kind = "power-policy"\npolicy = {policy}\n', (IPMB, (0x00, 0x01)), lambda shown: replaced(shown, 1, bytes([shown[1] & 0x9F | policy << 5])))


def global_enables(draw):
    value = draw.choice([0, 1, 2, 9, 10])
    return Step(f'kind = "global-enables"\nvalue = {value}\n', (IPMB, (0x06, 0x2F)), lambda shown: replaced(shown, 1, bytes([value])))


def user_name(draw):
    name = "".join(draw.choice("bcdefgh") for _ in range(draw.randint(1, 16)))
    return Step(f'kind = "user-name"\nuser = 2\nname = "{name}"\n', (IPMB, (0x06, 0x46, b"\x02")), lambda shown: shown[:1] + name.encode().ljust(16, b"\0"))


def attribute(draw):
    handle = draw.randrange(3)
    text, number = "x" * draw.randint(1, 200), 10 * draw.choice([0, 1, 2, 4, 29])
    value = ["indexes = [1]", f'text = "{text}"', f"number = {number}"][handle]
    shows = [bytes([1, 1]), len(text).to_bytes(2, "little") + text.encode(), number.to_bytes(8, "little")][handle]
    # GetBIOSAttributeCurrentValueByHandle: no transfer handle, the first part, the attribute's handle.
    get = SMBUS, (0x03, 0x08, bytes([0, 0, 0, 0, 1, handle, 0]))
    return Step(f'kind = "bios-attribute"\nhandle = {handle}\n{value}\n', get, lambda shown: shown[:VALUE_AT] + shows)


KINDS = [thresholds, hysteresis, event_enable, power_policy, global_enables, user_name, attribute, attribute]


def steps_by(seed, least, most):
    draw = random.Random(seed)
    return [draw.choice(KINDS)(draw) for _ in range(draw.randint(least, most))]


def text_of(steps, retries):
    return f"retries = {retries}\n" + "".join(f"\n[[step]]\n{step.text}" for step in steps)
