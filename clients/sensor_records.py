"""Sensor data records of sensors with thresholds: full records of IPMI 2.0 (its section 43.1), and how a reading is a byte."""
import collections
import fractions

KINDS = {"temperature": 0x01, "voltage": 0x02, "current": 0x03, "fan": 0x04, "other": 0x0B}
UNITS = {"degrees-C": 1, "degrees-F": 2, "degrees-K": 3, "volts": 4, "amps": 5, "watts": 6, "rpm": 18}
ENTITIES = {"processor": 0x03, "board": 0x07, "memory": 0x08, "power-supply": 0x0A, "fan": 0x1D, "inlet": 0x37}
# The thresholds in the order of a board file.
THRESHOLDS = ("lnc", "lc", "lnr", "unc", "uc", "unr")
MOST_NAME = 16
MOST_RAW = 255
FULL = 0x01
VERSION = 0x51
# Bytes before the name, of which the first five aren't counted in a record's length.
HEAD = 48

Factors = collections.namedtuple("Factors", "m b b_exponent exponent")
Factors.__doc__ = "A reading x is (m x + b 10^b_exponent) 10^exponent in its unit."

Sensor = collections.namedtuple("Sensor", "number name kind unit entity instance factors limits hysteresis")
Sensor.__doc__ = "A sensor: `limits` has raw thresholds by their names, and `hysteresis` is raw."


class Fault(ValueError):
    """What is wrong with a sensor."""


def nice_step(span):
    """Returns the least step of 1, 2 or 5 times a power of ten by which a byte spans so much."""
    exponent = -8
    while True:
        for digit in (1, 2, 5):
            step = digit * fractions.Fraction(10) ** exponent
            if step * MOST_RAW >= span:
                return step
        exponent += 1


def scaled(value, most):
    """Returns an integer of at most this size, and the exponent of ten by which it is the value."""
    for exponent in range(7, -9, -1):
        found = value / fractions.Fraction(10) ** exponent
        if found.denominator == 1 and abs(found) <= most:
            return int(found), exponent
    raise Fault(f"{float(value):g} has too many digits for a record")


def factors_of(low, high, step=None):
    """Returns the factors of a sensor that reads from `low` to `high`."""
    if not low < high:
        raise Fault("the range is empty")
    step = step or nice_step(high - low)
    if step * MOST_RAW < high - low:
        raise Fault(f"a byte of steps of {float(step):g} doesn't span the range")
    m, exponent = scaled(step, 511)
    b, b_exponent = scaled(low / fractions.Fraction(10) ** exponent, 511) if low else (0, 0)
    return Factors(m, b, b_exponent, exponent)


def value_of(factors, raw):
    """Returns what a raw reading is in its unit."""
    ten = fractions.Fraction(10)
    return (factors.m * raw + factors.b * ten**factors.b_exponent) * ten**factors.exponent


def raw_of(factors, value):
    """Returns the raw reading that is exactly this value."""
    raw = (value - value_of(factors, 0)) / (value_of(factors, 1) - value_of(factors, 0))
    if raw.denominator != 1 or not 0 <= raw <= MOST_RAW:
        step = value_of(factors, 1) - value_of(factors, 0)
        least, most = value_of(factors, 0), value_of(factors, MOST_RAW)
        raise Fault(f"{float(value):g} is no reading from {float(least):g} to {float(most):g} in steps of {float(step):g}")
    return int(raw)


def mask_of(limits):
    """Returns a bit for each threshold that the sensor has."""
    return sum(1 << place for place, name in enumerate(THRESHOLDS) if name in limits)


def events_of(limits):
    """Returns a bit for each event: lower thresholds are crossed going low, upper ones going high."""
    return sum(1 << 2 * place + (place >= 3) for place, name in enumerate(THRESHOLDS) if name in limits)


def record_of(sensor, identifier):
    """Returns the bytes of a sensor's full record."""
    factors, limits = sensor.factors, sensor.limits
    lower = (mask_of(limits) & 0x07) << 12 | events_of(limits)
    upper = (mask_of(limits) >> 3) << 12 | events_of(limits)
    raw = [limits.get(name, 0) for name in ("unr", "uc", "unc", "lnr", "lc", "lnc")]
    name = sensor.name.encode("ascii")
    body = [
        *(0x20, 0x00, sensor.number, ENTITIES[sensor.entity], sensor.instance),
        # It is scanned and makes events at once; events are armed anew by themselves; hysteresis and thresholds can be set.
        *(0x7F, 0x68, KINDS[sensor.kind], 0x01),
        *(lower & 0xFF, lower >> 8, upper & 0xFF, upper >> 8, mask_of(limits), mask_of(limits)),
        *(0x00, UNITS[sensor.unit], 0x00, 0x00),
        *(factors.m & 0xFF, factors.m >> 8 << 6 & 0xC0, factors.b & 0xFF, factors.b >> 8 << 6 & 0xC0, 0x00),
        *((factors.exponent & 0x0F) << 4 | factors.b_exponent & 0x0F, 0x00, 0x00, 0x00, 0x00, MOST_RAW, 0x00),
        *(*raw, sensor.hysteresis, sensor.hysteresis, 0x00, 0x00, 0x00, 0xC0 | len(name)),
        *name,
    ]
    return identifier.to_bytes(2, "little") + bytes([VERSION, FULL, len(body)]) + bytes(body)


def signed(value, bits):
    return value - (1 << bits) if value >> bits - 1 else value


def read_record(record):
    """Returns a full record's sensor number, kind, name, factors, and raw thresholds by their names; None of another record."""
    if len(record) < HEAD or record[3] != FULL:
        return None
    m = signed(record[24] | record[25] >> 6 << 8, 10)
    b = signed(record[26] | record[27] >> 6 << 8, 10)
    factors = Factors(m, b, signed(record[29] & 0x0F, 4), signed(record[29] >> 4, 4))
    raw = dict(zip(("unr", "uc", "unc", "lnr", "lc", "lnc"), record[36:42]))
    limits = {name: raw[name] for place, name in enumerate(THRESHOLDS) if record[18] >> place & 1}
    return record[7], record[12], record[HEAD : HEAD + (record[HEAD - 1] & 0x1F)].decode("latin-1"), factors, limits
