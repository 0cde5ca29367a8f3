"""What prints as `ipmitool .. raw`, of a served board: so controller-bridge has a real controller's place taken.

usage: raw.py P0 SECRET WORDS..

WORDS are those of ipmitool, up to `raw` and the bytes behind it. The file behind -f has to hold the secret of the file SECRET; else it ends with 1.
"""
import os
import sys

if __name__ == "__main__":
    sys.dont_write_bytecode = True
    TOP = os.path.dirname(os.path.dirname(os.path.dirname(os.path.realpath(__file__))))
    sys.path[:0] = [f"{TOP}/tools", f"{TOP}/clients"]
import frames
from test_net.servers import Asker, read

# Behind the address of the manager, and so that requests of one call after another aren't taken for repeats.
SOURCE = 0x4A
# Get Device ID, with data that every board refuses.
GREETING = 0x06, 0x01, frames.GREETING


def main(port, secret, *words):
    if "-f" in words and read(words[words.index("-f") + 1]) != read(secret):
        return 1
    net_fn, command, *data = (int(word, 16) for word in words[words.index("raw") + 1 :])
    with Asker((int(port),), SOURCE) as asker:
        # A greeting makes the board forget what it kept of the call before.
        for number in frames.GREETING_NUMBERS:
            asker.asked[0] = number
            asker.ask(0, asker.ipmb(*GREETING))
        reply = asker.ask(0, asker.ipmb(net_fn, command, bytes(data)))
    if reply[0]:
        print(f"Unable to send RAW command (channel=0x0 netfn=0x{net_fn:x} lun=0x0 cmd=0x{command:x} rsp=0x{reply[0]:x})", file=sys.stderr)
        return 1
    print("".join(f" {byte:02x}" for byte in reply[1:]))
    return 0


if __name__ == "__main__" and len(sys.argv) > 3:
    sys.exit(main(*sys.argv[1:]))
