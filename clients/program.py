"""What the programs beside this file share with `bmclab` and `bmcnet`: how words are refused, statuses, and ports of this host."""
import argparse
import math
import re
import select
import signal
import socket
import sys

REFUSED_WORDS = 2
REFUSED_FILE = 3
NO_LINK = 4
NOT_WRITTEN = 6

LOOPBACK = "127.0.0.1"
# The most bytes of a datagram that is read: more than any frame or packet has.
MOST_READ = 2048


def ready_of(files, seconds):
    """Returns those of these sockets and pipes to which something came, or none where nothing does within so many seconds. However many files are
    open, each may be one of them, which `select` doesn't allow."""
    numbered = {file.fileno(): file for file in files}
    poll = select.poll()
    for number in numbered:
        poll.register(number, select.POLLIN)
    return [numbered[number] for number, _ in poll.poll(math.ceil(1000 * max(0.0, seconds)))]


class Words(argparse.ArgumentParser):
    """A reader of words that refuses them, and a request for help, with status 2 and on standard error."""

    def __init__(self, **given):
        super().__init__(formatter_class=argparse.RawDescriptionHelpFormatter, allow_abbrev=False, **given)

    def option(self, word, metavar, about, **given):
        """Adds an option that comes at most once."""
        self.add_argument(word, metavar=metavar, help=about, action=Once, **given)

    def print_help(self, file=None):
        super().print_help(sys.stderr)
        sys.exit(REFUSED_WORDS)

    def error(self, message):
        usage = self.format_usage().rstrip().replace("usage:", "Usage:", 1)
        print(f"error: {message}\n\n{usage}\n\nFor more information, try '--help'.", file=sys.stderr)
        sys.exit(REFUSED_WORDS)


class Once(argparse.Action):
    """An option that comes at most once."""

    def __call__(self, parser, space, value, option=None):
        given = self.__dict__.setdefault("given", False)
        if given:
            parser.error(f"the argument '{option}' cannot be used multiple times")
        self.given = True
        setattr(space, self.dest, value)


def number_to(most, least=0):
    """Returns a reader of decimal numbers in this range."""

    def read(word):
        if not re.fullmatch(r"[0-9]{1,18}", word) or not least <= int(word) <= most:
            raise argparse.ArgumentTypeError(f"{word!r} is no number from {least} to {most}")
        return int(word)

    return read


port_number = number_to(65535)


def end(name, status, text):
    """Says why the program ends, and ends it."""
    print(f"{name}: {text}", file=sys.stderr, flush=True)
    sys.exit(status)


def bound(name, address, port):
    """Returns a socket of UDP that is bound there, or ends the program."""
    try:
        made = socket.socket(socket.AF_INET, socket.SOCK_DGRAM)
        made.bind((address, port))
        return made
    except OSError as fault:
        return end(name, NO_LINK, f"{address}:{port} can't be bound: {fault.strerror or fault}")


def joined(name, address, port):
    """Returns a socket of UDP that speaks to that address alone, or ends the program."""
    try:
        made = socket.socket(socket.AF_INET, socket.SOCK_DGRAM)
        made.connect((address, port))
        return made
    except OSError as fault:
        return end(name, NO_LINK, f"{address}:{port} can't be reached: {fault.strerror or fault}")


def run(main):
    """Runs a program until its end or until it is told to end, with the status that a shell gives then."""
    signal.signal(signal.SIGTERM, lambda *_: sys.exit(128 + signal.SIGTERM))
    try:
        sys.exit(main())
    except KeyboardInterrupt:
        sys.exit(128 + signal.SIGINT)
    except BrokenPipeError:
        sys.stderr.close()
        sys.exit(NOT_WRITTEN)
