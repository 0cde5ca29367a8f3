"""The rule for repeated requests on IPMB: what a requester asked is kept by its number, so that a repeat is known and isn't carried out again."""
from frames import FORGOTTEN, NUMBERS

MOST_REQUESTERS = 8


class Entry:
    """A request that is kept: its bytes, and its reply once there is one."""

    def __init__(self, asked):
        self.asked = asked
        self.reply = None


class Window:
    """The requests of one requester. A new one takes the place of what was kept at its number, and the next 32 numbers are forgotten."""

    def __init__(self):
        self.kept = {}

    def find(self, number, asked):
        """Returns what is kept of this very request, or None where it is new."""
        entry = self.kept.get(number)
        return entry if entry and entry.asked == asked else None

    def keep(self, number, entry):
        """Keeps a new request."""
        for step in range(1, FORGOTTEN + 1):
            self.forget((number + step) % NUMBERS)
        self.kept[number] = entry
        return entry

    def forget(self, number):
        """Forgets what is kept at this number."""
        self.kept.pop(number, None)


class Windows:
    """The windows of the requesters that a port serves, eight at most."""

    def __init__(self):
        self.of = {}

    def window(self, requester):
        """Returns the requester's window, or None where eight others have one."""
        if requester not in self.of and len(self.of) == MOST_REQUESTERS:
            return None
        return self.of.setdefault(requester, Window())
