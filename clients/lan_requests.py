"""The requests within sessions over LAN, of IPMI 1.5 and of 2.0: each is carried out once, however often a client sends it.

A session has a `window` of what it asked, its privilege `level` and the `limit` of that, `is_open()`, `is_closed()` and `end()`.
"""
import collections
import struct

import frames
from lan_channel import ADMINISTRATOR, APP, BAD_DATA, CLOSE, PRIVILEGE, USER
from repeats import Entry

ABOVE_LIMIT = 0x81
NO_SESSION = 0x87

MOST_SESSIONS = 8
# Those that wait, or are closed; the oldest goes first.
MOST_OTHERS = 16
LONGEST_SILENCE = 60.0

Ask = collections.namedtuple("Ask", "session entry message")
Ask.__doc__ = "A request for the controller: `entry.reply` is None until `Sessions.kept` has it."


class Sessions:
    """The sessions of one port, by their identifiers, on a channel."""

    def __init__(self, channel):
        self.channel = channel
        self.sessions = {}

    def forget_silent(self, now):
        """Ends the sessions of which nothing was heard for a minute."""
        self.sessions = {it: session for it, session in self.sessions.items() if now - session.heard_at <= LONGEST_SILENCE}

    def count_open(self):
        """Returns how many sessions are open."""
        return sum(it.is_open() for it in self.sessions.values())

    def is_full(self):
        """Returns whether no further session can be opened."""
        return self.count_open() >= MOST_SESSIONS

    def make_room(self):
        """Lets the oldest session that isn't open go, where there are too many."""
        others = [it for it, session in self.sessions.items() if not session.is_open()]
        if len(others) >= MOST_OTHERS:
            del self.sessions[others[0]]

    def reply_or_ask(self, session, message):
        """Returns the reply to a request within a session, from what was kept or in the controller's place; else an `Ask`, or None."""
        asked = (message.net_fn, message.to_lun, message.command, message.data)
        entry = session.window.find(message.number, asked)
        if entry and entry.reply:
            return entry.reply
        if session.is_closed():
            return None
        ask = Ask(session, entry or session.window.keep(message.number, Entry(asked)), message)
        own = self.own_answer(session, message)
        return self.kept(ask, bytes([own[0]]) + own[1]) if own else ask

    def own_answer(self, session, message):
        """Returns the code and the data where the request is answered here, in the controller's place; else None."""
        command = (message.net_fn, message.command) if message.to_lun == 0 else None
        if command == (APP, PRIVILEGE):
            return set_privilege(session, message.data)
        if command == (APP, CLOSE):
            return self.close(message.data)
        if len(message.data) > frames.MOST_ASKED:
            return frames.LENGTH, b""
        return self.channel.answer(message, session.level, self.count_open())

    def close(self, data):
        """Returns the answer to Close Session, which closes the session that it names."""
        if len(data) != 4:
            return frames.LENGTH, b""
        named = self.sessions.get(struct.unpack("<I", data)[0])
        if not named or not named.is_open():
            return NO_SESSION, b""
        named.end()
        return frames.OK, b""

    def kept(self, ask, reply):
        """Keeps the reply to what was asked: the completion code, and the data. A busy controller carried nothing out, so a repeat is a new
        request then."""
        ask.entry.reply = reply
        if reply[0] == frames.BUSY and ask.session.window.find(ask.message.number, ask.entry.asked) is ask.entry:
            ask.session.window.forget(ask.message.number)
        return reply


def set_privilege(session, data):
    """Returns the answer to Set Session Privilege Level; 0 asks for the present one."""
    if len(data) != 1:
        return frames.LENGTH, b""
    level = data[0] & 0x0F
    if level and not USER <= level <= ADMINISTRATOR:
        return BAD_DATA, b""
    if level > session.limit:
        return ABOVE_LIMIT, b""
    session.level = level or session.level
    return frames.OK, bytes([session.level])
