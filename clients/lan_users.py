"""The users of a bridge over LAN: a file with a line for each, `NAME PASSWORD [LEVEL]`."""
import collections
import os
import stat

from lan_channel import ADMINISTRATOR, LEVELS

# The most bytes of a name and of a password in IPMI 2.0.
MOST_NAME = 16
MOST_PASSWORD = 20

User = collections.namedtuple("User", "password limit")
User.__doc__ = "A user's password, and the highest privilege level that a session of the user has."


class Fault(ValueError):
    """What is wrong with a users file."""


def user_in(words):
    """Returns the name and the user of a line's words."""
    if not 2 <= len(words) <= 3:
        raise Fault("isn't NAME PASSWORD [LEVEL]")
    name, password, level = [*words, "administrator"][:3]
    for what, text, most in (("name", name, MOST_NAME), ("password", password, MOST_PASSWORD)):
        if len(text.encode()) > most:
            raise Fault(f"has a {what} of over {most} bytes")
    if level not in LEVELS:
        raise Fault(f"has the level {level!r}, and not one of {', '.join(LEVELS)}")
    return name, User(password, LEVELS.get(level, ADMINISTRATOR))


def users_in(text):
    """Returns the users by their names; a line that begins with # says nothing."""
    users = {}
    for place, line in enumerate(text.splitlines(), 1):
        if not line.strip() or line.startswith("#"):
            continue
        try:
            name, user = user_in(line.split())
        except Fault as fault:
            raise Fault(f"line {place} {fault}") from fault
        if name in users:
            raise Fault(f"line {place} names {name!r} again")
        users[name] = user
    if not users:
        raise Fault("names no user")
    return users


def read_users(path):
    """Returns the users of a file that nobody but its owner may read."""
    try:
        with open(path, encoding="utf-8") as file:
            mode = stat.S_IMODE(os.fstat(file.fileno()).st_mode)
            text = file.read()
    except (OSError, UnicodeDecodeError) as fault:
        raise Fault("can't be read") from fault
    if mode & 0o077:
        raise Fault(f"has the mode {mode:04o}, and 0600 is asked for, since it has passwords")
    return users_in(text)
