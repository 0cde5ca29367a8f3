"""The same commands of ipmitool on a served board and on OpenIPMI's simulator: examples/clients.md says which answer."""
import shlex

from .clients import authenticated, bridged, lanplus_words
from .page import code_in, rows_of
from .programs import called
from .simulator import simulator

BOARD = "examples/server.toml"
HEADING = "The same commands here and on `ipmi_sim`"
ANSWERS = "yes"


def is_answered(words, room):
    """Returns whether a command is answered, and nothing in what it prints says that some of it failed."""
    status, text = called(words, room)
    return status == 0 and "failed" not in text and "not present" not in text, text


def test_both(tests, bmcnet, room):
    if not all([tests.part(name) for name in ("ipmitool", "pyghmi", "ipmi_sim")]):
        return
    ipmi_sim = tests.part("ipmi_sim")
    rows = [(shlex.split(code_in(command)[0]), here, there) for command, here, there in rows_of(HEADING)]
    with simulator(ipmi_sim, room) as ask, bridged(bmcnet, BOARD, authenticated(room)) as port:
        for command, here, there in rows:
            for what, words, wanted in (("here", lanplus_words(port, command), here), ("ipmi_sim", [*ask[:-1], *command], there)):
                found, text = is_answered(words, room)
                tests.expect(found == (wanted == ANSWERS), f"{what}: {shlex.join(command)} is said {wanted}, and prints {text}")
