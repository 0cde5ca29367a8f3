"""`show`: a controller's records as plans, which set each to what it is; what no plan says; and ends without a plan. `apply` takes a plan as strictly as
`bmclab check`."""
import json
import os
import re
import socket
import subprocess
import tomllib

from lossy_link import Link

from . import servers
from .applies import LONG_WAIT, RETRIES, SERVED_TURNS, SHORT_WAIT, apply
from .controllers import AGAIN, GET_THRESHOLDS, LINK_WAIT, Troubled
from .greetings import ON_IPMB, requests_at
from .plans import IPMB, SMBUS
from .previews import counts, preview
from .servers import HOST, TOP, Server, call, expect

ONE_OF_EACH, SERVER_BOARD = f"{TOP}/examples/one_of_each.toml", f"{TOP}/examples/server.toml"
# A process that may have so many files gets no socket.
FEW_FILES = 4
# How long a Get that isn't answered is waited for each time, in milliseconds: long enough for one that is, on a busy machine.
SILENT_WAIT = 500
# A step of a plan behind these is in another file.
MOST_STEPS = 256
# A line that says something.
REMARK = re.compile(r"# [^\n]*\n")
# What `bmcnet show` prints of the sample board, without the lines that say a step in words. By docs/BOARD_FILES.md its watchdog has use 0, which no Set has,
# and the name of its first user can't be set (IPMI 2.0, 22.28); sensor 7 has the thresholds 3 and 4 of readable 18h alone.
SAMPLE = """
[[step]]
kind = "power-policy"
policy = 1

[[step]]
kind = "global-enables"
value = 0x08

[[step]]
kind = "boot-param"
param = 3
invalid = false
data = [0]

[[step]]
kind = "boot-param"
param = 4
invalid = false
data = [255, 0]

[[step]]
kind = "boot-param"
param = 5
invalid = false
data = [0, 0, 0, 0, 0]

[[step]]
kind = "thresholds"
sensor = 5
lnc = 0x14
lc = 0x0A
lnr = 0x05
unc = 0x50
uc = 0x5F
unr = 0x6E

[[step]]
kind = "hysteresis"
sensor = 5
positive = 2
negative = 2

[[step]]
kind = "event-enable"
sensor = 5
messages = true
scanning = true
select = "enable"
assert = [9]
deassert = []

[[step]]
kind = "thresholds"
sensor = 7
unc = 0x90
uc = 0xA0

[[step]]
kind = "hysteresis"
sensor = 7
positive = 0
negative = 0

[[step]]
kind = "event-enable"
sensor = 7
messages = false
scanning = false
select = "enable"
assert = []
deassert = []

[[step]]
kind = "channel-access"
channel = 1
store = "non-volatile"
access = 2
limit = 4

[[step]]
kind = "channel-access"
channel = 1
store = "volatile"
access = 2
limit = 4

[[step]]
kind = "user-access"
channel = 1
user = 1
limit = 4
callback = false
link = false
messaging = true

[[step]]
kind = "user-access"
channel = 1
user = 2
limit = 4
callback = false
link = false
messaging = true

[[step]]
kind = "user-name"
user = 2
name = "admin"

[[step]]
kind = "bios-attribute"
handle = 0
indexes = [0]

[[step]]
kind = "bios-attribute"
handle = 1
text = "rack-1"

[[step]]
kind = "bios-attribute"
handle = 2
number = 30
"""
SAMPLE_REMARKS = """
# watchdog timer: no request brings back what its Get shows
# user 1 name: no request sets the first user's name
"""
# How many records of the sample board are in its plan with SMBus and without, and how many there are remarks on.
SAMPLE_RECORDS, SAMPLE_ON_IPMB, SAMPLE_REMARKED = 19, 16, 2


def show(program, ports, *options, wait=LONG_WAIT):
    return call(program, "show", "--wait", wait, *options, *ports)


def said(records, plans, remarks):
    """Returns the sentence about so many."""
    counted = [(records, "record"), (plans, "plan"), (remarks, "remark")]
    one, two, three = (f"{count} {name}{'' if count == 1 else 's'}" for count, name in counted)
    return f"{one} in {two}, {three}\n"


def steps_in(text):
    return tomllib.loads(text)["step"]


def changes_nothing(program, ports, plan):
    """A preview of the plan says `same` of each step."""
    steps = len(steps_in(servers.read(plan)))
    status, out, err = preview(program, ports, plan)
    told = [line.split(": ")[1] for line in out.split("\n")[:-2]]
    expect("preview", (status, told, out.split("\n")[-2] + "\n", err), (0, steps * ["same"], counts(0, steps, 0), ""))


def spoken(text):
    """Returns the lines of remark in front of a plan's steps, and behind them, and its steps without those that say one in words."""
    front, body = text.split("\n\n", 1)
    end = body.find("\n\n", body.rindex("[[step]]"))
    body, behind = (body[: end + 1], body[end + 1 :]) if end >= 0 else (body, "")
    return front, "\n" + REMARK.sub("", body), behind


def as_it_is(program, folder, board):
    """The sample board: its whole plan; previewed and applied on the same controller it changes nothing."""
    with Server(program, board, SERVED_TURNS) as server:
        status, out, err = show(program, server.ports)
        expect("show", (status, err), (0, said(SAMPLE_RECORDS, 1, SAMPLE_REMARKED)))
        front, steps, behind = spoken(out)
        expect("the head", front.split("\n")[0], "# What a controller's records were set to, 19 records. Of a sensor's events those are enabled that")
        expect("the steps", steps, SAMPLE)
        expect("the remarks", behind, SAMPLE_REMARKS)
        plan = servers.write(f"{folder}/shown.toml", out)
        changes_nothing(program, server.ports, plan)
        expect("apply", apply(program, server.ports, plan)[0], 0)
        status, out, err = server.ended()
        expect("serve", (status, out.split("\n")[1:], err), (0, ["records same", ""], ""))


def on_ipmb_alone(program, folder, board):
    """Without P1 nothing is read on SMBus, and effecters can't be asked for. Words that name no effecters are refused."""
    with Server(program, board, SERVED_TURNS) as server:
        ipmb = server.ports[:1]
        status, out, err = show(program, ipmb)
        expect("show", (status, err), (0, said(SAMPLE_ON_IPMB, 1, SAMPLE_REMARKED)))
        expect("the steps", spoken(out)[1], SAMPLE[: SAMPLE.index('\n[[step]]\nkind = "bios-attribute"')])
        sentence = "effecters are read on smbus, and no port of smbus is given: P1; nothing was sent\n"
        expect("effecters without P1", show(program, ipmb, "--effecters", "1"), (2, "", sentence))
        for word in "", ",", "1,", ",1", "1,,2", "1-", "-1", "2-1", "1-2-3", "65536", "+1", "0x1", "1 ,2", "one":
            status, out, err = show(program, server.ports, f"--effecters={word}")
            expect(f"effecters {word!r}", (status, out, "--effecters" in err), (2, "", True))
        server.ended()


def in_objects(program, folder, board):
    """The sample board in objects: one in a line of each record, with what it is set to or why no step says that. They go to no file."""
    with Server(program, board, SERVED_TURNS) as server:
        status, out, err = show(program, server.ports, "--json")
        objects = [json.loads(line) for line in out.splitlines()]
        expect("show", (status, len(objects), err), (0, SAMPLE_RECORDS + SAMPLE_REMARKED, f"{SAMPLE_RECORDS} records, {SAMPLE_REMARKED} remarks\n"))
        expect("the first", objects[0], {"record": "power restore policy", "is": "power restore policy: previous"})
        expect("what each is", [sorted(it) for it in objects[:SAMPLE_RECORDS]], SAMPLE_RECORDS * [["is", "record"]])
        words = [line[2:] for line in show(program, server.ports)[1].splitlines() if line.startswith("# ")]
        expect("the words", [it["is"] for it in objects[:SAMPLE_RECORDS]], words[2 : 2 + SAMPLE_RECORDS])
        remarks = [f"{it['record']}: {it['remark']}" for it in objects[SAMPLE_RECORDS:]]
        expect("the remarks", remarks, [line[2:] for line in SAMPLE_REMARKS.splitlines() if line])
        sentence = "--json goes without --out: standard output gets objects, or files get plans; nothing was sent\n"
        expect("with --out", show(program, server.ports, "--json", "--out", f"{folder}/shown"), (2, "", sentence))
        expect("the files", os.listdir(folder), [])
        expect("serve", server.ended()[1].split("\n")[1], "records same")


def each_kind(program, folder):
    """A board with a record of each kind: effecters are read by their ids, and what can only be read is a remark. Previewed and applied on the same
    controller the plan changes nothing."""
    with Server(program, ONE_OF_EACH, SERVED_TURNS) as server:
        status, out, err = show(program, server.ports, "--effecters", "1,258-262,300")
        steps = steps_in(out)
        expect("show", (status, err), (0, said(len(steps), 1, 3)))
        remarks = "watchdog timer: no request brings back what its Get shows", "user 1 name: no request sets the first user's name", "attribute 1: it can only be read"
        expect("the remarks", [f"\n# {remark}\n" in out for remark in remarks], 3 * [True])
        expect("the numeric effecter", [it for it in steps if it["kind"] == "numeric-effecter"], [{"kind": "numeric-effecter", "effecter": 261, "size": 3, "value": 215}])
        expect("the state effecter", [it for it in steps if it["kind"] == "state-effecter"], [{"kind": "state-effecter", "effecter": 262, "states": [9, 2]}])
        expect("the attributes", [it["handle"] for it in steps if it["kind"] == "bios-attribute"], [0, 2])
        addresses = {it["param"]: it["data"] for it in steps if it["kind"] == "lan-param"}
        # The highest threshold of sensor 1 can be read alone, which its Get doesn't show: a step that sets it would be refused.
        out = out.replace("unr = 0x80\n", "")
        expect("LAN", addresses, {3: [192, 0, 2, 1], 4: [1], 6: [255, 255, 255, 0], 12: [192, 0, 2, 254], 20: [0x2A, 0x81]})
        plan = servers.write(f"{folder}/shown.toml", out)
        changes_nothing(program, server.ports, plan)
        expect("apply", apply(program, server.ports, plan)[0], 0)
        expect("serve", server.ended()[1].split("\n")[1], "records same")


def a_server(program, folder):
    """The board of a server, to a file of --out: the file's name, that it isn't written over, and that the plan changes nothing."""
    with Server(program, SERVER_BOARD, SERVED_TURNS) as server:
        status, out, err = show(program, server.ports, "--out", f"{folder}/backup")
        plan = f"{folder}/backup.toml"
        shown = servers.read(plan)
        expect("show", (status, out, err.startswith(f"{len(steps_in(shown))} records in 1 plan, ")), (0, "", True))
        expect("the files", sorted(os.listdir(folder)), ["backup.toml"])
        sentence = f"{plan} is there, and isn't written over; no file was written\n"
        expect("show again", show(program, server.ports, "--out", plan), (3, "", sentence))
        expect("the file", servers.read(plan), shown)
        status, out, err = show(program, server.ports, "--out", f"{folder}/none/backup")
        expect("a folder that isn't there", (status, out, err), (3, "", f"{folder}/none/backup.toml can't be written; no file was written\n"))
        changes_nothing(program, server.ports, plan)
        expect("apply", apply(program, server.ports, plan)[0], 0)
        expect("serve", server.ended()[1].split("\n")[1], "records same")


SENSORS, CHANNELS, USERS, ATTRIBUTES, EFFECTERS = 32, 8, 16, 64, 32


def largest():
    """Returns the text of a board with as many records as one may have."""
    users = ", ".join(f'"u{number}"' if number > 1 else '""' for number in range(1, USERS + 1))
    head, device = servers.read(servers.BOARD).split("\n[device]")[0], servers.read(servers.BOARD).split("\n[device]")[1].split("\n[[")[0]
    head = head.replace('users = ["", "admin"]', f"users = [{users}]").replace("watchdog = [0, 0, 0, 0]", "watchdog = [4, 1, 0, 900]")
    text = f"{head}\n[device]{device}\n"
    for number in range(SENSORS):
        text += f"\n[[sensor]]\nnumber = {number}\ntype = 1\nreadable = 0x3F\nsettable = 0x3F\nthresholds = [20, 10, 5, 80, 95, {110 + number}]\n"
        text += "hysteresis = [2, 2]\nsupported = 0xFFF\nflags = 0xC0\nassert = 0x200\ndeassert = 0\n"
    accesses = ", ".join(["0x14"] * USERS)
    for number in range(CHANNELS):
        text += f"\n[[channel]]\nnumber = {number}\nsessions = true\naccess = [2, 2]\nlimit = [4, 4]\nusers = [{accesses}]\n"
    for number in range(CHANNELS):
        text += f"\n[[lan]]\nchannel = {number}\nip = [192, 0, 2, {number}]\nsource = 1\nmask = [255, 255, 255, 0]\ngateway = [192, 0, 2, 254]\nvlan = [1, 0x80]\n"
    for number in range(ATTRIBUTES):
        text += f'\n[[attribute]]\nname = "A{number}"\nkind = "integer"\nlower = 0\nupper = 100\nincrement = 1\ndefault = 0\ncurrent = {number}\nreadonly = false\n'
    for number in range(EFFECTERS):
        text += f"\n[[state]]\nid = {number}\noperational = 1\nstates = [[1, 2]]\ncurrent = [2]\n"
    for number in range(EFFECTERS):
        text += f"\n[[numeric]]\nid = {100 + number}\nsize = 0\noperational = 1\nlower = 0\nupper = 100\ncurrent = {number}\n"
    return text


def two_plans(program, folder):
    """The largest board: more steps than a plan may have are in two files, of which a preview says `same` at each step. Where one of both is there, neither is written."""
    board = servers.write(f"{folder}/board.toml", largest())
    own, accesses = 6, CHANNELS * (2 + 5 + USERS)
    records = own + 3 * SENSORS + accesses + USERS - 1 + ATTRIBUTES + 2 * EFFECTERS
    with Server(program, board, SERVED_TURNS) as server:
        words = server.ports, "--effecters", "0-31,100-131", "--out"
        taken = servers.write(f"{folder}/taken-2.toml", "")
        sentence = f"{taken} is there, and isn't written over; no file was written\n"
        expect("show beside a file", show(program, *words, f"{folder}/taken"), (3, "", sentence))
        expect("its other file", os.path.exists(f"{folder}/taken-1.toml"), False)
        expect("show", show(program, *words, f"{folder}/two"), (0, "", said(records, 2, 1)))
        plans = [f"{folder}/two-1.toml", f"{folder}/two-2.toml"]
        expect("steps", [len(steps_in(servers.read(plan))) for plan in plans], [MOST_STEPS, records - MOST_STEPS])
        for plan in plans:
            changes_nothing(program, server.ports, plan)
        expect("serve", server.ended()[1].split("\n")[1], "records same")
    # One history has no room for a third show.
    with Server(program, board, SERVED_TURNS) as server:
        status, out, err = show(program, server.ports, "--effecters", "0-31,100-131")
        expect("both on standard output", (status, out, err), (0, "".join(map(servers.read, plans)), said(records, 2, 1)))
        expect("serve again", server.ended()[1].split("\n")[1], "records same")


class Falls(Link):
    """A link to a controller that answers so many requests, however often each comes, and then none."""

    def __init__(self, server, answers):
        super().__init__(server)
        self.answers = answers
        self.answered = set()

    def hear(self, seen):
        request = seen.data[4:6]
        if not seen.to_server and len(self.answered) < self.answers:
            self.answered.add(request)
        if seen.to_server or request in self.answered:
            self.hand_on(seen)


def falls_silent(program, folder, board, answers):
    """A controller falls silent: behind three Gets in a row that aren't answered reading ends, nothing is printed, and no file is written."""
    with Server(program, board, SERVED_TURNS) as server, Falls(server.ports[IPMB], ON_IPMB + answers) as link:
        sentence = "no answer to three Gets in a row; nothing is shown\n"
        expect("show", show(program, [link.port], "--out", f"{folder}/backup", wait=SILENT_WAIT), (11, "", sentence))
        expect("the files", os.listdir(folder), [])
        # Each of the three is sent four times, and the server answers it once.
        expect("serve", server.ended(), (0, f"served {ON_IPMB + answers + 3}\nrecords same\n", ""))


class Mutes(Link):
    """A link that loses the replies to the Get of sensor 5's thresholds."""

    is_muted = False

    def hear(self, seen):
        if seen.to_server:
            self.is_muted = seen.data[5:7] == bytes([GET_THRESHOLDS, 5])
        if seen.to_server or not self.is_muted:
            self.hand_on(seen)


def misses_one(program, folder, board):
    """One Get isn't answered, and those behind it are: that record is a remark, and the others are read."""
    with Server(program, board, SERVED_TURNS) as server, Mutes(server.ports[IPMB]) as link:
        status, out, err = show(program, [link.port], wait=SILENT_WAIT)
        expect("show", (status, err), (0, said(SAMPLE_ON_IPMB - 1, 1, SAMPLE_REMARKED + 1)))
        expect("the remark", "\n# sensor 5 thresholds: its Get wasn't answered\n" in out, True)
        server.ended()


def over_links(program, folder, board, seed):
    """Over links that lose, repeat and delay the plan is the same."""
    with Server(program, board, SERVED_TURNS) as server:
        direct = show(program, server.ports)
        with Troubled(IPMB, server.ports[IPMB], seed, True) as ipmb, Troubled(SMBUS, server.ports[SMBUS], seed, True) as smbus:
            expect("show", show(program, (ipmb.port, smbus.port), "--again", AGAIN, wait=LINK_WAIT), direct)
            met = ipmb.counts + smbus.counts
        expect("serve", server.ended()[1].split("\n")[1], "records same")
    return {name: met[name] for name in ("lost", "repeated", "held")}


def nobody_is_there(program, folder):
    """Nobody answers the greeting: that is said, no Get is sent, and no file is written."""
    with socket.socket(socket.AF_INET, socket.SOCK_DGRAM) as nobody:
        nobody.bind((HOST, 0))
        nobody.settimeout(0)
        port = nobody.getsockname()[1]
        sentence = f"no answer on ipmb, port {port}; nothing was read\n"
        expect("show", show(program, (port,), "--out", f"{folder}/backup", wait=SHORT_WAIT), (11, "", sentence))
        expect("the requests' numbers", [frame[4] >> 2 for frame in requests_at(nobody)], (RETRIES + 1) * [31])
        expect("the files", os.listdir(folder), [])


def sets_nothing(program, folder, board):
    """Each request that is sent is a greeting's or a Get's."""
    with Server(program, board, SERVED_TURNS) as server, Hears(server.ports[IPMB]) as link:
        expect("show", show(program, [link.port])[0], 0)
        expect("the commands", link.heard, {(0x18, 0x01), *GETS})
        server.ended()


# Get Device ID of the greeting, and each Get: the byte of its network function and LUN, and its command (IPMI 2.0, appendix G).
GETS = {(0x00, 0x01), (0x00, 0x09), (0x10, 0x27), (0x10, 0x25), (0x10, 0x29), (0x18, 0x25), (0x18, 0x2F), (0x18, 0x41), (0x18, 0x44), (0x18, 0x46), (0x30, 0x02)}


class Hears(Link):
    """A link that notes the commands of requests."""

    def __init__(self, server):
        super().__init__(server)
        self.heard = set()

    def hear(self, seen):
        if seen.to_server:
            self.heard.add((seen.data[1], seen.data[5]))
        self.hand_on(seen)


def cannot_say(program, _folder, board):
    """Without a socket the status is 4, which is said, and where standard output can't be written it is 6."""
    with Server(program, board, SERVED_TURNS) as server:
        ipmb = server.ports[IPMB]
        said = "no socket could be had; nothing was read\n"
        expect("show", call("prlimit", f"--nofile={FEW_FILES}", program, "show", ipmb), (4, "", said))
        with open("/dev/full", "w", encoding="utf-8") as full:
            ran = subprocess.run([program, "show", str(ipmb)], stdin=subprocess.DEVNULL, stdout=full, stderr=subprocess.PIPE, text=True, timeout=servers.CALL, check=False)
        expect("show to a full device", ran.returncode, 6)
        expect("serve", server.ended()[1].split("\n")[1:], ["records same", ""])


def tests(board):
    """Returns the tests of this file: the name, the function and its words."""
    return [
        ("show, the sample board", as_it_is, (board,)),
        ("show in objects", in_objects, (board,)),
        ("show on IPMB alone, and words that are refused", on_ipmb_alone, (board,)),
        ("show, each kind", each_kind, ()),
        ("show to a file, a server", a_server, ()),
        ("show to two files, the largest board", two_plans, ()),
        *((f"show of a controller that falls silent behind {answers}", falls_silent, (board, answers)) for answers in (0, 7)),
        ("show, one Get without an answer", misses_one, (board,)),
        *((f"show over links {seed}", over_links, (board, seed)) for seed in range(2)),
        ("show that nobody answers", nobody_is_there, ()),
        ("the requests of a show", sets_nothing, (board,)),
        ("a show that can't be said", cannot_say, (board,)),
    ]
