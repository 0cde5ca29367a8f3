"""Calls of the program `bmcnet`, and what each of its ends is to a task."""
import collections
import json

# What `bmcnet` ends with.
DONE, REFUSED_WORDS, REFUSED_FILE, NO_PORT, NO_MEMORY, NO_STREAM = 0, 2, 3, 4, 5, 6
HALTED, NO_ANSWER, UNDO_REFUSED = 10, 11, 12
# What a shell adds to the number of the signal that ended a call.
BY_SIGNAL = 128

# What a status says where no object does.
STATUSES = {
    REFUSED_WORDS: "the words were refused",
    REFUSED_FILE: "a file was refused",
    NO_PORT: "no socket can be had",
    NO_MEMORY: "memory was refused",
    NO_STREAM: "what it says couldn't be written",
    HALTED: "the plan halted",
    NO_ANSWER: "a request has no answer",
    UNDO_REFUSED: "the controller refused to take a step back",
}
# What an outcome says of FILE, which the program's word alone doesn't.
OUTCOMES = {
    "held": "held: another call has FILE, or its lock can't be made",
    "occupied": "occupied: FILE has something to take back, or is another's",
    "unmade": "unmade: FILE can't be written, and nothing was sent",
    "unkept": "unkept: FILE can't be written any more",
}
# What a text that is kept at FILE is.
ABSENT, JOURNAL, LIST, EMPTY, OTHER = "absent", "journal", "list", "empty", "other"

REACH = {
    "p0": {"type": "int", "required": True},
    "p1": {"type": "int"},
    "wait": {"type": "int"},
    "again": {"type": "int"},
    "program": {"type": "path", "default": "bmcnet"},
}

Said = collections.namedtuple("Said", "status objects errors")
Said.__doc__ = "How a call ended: its status, the objects that it printed, and its lines on standard error."


def reach_of(params):
    """Returns the options and the words that say where the controller is."""
    options = [word for name in ("wait", "again") if params[name] is not None for word in (f"--{name}", str(params[name]))]
    return options, [str(params[name]) for name in ("p0", "p1") if params[name] is not None]


def objects_of(text):
    """Returns the objects of these lines; a line that is none is left out."""
    found = []
    for line in text.splitlines():
        try:
            found.append(json.loads(line))
        except ValueError:
            continue
    return [it for it in found if isinstance(it, dict)]


def call(module, task, file, *options, **others):
    """Calls the program for a file, with `--json` unless `is_text`, and returns what it said."""
    reach, ports = reach_of(module.params)
    is_text = others.get("is_text", False)
    words = [module.params["program"], task, *options, *reach, *([] if is_text else ["--json"]), *([file] if file else []), *ports]
    status, out, errors = module.run_command(words, handle_exceptions=False)
    return Said(status, [out] if is_text else objects_of(out), errors.splitlines())


def counted(number, noun):
    return f"{number} {noun}{'' if number == 1 else 's'}"


def of_code(told):
    """Returns the code by which something was refused, in words."""
    if "code" not in told:
        return ""
    return f" ({told['code']:02X}h{', ' + told['meaning'] if told.get('meaning') else ''})"


def doubts_of(told):
    """Returns what the object of a call leaves in doubt or undone, a text each."""
    found = []
    stop, refused, waits = told.get("stop"), told.get("refused"), told.get("open")
    if stop:
        found.append(f"step {stop['step']}, {stop.get('record', 'its record')}: {stop['why']}{of_code(stop)}")
    if refused:
        found.append(f"what takes step {refused['step']} back is refused{of_code(refused)}: {refused.get('undo', 'its record')}")
    if waits:
        found.append(f"the {waits['request']} of step {waits['step']} has no answer")
    found.extend(f"{it['record']}: {it['why']}" for it in told.get("records", ()))
    if told.get("bus"):
        found.append(f"{told['outcome']} on {told['bus']}")
    if told.get("outcome") == "get unanswered":
        found.append(f"the get of step {told['step']}, {told['record']}, has no answer")
    # Of a file, a text or a port that is refused a list of lines says why.
    found.extend(told["why"] if isinstance(told.get("why"), list) else ())
    return found


def is_killed(said):
    """Returns whether a call was ended by a signal, here or below a shell."""
    return said.status < 0 or said.status > BY_SIGNAL


def failure_of(said):
    """Returns why a call failed, in a sentence: what is in doubt, and what to call."""
    told = said.objects[-1] if said.objects else {}
    if is_killed(said):
        what = f"it was ended by signal {-said.status if said.status < 0 else said.status - BY_SIGNAL}"
    else:
        word = told.get("outcome")
        what = OUTCOMES.get(word, word) or STATUSES.get(said.status, f"status {said.status}")
    parts = [what, *doubts_of(told), *(said.errors if not told else [])]
    if told.get("stands"):
        parts.append(f"{counted(told['stands'], 'step')} of it stand{'s' if told['stands'] == 1 else ''}")
    return "; ".join(parts) + (f"; to call: {told['next']}" if told.get("next") else "")


def standing_of(file):
    """Returns what is kept at FILE. A text that isn't whole is another's."""
    try:
        with open(file, encoding="utf-8") as kept:
            lines = kept.read().splitlines()
    except FileNotFoundError:
        return ABSENT
    except UnicodeDecodeError:
        return OTHER
    if lines[:1] == ["journal 1"]:
        return JOURNAL
    if lines[:1] in (["undo 1"], ["undo 2"]):
        return LIST if any(line.startswith(("ipmb ", "smbus ")) for line in lines) else EMPTY
    return OTHER
