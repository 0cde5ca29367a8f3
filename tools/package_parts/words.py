"""The words of each program, as its help has them: for completions, and compared with the helps by tools/test-package."""

# What a word is: a kind of file, one of these words, or None for what nobody can list, as a number.
BOARD, PLAN, SCHEDULE, UNDO, READINGS, LIST = "board", "plan", "schedule", "undo", "readings", "list"
FILE, COMMAND, FLAG = "file", "command", "flag"
# The endings of each kind of file.
ENDINGS = {BOARD: ("toml",), PLAN: ("toml",), SCHEDULE: ("txt",), UNDO: ("undo", "txt", "part"), READINGS: ("txt",), LIST: ("txt",), FILE: ()}
HELP = {"--help": FLAG}
BRIDGED = {"--listen": None}
# Program, command (none where the program has none): its options with what their values are, and its words in order. A last word that comes
# several times has three dots behind it.
WORDS = {
    "bmclab": {
        "frame": ({"--explain": FLAG, "--bus": ("ipmb", "smbus"), "--board": BOARD}, [("HEX", None)]),
        "ask": ({"--bus": ("ipmb", "smbus"), "--board": BOARD}, [("BYTE...", None)]),
        "play": (
            {"--frames": FLAG, "--premises": FLAG, "--chart": FLAG, "--explain": FLAG, "--list": FLAG, "--strict": FLAG, "--restart": None},
            [("BOARD", BOARD), ("PLAN", PLAN), ("SCHEDULE", SCHEDULE)],
        ),
        "schedule": (
            {"--lose": None, "--repeat": None, "--delay": None, "--others": None, "--seed": None, "--undo": FLAG},
            [("BOARD", BOARD), ("PLAN", PLAN)],
        ),
        "check": ({"--as": ("board", "plan", "undo", "journal", "readings", "schedule"), "--against": BOARD}, [("FILE...", FILE)]),
        "version": ({}, []),
    },
    "bmcnet": {
        "serve": (
            {
                "--wait": None,
                "--periods": FLAG,
                "--quiet": None,
                "--forget": None,
                "--readings": READINGS,
                "--repeat-readings": FLAG,
                "--clock": FLAG,
                "--strict": FLAG,
                "--list": FLAG,
            },
            [("BOARD", BOARD), ("P0", None), ("P1", None), ("TURNS", None)],
        ),
        "run": ({"--wait": None, "--again": None, "--forget": None, "--greet": FLAG, "--replace": FLAG, "--strict": FLAG}, [("PLAN", PLAN), ("P0", None), ("P1", None), ("TURNS", None), ("UNDO", UNDO)]),
        "undo": ({"--wait": None, "--greet": FLAG, "--strict": FLAG}, [("UNDO", UNDO), ("P0", None), ("P1", None), ("TURNS", None)]),
        "pair": ({"--strict": FLAG, "--list": FLAG}, [("BOARD", BOARD), ("PLAN", PLAN), ("TURNS", None)]),
        "apply": (
            {"--undo": UNDO, "--replace": FLAG, "--only-changes": FLAG, "--all-or-none": FLAG, "--wait": None, "--again": None, "--json": FLAG},
            # A last word P1 may be left out, so it is none of these.
            [("PLAN", PLAN), ("P0", None)],
        ),
        "revert": ({"--preview": FLAG, "--wait": None, "--again": None, "--json": FLAG}, [("FILE", UNDO), ("P0", None)]),
        "preview": ({"--wait": None, "--again": None, "--json": FLAG}, [("PLAN", PLAN), ("P0", None)]),
        "show": ({"--wait": None, "--again": None, "--effecters": None, "--out": FILE, "--json": FLAG}, [("P0", None)]),
        "version": ({}, []),
    },
    "lan-bridge": {
        "": (
            {
                **{"--users": FILE, "--unauthenticated": FLAG, "--privilege": FLAG, "--port": None, **BRIDGED},
                **dict.fromkeys(["--controller", "--address", "--channel", "--guid"]),
            },
            [("P0", None)],
        )
    },
    "lossy-link": {
        "": (
            {
                **dict.fromkeys(["--seed", "--lose", "--repeat", "--delay", "--damage", "--longest", "--busy", "--code", "--slow", "--run-after"]),
                **{"--log": FILE, **BRIDGED, "--server": None},
            },
            [("PORT", None), ("TO", None)],
        )
    },
    "hozterqui-new-board": {"": ({}, [("LIST", LIST)])},
    "controller-bridge": {"": ({"--plan": FILE, "--wait": None, "--forget": None, **BRIDGED}, [("P0", None), ("--", ("--",)), ("COMMAND...", COMMAND)])},
    "hozterqui-capture": {
        "play": ({}, [("BOARD", BOARD), ("PLAN", PLAN), ("SCHEDULE", SCHEDULE), ("OUT", FILE)]),
        "ports": ({"--many": None}, [("P0", None), ("P1", None), ("OUT", FILE)]),
    },
    "hozterqui": {"": ({"--version": FLAG}, [])},
}
PACKAGE_OF = {program: "hozterqui" if program in ("bmclab", "bmcnet", "hozterqui") else "hozterqui-clients" for program in WORDS}


def options_of(program, command):
    return {**WORDS[program][command][0], **HELP}
