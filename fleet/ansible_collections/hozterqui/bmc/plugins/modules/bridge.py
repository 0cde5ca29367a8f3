#!/usr/bin/python
"""Starts and ends a bridge between `bmcnet` and a real controller, on a machine."""

DOCUMENTATION = r"""
module: bridge
short_description: Starts and ends a bridge to a real controller
version_added: 0.3.0
description:
  - Starts C(controller-bridge) on the machine, over C(ipmitool), and waits until it hears. Or ends the one that was started.
  - The secret of a controller goes into a file of I(room), which only its owner can read, and never into words of a command. The file goes with the bridge.
requirements:
  - controller-bridge
  - ipmitool
options:
  state:
    description: Whether the bridge is to run. One that runs isn't started again.
    type: str
    choices: [started, stopped]
    default: started
  room:
    description: A folder of this bridge alone, which is made where there is none, and goes with it.
    type: path
    required: true
  p0:
    description: The port on which it hears IPMB. 0 takes a free one.
    type: int
    default: 0
  connection:
    description: How C(ipmitool) reaches the controller, C(open) on the machine itself, or C(lanplus) over LAN.
    type: str
    choices: [open, lanplus]
    default: open
  host:
    description: The controller's address, for C(lanplus).
    type: str
  port:
    description: The controller's port, for C(lanplus).
    type: int
    default: 623
  user:
    description: The controller's user, for C(lanplus).
    type: str
  secret:
    description: That user's password.
    type: str
  cipher:
    description: The cipher suite, for C(lanplus).
    type: int
  patience:
    description: How many seconds the controller may take for a request.
    type: int
    default: 10
  bridge:
    description: The program C(controller-bridge) on the machine.
    type: path
    default: controller-bridge
  ipmitool:
    description: The program C(ipmitool) on the machine.
    type: path
    default: ipmitool
attributes:
  check_mode:
    description: Tells whether a bridge would be started or ended.
    support: full
  diff_mode:
    description: There is nothing to show.
    support: none
author: The authors of Hozterqui
"""

EXAMPLES = r"""
- name: Reach the machine's own controller
  hozterqui.bmc.bridge:
    room: "{{ room }}/bridge"
    bridge: "{{ bridge_program }}"
    ipmitool: "{{ ipmitool_program }}"
  register: bridge

- name: See what a plan would change there
  hozterqui.bmc.plan:
    state: previewed
    src: "{{ ipmb_plan }}"
    p0: "{{ bridge.p0 }}"
    wait: 4000

- name: End the bridge
  hozterqui.bmc.bridge:
    state: stopped
    room: "{{ room }}/bridge"
"""

RETURN = r"""
p0:
  description: The port on which the bridge hears.
  returned: where it runs
  type: int
"""

import contextlib
import os
import re
import signal
import subprocess
import time

from ansible.module_utils.basic import AnsibleModule

# How long the start and the end of a bridge may take, in seconds.
LONGEST, PAUSE = 20, 0.05
HEARS = re.compile(r"controller-bridge: ipmb on \S+:(\d+)")
SECRET, LOG, STATE = "secret", "log", "process"
KEPT = (SECRET, LOG, STATE)


def birth_of(process):
    """Returns when a process began, by the system's clock, or None where there is none of this id: an id is given anew."""
    try:
        with open(f"/proc/{process}/stat", encoding="utf-8", errors="replace") as stat:
            fields = stat.read().rpartition(")")[2].split()
    except OSError:
        return None
    return None if fields[0] == "Z" else fields[19]


def running_in(room):
    """Returns the id and the port of the bridge of this folder that runs, or None."""
    try:
        with open(f"{room}/{STATE}", encoding="utf-8") as state:
            process, birth, port = state.read().split()
    except (OSError, ValueError):
        return None
    return (int(process), int(port)) if birth_of(process) == birth else None


def private(path, flags):
    return os.open(path, flags, 0o600)


def clear(room):
    """Removes the files of a bridge, and its folder. A folder that has other files, too, stays."""
    for name in KEPT:
        with contextlib.suppress(FileNotFoundError):
            os.remove(f"{room}/{name}")
    with contextlib.suppress(OSError):
        os.rmdir(room)


def is_kept(room):
    """Returns whether a folder has a file of a bridge."""
    return any(os.path.exists(f"{room}/{name}") for name in KEPT)


def command_of(params):
    """Returns the command by which the bridge asks the controller."""
    if params["connection"] == "open":
        return [params["ipmitool"], "-I", "open", "raw"]
    words = [params["ipmitool"], "-I", "lanplus", "-H", params["host"], "-p", str(params["port"]), "-U", params["user"]]
    words += ["-C", str(params["cipher"])] if params["cipher"] is not None else []
    return [*words, "-f", f"{params['room']}/{SECRET}", "-R", "1", "raw"]


def heard_on(room, process):
    """Returns the port on which the bridge hears, once it says so, or None where it ended or took too long."""
    until = time.monotonic() + LONGEST
    while time.monotonic() < until:
        with open(f"{room}/{LOG}", encoding="utf-8", errors="replace") as log:
            found = HEARS.search(log.read())
        if found:
            return int(found[1])
        if process.poll() is not None:
            return None
        time.sleep(PAUSE)
    return None


def start(module):
    """Starts the bridge, and returns its port."""
    params, room = module.params, module.params["room"]
    os.makedirs(room, mode=0o700, exist_ok=True)
    if params["connection"] == "lanplus":
        with open(f"{room}/{SECRET}", "w", encoding="utf-8", opener=private) as secret:
            secret.write(f"{params['secret']}\n")
    words = [params["bridge"], "--wait", str(params["patience"]), str(params["p0"]), "--", *command_of(params)]
    with open(f"{room}/{LOG}", "w", encoding="utf-8", opener=private) as log:
        process = subprocess.Popen(words, stdin=subprocess.DEVNULL, stdout=subprocess.DEVNULL, stderr=log, start_new_session=True, close_fds=True)
    port = heard_on(room, process)
    if port is None:
        with open(f"{room}/{LOG}", encoding="utf-8", errors="replace") as log:
            said = log.read().strip()
        process.kill()
        process.wait()
        clear(room)
        module.fail_json(msg=f"the bridge doesn't hear: {said or 'it said nothing'}")
    with open(f"{room}/{STATE}", "w", encoding="utf-8") as state:
        state.write(f"{process.pid} {birth_of(process.pid)} {port}\n")
    return port


def stop(process, room):
    """Ends the bridge, and removes what it kept."""
    for number in (signal.SIGTERM, signal.SIGKILL):
        until, birth = time.monotonic() + LONGEST / 2, birth_of(process)
        if birth is None:
            break
        with contextlib.suppress(ProcessLookupError):
            os.kill(process, number)
        while birth_of(process) == birth and time.monotonic() < until:
            time.sleep(PAUSE)
    clear(room)


def main():
    spec = {
        "state": {"type": "str", "choices": ["started", "stopped"], "default": "started"},
        "room": {"type": "path", "required": True},
        "p0": {"type": "int", "default": 0},
        "connection": {"type": "str", "choices": ["open", "lanplus"], "default": "open"},
        "host": {"type": "str"},
        "port": {"type": "int", "default": 623},
        "user": {"type": "str"},
        "secret": {"type": "str", "no_log": True},
        "cipher": {"type": "int"},
        "patience": {"type": "int", "default": 10},
        "bridge": {"type": "path", "default": "controller-bridge"},
        "ipmitool": {"type": "path", "default": "ipmitool"},
    }
    module = AnsibleModule(argument_spec=spec, supports_check_mode=True)
    params, room = module.params, module.params["room"]
    lacking = [name for name in ("host", "user", "secret") if params[name] is None]
    if params["state"] == "started" and params["connection"] == "lanplus" and lacking:
        module.fail_json(msg=f"connection is lanplus but all of the following are missing: {', '.join(lacking)}")
    try:
        running = running_in(room)
        if params["state"] == "stopped":
            is_there = is_kept(room)
            if is_there and not module.check_mode:
                stop(running[0] if running else 0, room)
            module.exit_json(changed=is_there)
        if running:
            module.exit_json(changed=False, p0=running[1])
        if module.check_mode:
            module.exit_json(changed=True)
        module.exit_json(changed=True, p0=start(module))
    except OSError as fault:
        module.fail_json(msg=f"{fault.filename or params['bridge']}: {fault.strerror or fault}")


if __name__ == "__main__":
    main()
