"""What else is tried of the collection: its documentation, its examples, a bridge to a controller, and the tests of Ansible for what is written."""
import json
import os
import re
import shutil
import stat
import subprocess
import sys

from test_net import servers
from test_net.servers import TOP, Skipped, expect

from .boards import plan_of, steps_of
from .control import SOURCE

MODULES = ("plan", "facts", "bridge")
SANITY = ("compile", "empty-init", "shebang")
SECRET = "a-word-of-the-vault"


def documented(trial):
    """The documentation of each module, and of the role, is shown; and each option that it has is the module's."""
    control = trial.control
    for name in MODULES:
        ended = control.call("ansible-doc", "--json", "-t", "module", f"hozterqui.bmc.{name}").expect(f"the documentation of {name}", 0)
        shown = json.loads(ended.text[ended.text.index("{") :])[f"hozterqui.bmc.{name}"]
        lacking = [it for it, told in shown["doc"]["options"].items() if not told.get("description")]
        expect(f"what {name} has no words for", lacking, [])
        expect(f"the examples and results of {name}", bool(shown["examples"] and shown["return"] is not None), True)
    ended = control.call("ansible-doc", "-t", "role", "hozterqui.bmc.controller").expect("the documentation of the role", 0)
    expect("what the role's documentation names", all(it in ended.text for it in ("bmc_plan", "bmc_run", "bmc_secret")), True)
    return f"{len(MODULES)} modules and a role"


def examples_of(control, name):
    ended = control.call("ansible-doc", "--json", "-t", "module", f"hozterqui.bmc.{name}")
    return json.loads(ended.text[ended.text.index("{") :])[f"hozterqui.bmc.{name}"]["examples"]


def executable(path, text):
    """Writes a program, and returns its path."""
    servers.write(path, text)
    os.chmod(path, stat.S_IRWXU)
    return path


def ipmitool_of(control, board):
    """Returns what stands for ipmitool, over this board."""
    secret = servers.write(f"{control.room}/secret", f"{SECRET}\n")
    return executable(
        f"{control.room}/ipmitool-{board.name}", f"#!/bin/sh\nexec {sys.executable} {TOP}/tools/test_fleet/raw.py {board.ports[0]} {secret} \"$@\"\n"
    )


def carried_out(trial):
    """The examples of each module are carried out."""
    control, board = trial.control, trial.fleet.boards[0]
    given = {
        "plan": plan_of(control.room, "example", steps_of(f"{trial.seed} example", 0)),
        "ipmb_plan": plan_of(control.room, "example-ipmb", steps_of(f"{trial.seed} example")),
        "room": f"{control.room}/examples",
        "p0": board.ports[0],
        "p1": board.ports[1],
        "bridge_program": f"{TOP}/clients/controller-bridge",
        "ipmitool_program": ipmitool_of(control, board),
    }
    count = 0
    for name in MODULES:
        tasks = examples_of(control, name)
        count += len(re.findall(r"^- name:", tasks, re.M))
        head = "- hosts: m000\n  gather_facts: false\n  module_defaults:\n"
        head += "".join(f"    hozterqui.bmc.{it}:\n      program: \"{{{{ bmc_program }}}}\"\n" for it in MODULES[:2])
        path = servers.write(f"{control.room}/{name}.yml", f"{head}  tasks:\n" + "".join(f"    {line}\n" for line in tasks.strip().splitlines()))
        control.call("ansible-playbook", path, "-e", json.dumps(given)).expect(f"the examples of {name}", 0)
        if name == "plan":
            back = "- hosts: m000\n  gather_facts: false\n  tasks:\n    - hozterqui.bmc.plan:\n        state: reverted\n        file: \"{{ room }}/tuesday.undo\"\n"
            back += "        p0: \"{{ p0 }}\"\n        program: \"{{ bmc_program }}\"\n"
            control.call("ansible-playbook", servers.write(f"{control.room}/back.yml", back), "-e", json.dumps(given)).expect("what takes the last back", 0)
    trial.fleet.expect_as_before("behind the examples")
    return f"{count} tasks of {len(MODULES)} modules"


def processes_with(word):
    """Returns the processes whose words have this one, or whose surroundings do."""
    found = []
    for name in filter(str.isdigit, os.listdir("/proc")):
        for kind in ("cmdline", "environ"):
            try:
                with open(f"/proc/{name}/{kind}", "rb") as file:
                    if word.encode() in file.read():
                        found.append((int(name), kind))
            except OSError:
                continue
    return found


def bridged(trial):
    """A plan is applied through a bridge, whose secret stands in no log, and taken back; the bridge has ended then."""
    fleet, control, board = trial.fleet, trial.control, trial.fleet.boards[0]
    steps = steps_of(f"{trial.seed} bridged")
    plan = plan_of(control.room, "bridged", steps)
    bridge = f"{control.room}/machines/{board.name}/bridge"
    said = {"bmc_connection": "lanplus", "bmc_address": "192.0.2.1", "bmc_user": "operator", "bmc_bridge": f"{TOP}/clients/controller-bridge"}
    control.list_machines(**{board.name: {**said, "bmc_ipmitool": ipmitool_of(control, board), "bmc_secret": SECRET}})
    first = control.apply("bridged", plan, "-vvv", bmc_hosts=board.name).expect("an apply through a bridge", 0)
    fleet.expect_applied("behind an apply through a bridge", steps, [board])
    second = control.revert("bridged", "-vvv", bmc_hosts=board.name).expect("a revert through a bridge", 0)
    control.list_machines()
    fleet.expect_as_before("behind a revert through a bridge", [board])
    expect("the bridge's folder", os.path.exists(bridge), False)
    expect("who has the secret in its words", processes_with(SECRET), [])
    told = [text for text in (first.text, second.text, servers.read(f"{control.room}/log")) if SECRET in text]
    expect("where the secret is told", len(told), 0)
    return f"{len(steps)} steps, and no secret is told"


def written(trial):
    """What `ansible-test sanity` says of the collection, by those of its tests that need nothing more."""
    if not shutil.which("ansible-test"):
        raise Skipped("there is no ansible-test")
    folder = f"{trial.control.room}/sanity/ansible_collections/hozterqui/bmc"
    shutil.copytree(SOURCE, folder)
    version = f"{sys.version_info[0]}.{sys.version_info[1]}"
    words = ["ansible-test", "sanity", "--python", version, *(word for test in SANITY for word in ("--test", test))]
    ran = subprocess.run(words, cwd=folder, env=trial.control.env, stdin=subprocess.DEVNULL, capture_output=True, text=True, timeout=300, check=False)
    expect("ansible-test sanity", (ran.returncode, ran.stdout[-2000:] + ran.stderr[-2000:] if ran.returncode else ""), (0, ""))
    return ", ".join(SANITY)


def parts():
    """Returns each part: its name, and what tries it."""
    return [
        ("the documentation is shown", documented),
        ("the examples are carried out", carried_out),
        ("a bridge to a controller", bridged),
        ("ansible-test sanity", written),
    ]
