"""The control node: a room with a collection, an inventory and settings of its own, and the calls of Ansible there."""
import json
import os
import re
import signal
import subprocess
import sys

from test_net import servers
from test_net.servers import TOP, Failed, expect

SOURCE = f"{TOP}/fleet/ansible_collections/hozterqui/bmc"
# How long a call may take, in seconds, beside this for each board.
CALL, EACH = 300, 15
# How long a request is waited for, in milliseconds, however busy the machine is.
WAIT = 5000
RECAP = re.compile(r"^(\S+)\s+: ok=\d+\s+changed=(\d+)\s+unreachable=(\d+)\s+failed=(\d+)", re.M)
SETTINGS = """[defaults]
collections_path = {room}/collections
inventory = {room}/inventory.json
local_tmp = {room}/local
remote_tmp = {room}/remote
forks = {forks}
host_key_checking = false
retry_files_enabled = false
deprecation_warnings = false
localhost_warning = false
nocows = true
log_path = {room}/log
timeout = 5
[connection]
pipelining = true
[inventory]
unparsed_warning = false
"""


class Ended:
    """How a call ended: the status, what it printed, and of each machine how often something was changed there."""

    def __init__(self, status, text):
        self.status, self.text = status, text
        self.changed = {name: int(changed) for name, changed, _, _ in RECAP.findall(text)}

    def expect(self, what, status):
        if self.status != status:
            raise Failed(f"{what}: status {self.status} in place of {status}: {self.text[-3000:]}")
        return self


class Control:
    """The control node of a fleet."""

    def __init__(self, room, program, fleet, forks):
        self.room, self.program, self.fleet = room, program, fleet
        self.kept = f"{room}/kept"
        servers.write(f"{room}/ansible.cfg", SETTINGS.format(room=room, forks=forks))
        self.env = {**os.environ, "ANSIBLE_CONFIG": f"{room}/ansible.cfg", "HOME": room, "LC_ALL": "C.UTF-8", "ANSIBLE_FORCE_COLOR": "0"}
        self.list_machines()

    def list_machines(self, **others):
        """Writes the inventory: each board is a machine, with what is said of it by name besides."""
        machines = {}
        for board in self.fleet.boards:
            said = {"bmc_p0": board.ports[0], "bmc_p1": board.ports[1], "bmc_room": f"{self.room}/machines/{board.name}"}
            machines[board.name] = {**said, **others.get(board.name, {})}
        common = {"ansible_connection": "local", "ansible_python_interpreter": sys.executable, "bmc_program": self.program, "bmc_wait": WAIT}
        servers.write(f"{self.room}/inventory.json", json.dumps({"all": {"hosts": machines, "vars": {**common, "bmc_kept": self.kept}}}))

    def file_of(self, name, run):
        """Returns the file of a machine that takes a run back."""
        return f"{self.room}/machines/{name}/{run}.undo"

    def longest(self):
        """Returns how long a call may take, in seconds."""
        return CALL + EACH * self.fleet.count

    def begin(self, *words):
        """Begins a call, in a group of processes of its own."""
        pipes = {"stdin": subprocess.DEVNULL, "stdout": subprocess.PIPE, "stderr": subprocess.STDOUT}
        return subprocess.Popen(words, **pipes, text=True, env=self.env, cwd=self.room, start_new_session=True)

    def end(self, process):
        """Returns how a call ended. One that takes too long is killed, with all that it began; so it is where this program is ended."""
        try:
            text = process.communicate(timeout=self.longest())[0]
        except subprocess.TimeoutExpired as late:
            kill(process)
            raise Failed(f"{' '.join(process.args)} took too long") from late
        except BaseException:
            kill(process)
            raise
        return Ended(process.returncode, text)

    def call(self, *words):
        return self.end(self.begin(*words))

    def playbook(self, name, run, *options, **given):
        """Returns the words of a call of one of the collection's playbooks."""
        return ["ansible-playbook", f"hozterqui.bmc.{name}", *options, "-e", json.dumps({"bmc_run": run, **given})]

    def play(self, name, run, *options, **given):
        return self.call(*self.playbook(name, run, *options, **given))

    def apply(self, run, plan, *options, **given):
        return self.play("apply", run, *options, bmc_plan=plan, **given)

    def revert(self, run, *options, **given):
        return self.play("revert", run, *options, **given)

    def report(self, run):
        return servers.read(f"{self.kept}/{run}/report")

    def begun(self, run):
        """Returns the machines with which a run began."""
        try:
            return servers.read(f"{self.kept}/{run}/begun").split()
        except FileNotFoundError:
            return []


def kill(process):
    """Ends a call at once, with all that it began."""
    if process.poll() is None:
        os.killpg(process.pid, signal.SIGKILL)
    process.communicate()


def install(control):
    """Builds the collection, and installs it from the file that is built."""
    ended = control.call("ansible-galaxy", "collection", "build", SOURCE, "--output-path", control.room).expect("the build", 0)
    built = re.search(r"\S+\.tar\.gz", ended.text)
    if built is None:
        raise Failed(f"nothing is built: {ended.text}")
    control.call("ansible-galaxy", "collection", "install", built[0], "-p", f"{control.room}/collections").expect("the installation", 0)
    expect("the installed module", os.path.exists(f"{control.room}/collections/ansible_collections/hozterqui/bmc/plugins/modules/plan.py"), True)
