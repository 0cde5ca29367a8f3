#!/usr/bin/python
"""Applies a plan to a machine's controller, takes it back, or foresees it, by the program `bmcnet`."""

DOCUMENTATION = r"""
module: plan
short_description: Applies a plan to a controller, takes it back, or foresees it
version_added: 0.3.0
description:
  - Runs C(bmcnet apply), C(bmcnet revert) or C(bmcnet preview) on the machine, and tells what came of it.
  - What takes a plan back is kept in I(file) on the machine at each moment, so a run that is killed is taken back or begun again.
  - Where I(file) has the journal of a run that was killed, I(state=applied) takes that back first, and then applies the plan.
  - Where I(file) has what takes an earlier run back, I(state=applied) only looks whether the plan would change anything. If so it fails.
  - Where the plan changes nothing, no I(file) is made.
  - I(diff) shows what each step does, in words.
options:
  state:
    description:
      - C(applied) has the plan's steps carried out, C(reverted) takes back what I(file) says, and C(previewed) tells what the steps would change.
      - In check mode C(applied) tells what C(previewed) does, and C(reverted) tells what would be taken back. Neither sets anything.
    type: str
    choices: [applied, reverted, previewed]
    default: applied
  src:
    description: The plan, a file on the machine.
    type: path
  content:
    description:
      - The plan, a text.
      - It is kept beside I(file), readable by its owner alone, under the name of that with C(.toml) behind it.
      - It isn't logged. What its steps do is, in I(words) and I(diff), unless the task has C(no_log).
    type: str
  file:
    description:
      - The file on the machine that has what takes the plan back. C(applied) and C(reverted) need it.
      - Give each run one of its own. Its folder is made where there is none.
    type: path
  fail_on_missing:
    description:
      - Whether C(reverted) fails where I(file) isn't there. Else there is nothing to take back then.
      - A run that changed nothing made no I(file). One that changed something made one, which may be lost.
    type: bool
    default: true
  only_changes:
    description: Whether the controller is looked at first, and those steps alone are carried out that change something.
    type: bool
    default: true
  all_or_none:
    description: Whether what was done is taken back at once where the plan halts.
    type: bool
    default: false
extends_documentation_fragment: hozterqui.bmc.reach
attributes:
  check_mode:
    description: Tells what would change, and sets nothing.
    support: full
  diff_mode:
    description: Shows what each step does, in words.
    support: full
author: The authors of Hozterqui
"""

EXAMPLES = r"""
- name: See what a plan would change
  hozterqui.bmc.plan:
    state: previewed
    src: "{{ plan }}"
    p0: "{{ p0 }}"
    p1: "{{ p1 }}"

- name: Apply it
  hozterqui.bmc.plan:
    src: "{{ plan }}"
    file: "{{ room }}/monday.undo"
    p0: "{{ p0 }}"
    p1: "{{ p1 }}"
    wait: 2000

- name: Take it back
  hozterqui.bmc.plan:
    state: reverted
    file: "{{ room }}/monday.undo"
    p0: "{{ p0 }}"
    p1: "{{ p1 }}"
    wait: 2000

- name: Change a threshold, or nothing at all
  hozterqui.bmc.plan:
    content: |
      [[step]]
      kind = "thresholds"
      sensor = 5
      uc = 0x5A
    file: "{{ room }}/tuesday.undo"
    all_or_none: true
    p0: "{{ p0 }}"
    wait: 2000
"""

RETURN = r"""
outcome:
  description:
    - What came of it, in the program's word, as C(done), C(halted), C(undone) or C(no answer).
    - C(nothing to change) where no step changes anything, and C(would change) or C(would be taken back) where nothing was to be set.
    - C(absent) where I(file) isn't there, and so nothing was to be taken back.
  returned: always
  type: str
status:
  description: What the program ended with.
  returned: where it was called
  type: int
words:
  description: What each step did, would do, or what takes it back.
  returned: always
  type: list
  elements: str
settled:
  description: Whether a journal that was found was taken back first.
  returned: always
  type: bool
doubts:
  description: What isn't known, or isn't as it has to be.
  returned: always
  type: list
  elements: str
next:
  description: What to call on the machine to take back what was done, or to settle what is in doubt.
  returned: where there is something to call
  type: str
file:
  description: The file that has what takes the plan back, or nothing more.
  returned: where it is there
  type: str
told:
  description: The objects that the program printed.
  returned: always
  type: list
  elements: dict
"""

import os

from ansible.module_utils.basic import AnsibleModule
from ansible_collections.hozterqui.bmc.plugins.module_utils import bmcnet

# What a preview says of a step that can't be done.
BARRED = ("not restorable", "get refused")


class Ended:
    """What a task hands back, as it grows."""

    def __init__(self, module):
        self.module = module
        self.changed, self.is_settled, self.words, self.calls = False, False, [], []

    def add(self, said):
        """Notes a call, and returns it."""
        self.calls.append(said)
        return said

    def end(self, outcome, failure=None):
        """Ends the task, well or with why it failed."""
        told = [it for said in self.calls for it in said.objects]
        result = {"outcome": outcome, "changed": self.changed, "words": self.words, "settled": self.is_settled, "told": told}
        result["doubts"] = bmcnet.doubts_of(told[-1]) if told else []
        if self.calls:
            result["status"] = self.calls[-1].status
        if told and told[-1].get("next"):
            result["next"] = told[-1]["next"]
        if self.module.params["file"] and os.path.exists(self.module.params["file"]):
            result["file"] = self.module.params["file"]
        if self.module._diff:
            result["diff"] = {"prepared": "".join(f"{line}\n" for line in self.words)}
        if failure is None:
            self.module.exit_json(**result)
        self.module.fail_json(msg=failure, **result)

    def fail(self, said):
        """Ends the task where a call failed."""
        last = said.objects[-1].get("outcome") if said.objects else None
        self.end("killed" if bmcnet.is_killed(said) else last or bmcnet.STATUSES.get(said.status, "failed"), bmcnet.failure_of(said))


def keeps_file(module):
    """Returns whether the task keeps what takes its plan back."""
    return module.params["state"] == "applied" and not module.check_mode


def plan_of(module):
    """Returns the plan's file, which is made where the plan is a text."""
    if module.params["src"]:
        return module.params["src"]
    folder = module.tmpdir
    if keeps_file(module):
        folder = os.path.dirname(os.path.abspath(module.params["file"]))
    path = f"{folder}/{os.path.basename(module.params['file'] or 'plan')}.toml"
    with open(f"{path}.part", "w", encoding="utf-8", opener=lambda name, flags: os.open(name, flags, 0o600)) as part:
        part.write(module.params["content"])
    os.replace(f"{path}.part", path)
    return path


def foreseen(ended, plan):
    """Has the plan foreseen, and returns whether a step would change anything. Ends the task where a step can't be done."""
    said = ended.add(bmcnet.call(ended.module, "preview", plan))
    steps = [it for it in said.objects if "step" in it and "outlook" in it]
    changes = [it for it in steps if it["outlook"] == "changes"]
    ended.words += [f"step {it['step']}: {it.get('does', it['record'])}" for it in changes]
    barred = [f"step {it['step']}, {it['record']}: {it['outlook']}{bmcnet.of_code(it)}" for it in steps if it["outlook"] in BARRED]
    if said.status == bmcnet.HALTED and barred:
        ended.end("halted", f"the plan would halt: {'; '.join(barred)}")
    if said.status != bmcnet.DONE:
        ended.fail(said)
    return bool(changes)


def preview(ended, plan):
    """Tells what the plan would change."""
    ended.changed = foreseen(ended, plan)
    ended.end("would change" if ended.changed else "nothing to change")


def look(ended, plan, file):
    """Tells whether the plan would change anything, where the file has what takes an earlier run back: that isn't written over."""
    if foreseen(ended, plan):
        ended.words = []
        ended.end("occupied", f"{file} has what takes an earlier run back, and the plan would change more: take that back first, or name another file")
    ended.end("nothing to change")


def settle(ended, file):
    """Takes back what a journal says that was left."""
    said = ended.add(bmcnet.call(ended.module, "revert", file))
    ended.changed = bool(said.objects and said.objects[-1].get("steps"))
    ended.is_settled = True
    if said.status != bmcnet.DONE:
        ended.fail(said)


def apply(ended, plan, file):
    """Applies the plan, or in check mode tells what it would change."""
    params = ended.module.params
    standing = bmcnet.standing_of(file)
    if standing == bmcnet.LIST:
        look(ended, plan, file)
    if ended.module.check_mode:
        preview(ended, plan)
    if standing == bmcnet.JOURNAL:
        settle(ended, file)
    options = [f"--{name.replace('_', '-')}" for name in ("only_changes", "all_or_none") if params[name]]
    said = ended.add(bmcnet.call(ended.module, "apply", plan, "--undo", file, *options))
    applied = next((it for it in said.objects if "did" in it), {})
    left_out = [number for it in said.objects for number in it.get("left_out", ())]
    if left_out and applied:
        ended.words.append(f"left out, since they change nothing, are steps {', '.join(map(str, left_out))} of the plan: the others are counted without them")
    ended.words += [f"step {place}: {did}" for place, did in enumerate(applied.get("did", ()), 1)]
    is_back = said.status == bmcnet.HALTED and said.objects[-1].get("outcome") == "undone"
    in_doubt = applied.get("outcome") == "unsettled" or (not applied and bmcnet.is_killed(said))
    ended.changed = ended.changed or (bool(applied.get("stands") or in_doubt) and not is_back)
    if is_back:
        ended.end("halted", "; ".join(["the plan halted, and all is taken back", *bmcnet.doubts_of(applied)]))
    if said.status != bmcnet.DONE:
        ended.fail(said)
    ended.end(said.objects[-1]["outcome"] if said.objects else "done")


def revert(ended, file):
    """Takes back what the file says, or in check mode tells that."""
    is_told = ended.module.check_mode
    if bmcnet.standing_of(file) == bmcnet.ABSENT:
        ended.end("absent", f"{file} isn't there, and it alone has what is to be taken back" if ended.module.params["fail_on_missing"] else None)
    said = ended.add(bmcnet.call(ended.module, "revert", file, *(["--preview"] if is_told else [])))
    told = said.objects[-1] if said.objects else {}
    ended.words += [f"step {it['step']}: {it['undo']}" for it in said.objects if "undo" in it]
    ended.changed = bool(told.get("steps")) and told.get("outcome") not in ("held", "empty", "no answer", "busy", "no socket", "unmade")
    if said.status != bmcnet.DONE:
        ended.fail(said)
    ended.end("would be taken back" if is_told and ended.changed else told.get("outcome", "empty"))


def main():
    spec = {
        "state": {"type": "str", "choices": ["applied", "reverted", "previewed"], "default": "applied"},
        "src": {"type": "path"},
        "content": {"type": "str", "no_log": True},
        "file": {"type": "path"},
        "fail_on_missing": {"type": "bool", "default": True},
        "only_changes": {"type": "bool", "default": True},
        "all_or_none": {"type": "bool", "default": False},
        **bmcnet.REACH,
    }
    of_plan = ("src", "content")
    module = AnsibleModule(
        argument_spec=spec,
        supports_check_mode=True,
        mutually_exclusive=[of_plan],
        required_if=[
            ("state", "applied", of_plan, True),
            ("state", "previewed", of_plan, True),
            ("state", "applied", ("file",)),
            ("state", "reverted", ("file",)),
        ],
    )
    ended, state, file = Ended(module), module.params["state"], module.params["file"]
    try:
        if state == "reverted":
            revert(ended, file)
        if keeps_file(module):
            os.makedirs(os.path.dirname(os.path.abspath(file)), mode=0o700, exist_ok=True)
        plan = plan_of(module)
        if state == "previewed":
            preview(ended, plan)
        apply(ended, plan, file)
    except OSError as fault:
        ended.end("not run", f"{fault.filename or module.params['program']}: {fault.strerror or fault}")


if __name__ == "__main__":
    main()
