#!/usr/bin/python
"""Reads the records of a machine's controller, by the program `bmcnet`."""

DOCUMENTATION = r"""
module: facts
short_description: Reads the records of a controller
version_added: 0.3.0
description:
  - Runs C(bmcnet show) on the machine, and hands back each record that a plan can set as the step that sets it to what it is.
  - Nothing is set.
requirements:
  - python >= 3.11
options:
  effecters:
    description: The numbers of the effecters to be read, over SMBus.
    type: list
    elements: int
    default: []
extends_documentation_fragment: hozterqui.bmc.reach
attributes:
  check_mode:
    description: It sets nothing anyway.
    support: full
  diff_mode:
    description: There is nothing to show.
    support: none
author: The authors of Hozterqui
"""

EXAMPLES = r"""
- name: Read what a controller has
  hozterqui.bmc.facts:
    p0: "{{ p0 }}"
    p1: "{{ p1 }}"
    wait: 2000

- name: Look at the upper critical threshold of the first sensor
  ansible.builtin.debug:
    msg: "{{ ansible_facts.bmc.records.thresholds[0].uc }}"
"""

RETURN = r"""
ansible_facts:
  description: What was read.
  returned: always
  type: dict
  contains:
    bmc:
      description: The controller's records.
      type: dict
      contains:
        records:
          description: For each kind of step the records that were read, each as the fields of the step that sets it to what it is.
          type: dict
        plan:
          description: The same as the text of a plan, or of several one behind another, with remarks on what no plan can say.
          type: str
"""

import traceback

try:
    import tomllib
except ImportError:
    tomllib, LACKING = None, traceback.format_exc()

from ansible.module_utils.basic import AnsibleModule, missing_required_lib
from ansible_collections.hozterqui.bmc.plugins.module_utils import bmcnet


def records_of(text):
    """Returns the steps of a plan's text by their kinds, without those."""
    found = {}
    for step in tomllib.loads(text).get("step", []):
        found.setdefault(step["kind"].replace("-", "_"), []).append({name: value for name, value in step.items() if name != "kind"})
    return found


def main():
    spec = {"effecters": {"type": "list", "elements": "int", "default": []}, **bmcnet.REACH}
    module = AnsibleModule(argument_spec=spec, supports_check_mode=True)
    if tomllib is None:
        module.fail_json(msg=missing_required_lib("tomllib", reason="to read plans, and Python has it from 3.11 on"), exception=LACKING)
    numbers = module.params["effecters"]
    options = ["--effecters", ",".join(map(str, numbers))] if numbers else []
    try:
        said = bmcnet.call(module, "show", None, *options, is_text=True)
    except OSError as fault:
        module.fail_json(msg=f"{fault.filename or module.params['program']}: {fault.strerror or fault}")
    text = said.objects[0]
    if said.status != bmcnet.DONE:
        module.fail_json(msg=bmcnet.failure_of(said._replace(objects=[])), status=said.status)
    try:
        module.exit_json(changed=False, ansible_facts={"bmc": {"records": records_of(text), "plan": text}})
    except tomllib.TOMLDecodeError as fault:
        module.fail_json(msg=f"the program shows no plan: {fault}", status=said.status)


if __name__ == "__main__":
    main()
