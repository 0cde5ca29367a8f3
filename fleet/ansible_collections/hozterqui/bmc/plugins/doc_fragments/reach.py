"""The options that say where a controller is, of each module that asks it."""


class ModuleDocFragment:
    DOCUMENTATION = r"""
requirements:
  - bmcnet
options:
  p0:
    description: The port of IPMB on the machine, of a served controller or of a bridge.
    type: int
    required: true
  p1:
    description: The port of SMBus, which a plan with a step there needs.
    type: int
  wait:
    description: How many milliseconds a reply is waited for, in place of the program's 200.
    type: int
  again:
    description: How often a request that had no answer has all its retries again.
    type: int
  program:
    description: The program C(bmcnet) on the machine.
    type: path
    default: bmcnet
"""
