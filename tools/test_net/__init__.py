"""Tests of `bmcnet` over real sockets. The frames are those of clients/, at the top."""
import os
import sys

sys.path.insert(1, f"{os.path.dirname(os.path.dirname(os.path.dirname(os.path.realpath(__file__))))}/clients")
