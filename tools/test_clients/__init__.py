"""Tests with other people's clients and controllers. What they share with the bridges stands in clients/, at the top."""
import os
import sys

sys.path.insert(1, f"{os.path.dirname(os.path.dirname(os.path.dirname(os.path.realpath(__file__))))}/clients")
