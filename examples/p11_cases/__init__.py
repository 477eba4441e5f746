"""Test cases for PDP-11s: how they are drawn, what the model tells of them, and how the proved program answers them. The
command is examples/cases; examples/CASES.md has the format."""
import os
import sys

EXAMPLES = os.path.join(os.path.dirname(os.path.abspath(__file__)), "..")
MODEL = os.path.join(EXAMPLES, "..", "model")
if not os.path.isdir(os.path.join(MODEL, "pdp11")):
    raise SystemExit(f"{os.path.basename(sys.argv[0])}: the model of the machine isn't there: the folder model of the sources lies beside examples")
sys.path += [MODEL, EXAMPLES]
