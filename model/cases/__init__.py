"""Random scripts for the machine, made from a seed (fuzz.py)."""
