"""The exerciser of examples/exerciser: its sources in MACRO-11, what makes its tapes of them, and what reads its profiles."""
