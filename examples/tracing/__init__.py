"""The parts of examples/why, which plays a script again and looks at its turns one by one."""
