"""What an example prints for --help: the text at its head. A module for the examples; it isn't run by itself."""
import sys


def help_of(text):
    """Prints the text and ends, where --help or -h is among the words."""
    if {"--help", "-h"} & set(sys.argv[1:]):
        print(text.rstrip())
        sys.exit()
