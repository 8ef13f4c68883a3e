"""The words that a tool in Python is called with. One that it does not take is refused: the usage on standard error, status 2."""
import argparse
import os
import sys

ROOT = os.path.dirname(os.path.dirname(os.path.abspath(__file__)))


def parser(what):
    """Takes --help, which says what the tool does, and the words that are added to it."""
    return argparse.ArgumentParser(prog=os.path.relpath(sys.argv[0], ROOT), description=what, allow_abbrev=False,
                                   formatter_class=argparse.RawDescriptionHelpFormatter)


def takes_none(what):
    """For a tool that takes no word but --help."""
    parser(what).parse_args()


def program(path):
    """The type of a word that names a program."""
    if not (os.path.isfile(path) and os.access(path, os.X_OK)):
        raise argparse.ArgumentTypeError(f"{path} is not an executable file")
    return os.path.abspath(path)
