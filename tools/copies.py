"""Copies of the repository, in which a tool changes a file or adds a crate."""
import os
import shutil

from arguments import ROOT


def crates_below():
    """The crates of crates.txt, lowest first, each with those below it."""
    with open(os.path.join(ROOT, "crates.txt"), encoding="utf-8") as lines:
        listed = [line.split("#")[0].partition(":") for line in lines]
    # A static library has a word after its name.
    return {name.split()[0]: below.split() for name, _, below in listed if name.strip()}


def copy_to(folder, built=False):
    """Copies crates and tools; where `built`, with what rt keeps of the crates (out/), so that it proves no more than what changed."""
    left_out = None if built else shutil.ignore_patterns("out")
    for part in ("crates", "tools"):
        shutil.copytree(os.path.join(ROOT, part), os.path.join(folder, part), symlinks=True, ignore=left_out)
    shutil.copy(os.path.join(ROOT, "crates.txt"), folder)


def add_program(copy, name, below, code):
    """Adds a program to a copy, over the crates below it; its folder."""
    folder = os.path.join(copy, "crates", name)
    for part in ("src", "specs", "proofs"):
        os.makedirs(os.path.join(folder, part))
    for part in ("specs", "proofs"):
        open(os.path.join(folder, part, "Lib.antt"), "w").close()
    with open(os.path.join(folder, "src", "main.rt"), "w", encoding="utf-8") as main:
        main.write(code)
    with open(os.path.join(copy, "crates.txt"), "a", encoding="utf-8") as crates:
        crates.write(f"{name}: {' '.join(below)}\n")
    return folder


def planted(text, old, new, where):
    """The text with an edit made, whose old text stands there once."""
    if text.count(old) != 1:
        raise SystemExit(f"{where}: the text stands {text.count(old)} times: {old}")
    return text.replace(old, new)
