"""Keeps the table of a whole run for guests/results."""
import os
import subprocess
import time


def said(*words):
    """The first line that a program prints."""
    return subprocess.run(words, capture_output=True, text=True).stdout.partition("\n")[0]


def keep(work, name, table):
    """Writes the table, with when it was and of what. GEFSUNK_NOTE is a sentence on the library, as that it was not proved."""
    commit = said("git", "-C", os.path.dirname(os.path.realpath(__file__)), "describe", "--always", "--dirty")
    version = said(os.path.join(work, "build/qemu-system-x86_64"), "--version")
    head = f"{time.strftime('%Y-%m-%d')}, commit {commit}, {version}. {os.environ.get('GEFSUNK_NOTE', '')}".rstrip()
    os.makedirs(os.path.join(work, "results"), exist_ok=True)
    with open(os.path.join(work, "results", name), "w", encoding="utf-8") as kept:
        kept.write("\n".join([head, *table]) + "\n")
