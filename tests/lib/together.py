"""Wrong bodies of different functions, tried in one check of their crate.

The prover proves a function by its own body and by the contracts of what it calls, and says of each function whether it is proved. So
bodies of different functions are refused or not as if each stood alone, if no other text than theirs is changed. Should another
function fail beside them, or the crate not be read, they are tried in two halves.
"""
import os
import re
import shutil
import subprocess
import sys
import tempfile
from collections import namedtuple

MOST = 32  # bodies in one check
PARTS = ("src", "specs", "proofs")
Pair = namedtuple("Pair", "file old new")
Function = namedtuple("Function", "name first body last")
HEAD = re.compile(r"( *)(?:pub(?:\(\w+\))? )?(?:const )?(?:unsafe )?(?:extern \"C\" )?fn (\w+)")
VERDICT = re.compile(r"fn (\S+): (not proved|no proof: expected answers)(.*)")
TOLD = re.compile(r"(?:note: (src/\S+?)|(?:\./)?(proofs/\S+?)):(\d+):\d+: (error: )?(.*)")
NAMES = re.compile(r"has no field|is not in scope|has no `|was not admitted")


def tool():
    """The module of rt that knows crates and the words of a check."""
    page = subprocess.run([os.environ.get("RT", "rt"), "doc"], capture_output=True, text=True, check=True).stdout.strip()
    sys.path.insert(0, os.path.join(os.path.dirname(page), "bin"))
    sys.dont_write_bytecode = True
    import rtlib
    rtlib.guarded()  # which sets a signal's handler at its first call: only the main thread may
    return rtlib


def read(path):
    with open(path, encoding="utf-8") as file:
        return file.read()


def functions(text):
    """The functions that stand in no other one, as `rt fmt` lays them out; lines count from 1."""
    lines, found, at = text.split("\n"), [], 0
    while at < len(lines):
        head = HEAD.match(lines[at])
        end = next((n for n in range(at, len(lines)) if lines[n] == f"{head[1]}}}"), None) if head else None
        if end is not None:
            opens = [n for n in range(at, end) if lines[n] == f"{head[1]}{{" or re.match(rf"{head[1]}\S.* \{{$", lines[n])]
            if opens:
                found.append(Function(head[2], at + 1, opens[0] + 1, end + 1))
                at = end
        at += 1
    return found


class Body:
    """A wrong body: a file of edits, and the function that alone they change, if there is one."""

    def __init__(self, path, folder):
        self.path, self.pairs, words = path, [], {}
        for line in read(path).split("\n"):
            kind, colon, rest = line.partition(":")
            words[kind] = rest.removeprefix(" ")
            if kind == "new" and colon:
                self.pairs.append(Pair(words.get("file", "").strip(), words.get("old", ""), words["new"]))
        places = {self.place(folder, pair) for pair in self.pairs}
        self.file, self.function = places.pop() if len(places) == 1 else (None, None)

    def place(self, folder, pair):
        path = os.path.join(folder, pair.file)
        text = read(path) if pair.file.startswith("src/") and os.path.isfile(path) else ""
        if not pair.old or text.count(pair.old) != 1:
            return None, None
        first = 1 + text.count("\n", 0, text.index(pair.old))
        inside = (it for it in functions(text) if it.body < first < it.last)
        return pair.file, next(inside, None)

    def is_of(self, path):
        """Whether the prover calls its function so: CRATE::MODULE::TYPE::FUNCTION, where the module is that of the type."""
        return path.rpartition("::")[2] == self.function.name

    def is_told(self, told):
        """Whether the prover speaks of its function there: in its lines, or in a file of its proofs."""
        if told[1]:
            return told[1] == self.file and self.function.first <= int(told[3]) <= self.function.last
        return told[4] and f"/{self.function.name}/" in told[2]


def rounds(bodies):
    """Bodies that go into one check each: of functions with different names."""
    found = []
    for body in (it for it in bodies if it.function):
        name = body.function.name
        fit = next((it for it in found if name not in it and len(it) < MOST), None)
        if fit is None:
            fit = {}
            found.append(fit)
        fit[name] = body
    return [list(it.values()) for it in found]


def turned(folder, bodies):
    """The files of the crate that these bodies change, as they are then."""
    texts = {}
    for pair in (pair for body in bodies for pair in body.pairs):
        texts.setdefault(pair.file, []).append(pair)
    for file, pairs in texts.items():
        text = read(os.path.join(folder, file))
        for at, pair in sorted(((text.index(pair.old), pair) for pair in pairs), reverse=True):
            text = text[:at] + pair.new + text[at + len(pair.old) :]
        texts[file] = text
    return texts


def link_or_copy(one, other):
    """What was proved has a second name, as rt gives it: a check replaces such a file, and changes none."""
    try:
        if one.endswith(".oantt"):
            return os.link(one, other)
    except OSError:
        pass  # as on another disk
    return shutil.copy2(one, other)


def said_of(rtlib, crate, bodies):
    """What the prover says of the crate with these bodies, over what an earlier check kept."""
    with tempfile.TemporaryDirectory() as room:
        for part in PARTS:
            if os.path.isdir(f"{crate.folder}/{part}"):
                shutil.copytree(f"{crate.folder}/{part}", f"{room}/{part}")
        for file, text in turned(crate.folder, bodies).items():
            with open(f"{room}/{file}", "w", encoding="utf-8") as out:
                out.write(text)
        shutil.copytree(f"{crate.folder}/out/incremental", f"{room}/kept", copy_function=link_or_copy)
        words = [rtlib.RATTLE, "check", *crate.words(["--jobs", "1"], keeps=False), "--incremental", f"{room}/kept"]
        ran = subprocess.run([*rtlib.guarded(), *words], cwd=room, stdin=subprocess.DEVNULL, stdout=subprocess.PIPE,
                             stderr=subprocess.STDOUT, text=True, errors="replace")
        return ran.stdout.rstrip("\n").split("\n")


def refused(lines, bodies):
    """What refuses each body, of those that a contract refuses; None where something else than them fails, too."""
    if not lines[-1].startswith("logic=not-proved"):
        return None
    failed = [it for it in map(VERDICT.match, lines) if it]
    paths = {it[1] for it in failed}
    if not all(any(body.is_of(it) for body in bodies) for it in paths) or len({it.rpartition("::")[2] for it in paths}) < len(paths):
        return None
    told, found = [it for it in map(TOLD.match, lines) if it and not NAMES.search(it[5])], {}
    for body in bodies:
        verdict = next((it for it in failed if body.is_of(it[1])), None)
        goals = re.findall("did not prove `[^`]*`", verdict[3]) + [it[0] for it in told if body.is_told(it)] if verdict else []
        if goals:
            found[body] = goals[0][:160]
    return found


def tried(rtlib, crate, bodies):
    """What refuses each of these bodies of different functions, of those that a contract refuses."""
    found = refused(said_of(rtlib, crate, bodies), bodies)
    if found is None and len(bodies) > 1:
        half = len(bodies) // 2
        return {**tried(rtlib, crate, bodies[:half]), **tried(rtlib, crate, bodies[half:])}
    return found or {}
