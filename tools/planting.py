"""What the tools share that plant changes in a copy of the repository: its crates, the copy, and edits by their texts."""
import collections
import os
import re
import shutil
import subprocess

TOP = os.path.dirname(os.path.dirname(os.path.abspath(__file__)))
# The programs, lightest first, and the crate that holds only tests.
PROGRAMS = ("listing", "bench", "rig")
TESTS = ("trials",)


def text_of(path, top=TOP):
    with open(os.path.join(top, path), encoding="utf-8") as source:
        return source.read()


def put(text, path, top):
    with open(os.path.join(top, path), "w", encoding="utf-8") as out:
        out.write(text)


def crates():
    """The crates, lowest first, each with those that it names."""
    lines = [line.split("#")[0].partition(":") for line in text_of("crates.txt").split("\n")]
    return {name.strip(): below.split() for name, colon, below in lines if colon}


def library_crates():
    return [name for name in crates() if name not in PROGRAMS + TESTS]


def run(words, folder, limit=900):
    """The status and what was said; no status where it took too long."""
    try:
        done = subprocess.run(words, cwd=folder, stdout=subprocess.PIPE, stderr=subprocess.STDOUT, timeout=limit, stdin=subprocess.DEVNULL)
        return done.returncode, done.stdout.decode(errors="replace")
    except subprocess.TimeoutExpired:
        return None, "error: it took too long"


def copy_repository(copy):
    """Copies what crates and tests are made of, to a place outside: in the repository the toolchain refuses code of no listed crate."""
    shutil.rmtree(copy, ignore_errors=True)
    os.makedirs(copy)
    for part in ("crates", "crates.txt", "run", "tests", "tools"):
        source = os.path.join(TOP, part)
        if os.path.isdir(source):
            ignored = shutil.ignore_patterns("mutants", "must-fail", "out", "target", "__pycache__")
            shutil.copytree(source, os.path.join(copy, part), ignore=ignored, symlinks=True)
        else:
            shutil.copy(source, copy)
    return copy


# ---- edits: lines 'file: PATH', 'old: TEXT', 'new: TEXT', each TEXT what stands in one line


class Unfit(Exception):
    """Why an edit does not apply."""


def fields(lines):
    """The lines as words with what stands behind them; an empty line or one that begins with '#' is passed over."""
    for line in lines:
        if line.strip() and not line.startswith("#"):
            word, colon, rest = line.partition(":")
            if not colon or " " in word:
                raise Unfit(f"a line that is not read: {line}")
            yield word, rest.removeprefix(" ")


def steps(lines):
    """The file, the old and the new text of each step of an edit."""
    path = old = None
    for word, text in fields(lines):
        if word == "file" and old is None:
            path = text
        elif word == "old" and path and old is None and text:
            old = text
        elif word == "new" and old is not None:
            yield path, old, text
            old = None
        else:
            raise Unfit(f"a line that cannot stand there: {word}: {text}")
    if old is not None:
        raise Unfit("its last 'old:' has no 'new:'")


def edited(edit, top):
    """The files that the steps of an edit change, as they are then. Each old text stands once in its file, at its turn."""
    before, after = {}, {}
    for path, old, new in edit:
        if path not in after:
            if not os.path.isfile(os.path.join(top, path)):
                raise Unfit(f"there is no file {path}")
            before[path] = after[path] = text_of(path, top)
        found = after[path].count(old)
        if found != 1:
            raise Unfit(f"{path} has {found} times, and not once: {old}")
        after[path] = after[path].replace(old, new)
    if before == after:
        raise Unfit("it changes nothing")
    return after


# ---- pairs: an edit of a definition and its code alike, and where the law is refused then; tools/pairs says how they are written

Pair = collections.namedtuple("Pair", "name crate law place edit")


def pairs():
    """Those of tools/pairs.planted, in their order."""
    for block in re.split(r"\n(?=pair: )", "\n" + text_of("tools/pairs.planted"))[1:]:
        lines = block.split("\n")
        about = [line for line in lines if re.match(r"(pair|law|refused):", line)]
        known = dict(fields(about))
        if len(about) != 3 or len(known) != 3:
            raise Unfit(f"a pair has one line each of 'pair:', 'law:' and 'refused:': {lines[0]}")
        changes = steps(line for line in lines if line not in about)
        edit = [(path, old.replace("\\n", "\n"), new.replace("\\n", "\n")) for path, old, new in changes]
        crate, _, law = known["law"].partition(" ")
        yield Pair(known["pair"], crate, law, known["refused"], edit)
