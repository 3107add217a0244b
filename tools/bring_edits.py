#!/usr/bin/env python3
"""Brings the must-fail edits of an older commit over to today's spelling.

usage: python3 tools/bring_edits.py OLD NEW PORT     OLD: a checkout of the older commit; NEW: the checkout whose crates have been brought over;
                                                     PORT: the path of port.py

An edit is a difference of two texts. In a copy of OLD each edited file is laid beside the file without the edit, port.py turns both, and what
differs then is the edit in today's spelling. It is written into NEW; tools/respell.py comes after. An edit that is not one line for one line is
printed, to be written by hand.
"""

import difflib
import glob
import os
import shutil
import subprocess
import sys
import tempfile

MARK = "QQ"


def read(path):
    with open(path, encoding="utf-8") as f:
        return f.read()


def write(path, text):
    with open(path, "w", encoding="utf-8") as f:
        f.write(text)


def pairs_of(text):
    path = old = None
    for line in text.split("\n"):
        if line.startswith("file: "):
            path = line[6:].strip()
        elif line.startswith("old: "):
            old = line[5:]
        elif line.startswith("new:"):
            yield path, old, line[4:].removeprefix(" ")


def main(old, new, port):
    room = tempfile.mkdtemp(prefix="edits-")
    at = os.path.join(room, "tree")
    shutil.copytree(old, at, ignore=shutil.ignore_patterns("out", ".git"))
    made = []
    for edit in sorted(glob.glob(f"{at}/crates/*/must-fail/*.edit")):
        crate = os.path.dirname(os.path.dirname(edit))
        texts = {}
        for path, was, now in pairs_of(read(edit)):
            texts.setdefault(path, read(f"{crate}/{path}"))
            if texts[path].count(was) != 1:
                print(f"{edit}: its text stands {texts[path].count(was)} times")
            texts[path] = texts[path].replace(was, now)
        for path, text in texts.items():
            stem, ending = os.path.splitext(path)
            beside = f"{crate}/{stem}{MARK}{os.path.basename(edit)[:-5]}{ending}"
            write(beside, text)
            made.append((edit, path, f"{crate}/{path}", beside))
    for words in (["init", "-q"], ["add", "-A"], ["-c", "user.name=x", "-c", "user.email=x@x.example", "commit", "-qm", "both"]):
        subprocess.run(["git", *words], cwd=at, check=True)
    subprocess.run([sys.executable, port], cwd=at, check=True, stdout=subprocess.DEVNULL)
    done = {}
    for edit, path, plain, beside in made:
        a, b = read(plain).split("\n"), read(beside).split("\n")
        changes = [(a[i:j], b[k:m]) for tag, i, j, k, m in difflib.SequenceMatcher(None, a, b, autojunk=False).get_opcodes() if tag != "equal"]
        fits = bool(changes)
        for was, now in changes:
            fits = fits and len(was) == 1 and len(now) <= 1 and read(plain).count(was[0]) == 1
        if not fits:
            print(f"by hand: {os.path.relpath(edit, at)}")
        done.setdefault(edit, []).append((path, changes))
    for edit, parts in done.items():
        text = "".join(line + "\n" for line in read(edit).split("\n") if line.startswith("#"))
        for path, changes in parts:
            text += f"file: {path}\n"
            for was, now in changes:
                text += "old: " + "\n".join(was) + "\nnew: " + "\n".join(now) + "\n"
        write(os.path.join(new, os.path.relpath(edit, at)), text)
    shutil.rmtree(room)
    print(f"bring_edits: {len(done)} edits")


if __name__ == "__main__":
    main(*sys.argv[1:])
