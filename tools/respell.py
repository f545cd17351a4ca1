#!/usr/bin/env python3
"""Brings the repository's own definitions and lemmas to snake case, and its types to camel case.

usage: python3 tools/respell.py [--dry]      at the top of the repository, once, right after port.py of the kit

What is respelled: each name with a dash that a file of specs/ or a file of lemmas in proofs/ speaks of and that is not the
kit's; in code everywhere, in comments and in pages where it stands in backquotes, and in the must-fail edits. In the folder
of a function's proof only what it imports from those files, and fields after a dot. Names of src/ have no dash. Names that would
fall together are printed.
"""
import collections
import glob
import re
import sys

# What is not done by putting `_` for a dash.
SPECIAL = {
    "Alike-at": "AlikeAt",
    "Met-apart": "MetApart",
    "On-path": "OnPath",
    "Second-parted": "SecondParted",
    "Setting-out": "SettingOut",
    "Standing-at": "StandingAt",
    "Stuck-at": "StuckAt",
}
# Types whose names were in small letters, and the module that defines each: respelled there and where it is imported.
TYPES = {
    "check": ("Rattle.laws.specs.Checks", "Check"),
    "joining": ("Rattle.groups.specs.Calls", "JoiningGives"),
    "stepped": ("Rattle.groups.specs.Calls", "StepGives"),
}
NAME = r"[^\W\d][\w']*(?:-[\w']+)+"
TOKEN = re.compile(r"(?<![\w'·+-])(?:" + NAME + r")(?![\w'-])")
USE = re.compile(r"\buse\s+([\w.'+·]+)\.\{([^}]*)\}")


def read(path):
    with open(path, encoding="utf-8") as f:
        return f.read()


def own_crates():
    return {line.split(":")[0].split()[0] for line in read("crates.txt").splitlines() if ":" in line and not line.startswith("#")}


def split_comment(line, mark):
    """The code of a line and its comment."""
    i = line.find(mark)
    while i >= 0:
        if (mark == "//" or ((i == 0 or line[i - 1].isspace()) and (i + 2 == len(line) or line[i + 2].isspace()))) and line[:i].count('"') % 2 == 0:
            return line[:i], line[i:]
        i = line.find(mark, i + 1)
    return line, ""


def code_of(text, mark):
    return "\n".join(split_comment(line, mark)[0] for line in text.split("\n"))


def own_module(path, crates):
    parts = path.split(".")
    return parts[0] == "Rattle" and len(parts) > 1 and parts[1] in crates


def is_lemmas(path):
    """A file of specs/, or of lemmas in proofs/: its modules are in camel case, and a function's folder is not."""
    parts = path.split("/")
    return parts[2] == "specs" or (parts[2] == "proofs" and len(parts) == 4)


def main():
    dry = "--dry" in sys.argv
    crates = own_crates()
    antt = sorted(glob.glob("crates/*/specs/**/*.antt", recursive=True) + glob.glob("crates/*/proofs/**/*.antt", recursive=True))
    rt = sorted(glob.glob("crates/*/src/**/*.rt", recursive=True))
    edits = sorted(glob.glob("crates/*/must-fail/*.edit"))
    pages = sorted(glob.glob("*.md") + glob.glob("docs/*.md"))
    kits, ours = set(), set()
    for p in antt + rt:
        code = code_of(read(p), "--" if p.endswith(".antt") else "//")
        for path, names in USE.findall(code):
            if not own_module(path, crates):
                kits.update(n.split(" as ")[0].strip() for n in names.split(","))
    for p in antt:
        if is_lemmas(p):
            ours.update(TOKEN.findall(re.sub(r'"[^"]*"', "", code_of(read(p), "--"))))
    ours -= kits
    new = {n: SPECIAL.get(n) or n.replace("-", "_") for n in ours}
    back = collections.defaultdict(set)
    for o, n in new.items():
        back[n].add(o)
    for n, os in back.items():
        if len(os) > 1:
            print("together:", n, sorted(os))

    def turn(text, allowed=None, fields=True):
        def one(m):
            o = m.group(0)
            if o not in new:
                return o
            if allowed is not None and o not in allowed and not (fields and m.start() > 0 and text[m.start() - 1] == "." and text[m.start() - 2 : m.start()] != ".."):
                return o
            return new[o]

        return TOKEN.sub(one, text)

    def typed(p, text, mark):
        """The types of small letters, in the code of the files that define or import them."""
        for o, (module, n) in TYPES.items():
            own = p == "crates/{1}/{2}/{3}.antt".format(*module.split("."))
            if own or any(path == module and o in re.split(r"[,\s]+", names) for path, names in USE.findall(code_of(text, mark))):
                word = re.compile(r"(?<![\w'.-])" + o + r"(?![\w'-])")
                text = "\n".join(word.sub(n, c) + k for c, k in (split_comment(line, mark) for line in text.split("\n")))
        return text

    def quoted(text):
        return re.sub(r"`[^`\n]*`", lambda m: turn(m.group(0)), text)

    def turned(p):
        text = read(p)
        if p.endswith(".md"):
            return quoted(text)
        if p.endswith(".edit"):
            return turn(text)
        mark = "--" if p.endswith(".antt") else "//"
        text = typed(p, text, mark)
        allowed = None
        if p.endswith(".antt") and not is_lemmas(p):
            allowed = set()
            for path, names in USE.findall(code_of(text, mark)):
                if own_module(path, crates):
                    allowed.update(n.strip() for n in names.split(","))
        lines = []
        for line in text.split("\n"):
            code, comment = split_comment(line, mark)
            pieces = re.split(r'("[^"]*")', code)
            pieces = [s if s.startswith('"') else turn(s, allowed) for s in pieces]
            lines.append("".join(pieces) + quoted(comment))
        return "\n".join(lines)

    changed = 0
    for p in antt + rt + edits + pages:
        before, after = read(p), turned(p)
        if after == before:
            continue
        changed += 1
        if p.endswith((".antt", ".rt")):
            mark = "--" if p.endswith(".antt") else "//"
            words = set(re.findall(r"[^\W\d][\w']*", TOKEN.sub(" ", code_of(before, mark))))
            made = {new[o]: o for o in TOKEN.findall(code_of(before, mark)) if o in new}
            for n in sorted(set(made) & words):
                print(f"look: {p}: {n} stood there beside {made[n]}")
        if not dry:
            with open(p, "w", encoding="utf-8") as f:
                f.write(after)
    print(f"respell: {len(new)} names, {changed} files")


main()
