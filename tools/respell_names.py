#!/usr/bin/env python3
"""Brings the names that this repository declares in antt to snake case: definitions, lemmas, fields and constructors.

usage: tools/respell_names.py [--check] [FOLDER]

Run once, right after the kit's port.py, at the top of the repository (or with that folder as FOLDER). A name that begins with a small letter
and has a capital or a dash is turned wherever the repository's own declaration is meant: in specs/ and proofs/, in the ghost
imports, clauses and attributes of src/, and in must-fail edits. Types, modules, and the chip's own names (TCON, C/T0) stay, and so does a name
that a file imports from a library of the kit. --check writes nothing and lists the names that would fall together.
"""
import collections
import glob
import os
import re
import sys

# Lemmas that would fall together with the definition that they are about, or with the library's: they get `_lem`.
LEMMAS = """bit-and clear-bit digits-ok due-most first-set idle-cycles idle-marks or-else receive-at send-at slice-ok timer2-after
timers-after times-after with-receive with-received with-sample with-send with-t2con with-votes at-most bad-tunnels bad-wish idle-rounds
idle-totals levels-ok room-timers serial-settled start-found times-ok"""
INSTEAD = {name: name.replace("-", "_") + "_lem" for name in LEMMAS.split()}

# A field that would fall together with the definition that it is about.
FIELDS = {"pins-ok": "pins_accepted"}

# Lemmas that port.py has spelled as what they are about: the file, the old name, the new name.
SPELLED = [
    ("crates/machine/proofs/Accepted.antt", "kind_ok", "kind_ok_lem"),
    ("crates/record/proofs/Accepted.antt", "kind_ok", "kind_ok_lem"),
    ("crates/receiver/proofs/Ranges.antt", "with_value", "with_value_lem"),
    ("crates/serial/proofs/Ranges.antt", "send_at", "send_at_lem"),
]

TOKEN = re.compile(r"[^\s(){}\[\];,.@\"«»⌜⌝|]+")
USE = re.compile(r"^(?:pub |ghost )*use ([^\s{;]+?)(?:\.\{([^}]*)\}| as (\S+?))?;?$")


def snake(name, instead=INSTEAD):
    if name in instead:
        return instead[name]
    name = re.sub(r"(?<=[a-z])(?=[A-Z])|(?<=[0-9])(?=[A-Z][a-z])", "_", name)
    return name.lower().replace("-", "_")


def is_word(name):
    return re.fullmatch(r"[a-z][A-Za-z0-9_'-]*", name) and re.search(r"[A-Z-]", name)


def is_answers(path):
    """A function's own proof, whose goals are Rattle's names."""
    return re.search(r"/proofs/.+/(Answers|Invariants)\.antt$", path)


def declared(path):
    """The names that a file declares, but for the goals of a function's proof."""
    names = set()
    inside = False
    if is_answers(path):
        return names
    for line in open(path, encoding="utf-8"):
        if line.strip().startswith("--") or not line.strip():
            continue
        top = re.match(
            r"((?:abbrev|unfoldable|pub|private) )*([^\s(){}.;,@\"«»]+)(?: \{[^{}]*\}| \([^()]*\))* :(?: (.*))?$", line.rstrip()
        )
        if top:
            inside = False
            if not (top.group(3) or "").startswith("tie."):
                names.add(top.group(2))
            continue
        head = re.match(r"(?:(?:pub|abbrev|unfoldable) )*(?:record|data|ruleset) ([^\s(){}.;,@\"«»]+)", line)
        if head:
            inside = True
            names.add(head.group(1))
            continue
        member = inside and re.match(r"\s+(?:pub |instance )*([^\s(){}.;,@\"«»]+) :(?: |$)", line)
        if member:
            names.add(member.group(1))
        elif not line.startswith(" "):
            inside = False
        nested = re.match(r"\s+(?:pub |abbrev |unfoldable )*([a-z][\w'-]*)(?: \{[^{}]*\}| \([^()]*\))* :(?: |$)", line)
        if nested and not line.strip().startswith("let "):
            names.add(nested.group(1))
    return names


def imported(text, crates):
    """The names that a file imports from libraries of the kit."""
    names = set()
    for use in re.finditer(r"(?m)^[^\S\n]*(?:pub |ghost )*use ([^\s{;]+?)\.\{([^}]*)\}", text):
        parts = use.group(1).split(".")
        if parts[0] == "Rattle" and len(parts) > 1 and parts[1] in crates:
            continue
        for item in use.group(2).split(","):
            names.add(item.split(" as ")[-1].strip())
    return names


def turned(text, own, crates, path=""):
    """The text with the own names in snake case; of a comment the code spans alone."""
    kept = imported(text, crates)
    walk = path.endswith("Proof.antt")
    answers = is_answers(path)

    def part(text):
        def one(match):
            word = match.group(0)
            if word not in own or word in kept:
                return word
            if match.start() and text[match.start() - 1] == ".":
                if answers:
                    return word
                return snake(word, {} if walk else FIELDS)
            return snake(word, INSTEAD if walk else {**INSTEAD, **FIELDS})

        return TOKEN.sub(one, text)

    lines = []
    for line in text.split("\n"):
        if re.match(r"\s*--", line):
            lines.append(re.sub(r"(?<=`)[^`]*(?=`)", lambda m: part(m.group(0)), line))
        else:
            lines.append(part(line))
    return "\n".join(lines)


def turned_rt(text, own, crates):
    """Ghost imports, clauses and attributes alone."""
    out = []
    for line in text.split("\n"):
        if re.match(r"\s*(ghost use|requires|ensures|ghost |#!?\[tactic)", line):
            line = turned(line, own, crates)
        out.append(line)
    return "\n".join(out)


def main():
    args = [a for a in sys.argv[1:] if a != "--check"]
    check = "--check" in sys.argv
    top = args[0] if args else "."
    crates = {os.path.basename(d) for d in glob.glob(os.path.join(top, "crates/*"))}
    antt = glob.glob(os.path.join(top, "crates/*/specs/**/*.antt"), recursive=True)
    antt += glob.glob(os.path.join(top, "crates/*/proofs/**/*.antt"), recursive=True)
    own = {n for path in antt for n in declared(path) if is_word(n)}
    together = collections.defaultdict(set)
    for path in antt:
        text = open(path, encoding="utf-8").read()
        words = set()
        for line in text.split("\n"):
            if not line.strip().startswith("--"):
                words |= set(TOKEN.findall(line))
        kept = imported(text, crates)
        new = collections.defaultdict(set)
        for w in words:
            spelled = {old: name for where, old, name in SPELLED if os.path.relpath(path, top) == where and name not in words}
            new[snake(w, {**INSTEAD, **FIELDS}) if w in own and w not in kept else spelled.get(w, w)].add(w)
        for n, ws in new.items():
            if len(ws) > 1:
                together[(n, tuple(sorted(ws)))].add(os.path.relpath(path, top))
    for (n, ws), paths in sorted(together.items()):
        print("together:", n, ws, " ".join(sorted(paths)))
    print(len(own), "names")
    if check:
        return
    for path in antt:
        text = open(path, encoding="utf-8").read()
        new = text
        for where, old, name in SPELLED:
            if os.path.relpath(path, top) == where and not re.search(rf"(?<![\w'-]){name}(?![\w'-])", new):
                new = TOKEN.sub(lambda m: name if m.group(0) == old else m.group(0), new)
        new = turned(new, own, crates, path)
        if new != text:
            open(path, "w", encoding="utf-8").write(new)
    for path in glob.glob(os.path.join(top, "crates/*/src/**/*.rt"), recursive=True):
        text = open(path, encoding="utf-8").read()
        new = turned_rt(text, own, crates)
        if new != text:
            open(path, "w", encoding="utf-8").write(new)
    for path in sorted(glob.glob(os.path.join(top, "crates/*/must-fail/*.edit"))):
        text = open(path, encoding="utf-8").read()
        new = "\n".join(turned(line, own, crates) if re.match(r"(old|new): ", line) else line for line in text.split("\n"))
        if new != text:
            open(path, "w", encoding="utf-8").write(new)


main()
