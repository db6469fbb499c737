#!/usr/bin/env python3
"""Lists and counts, in src/ of the crates, the places that docs/DESIGN-PASS.md speaks of: python3 tools/places.py [POINT..]

It goes by text, from the top of the repository: what it prints are candidates, which that page judges."""

import collections
import glob
import re
import sys

REFUSAL = r"\b(PASSED|BAD_[A-Z]+|TOO_LONG|NOTHING_[A-Z_]+|EMPTY_ENTRY|POWERED_DOWN)\b"
WORDS = "fn let mut if else while for in return match as pub true false self".split()


def sources():
    for path in sorted(glob.glob("crates/*/src/*.rt")):
        lines = open(path, encoding="utf-8").read().split("\n")
        yield path, [re.sub(r"//.*", "", line).rstrip() for line in lines]


def items(lines, kind):
    """The items of a kind, each as (line number, name, text), from its head to the brace that closes it."""
    at = 0
    while at < len(lines):
        head = re.match(r"\s*(?:pub )?(?:unsafe )?(?:extern \"C\" )?" + kind + r" (\w+)", lines[at])
        if not head:
            at += 1
            continue
        end, depth, seen = at, 0, False
        while True:
            body = lines[end]
            if not re.match(r"\s*(requires|ensures)\b", body):
                depth += body.count("{") - body.count("}")
                seen = seen or "{" in body
            if (seen and depth == 0) or (not seen and body.endswith(";")):
                break
            end += 1
        yield at + 1, head.group(1), lines[at : end + 1]
        at = end + 1


def all_items(kind):
    for path, lines in sources():
        for number, name, text in items(lines, kind):
            yield path, number, name, text


def say(path, number, what):
    print(f"{path}:{number}: {what}")
    return 1


def point1():
    n = 0
    for path, number, name, text in all_items("enum"):
        body = "\n".join(text[1:-1])
        variants = re.findall(r"^    (\w+)(\(|\s*\{|,| =)", body, re.M)
        empty = [v for v, rest in variants if rest == ","]
        if len(variants) <= 3 and (any(v == "Refused" for v, _ in variants) or (empty and len(empty) < len(variants))):
            n += say(path, number, f"enum {name} has the shape of an Option or a Result")
    for path, number, name, text in all_items("struct"):
        for line in text:
            if re.match(r"    pub (code|found|offered|pair): u8", line):
                n += say(path, number, f"struct {name}: {line.strip()} beside what it is about")
    for path, number, name, text in all_items("fn"):
        head = " ".join(text[: next(i for i, line in enumerate(text) if line.strip() == "{" or line.endswith("{"))])
        if re.search(r"-> u8\b", head) and re.search(REFUSAL, "\n".join(text)):
            n += say(path, number, f"fn {name} answers a refusal's number")
    for path, lines in sources():
        for number, line in enumerate(lines, 1):
            if re.match(r"(pub )?const (PASSED|BAD_|TOO_LONG|NOTHING_|EMPTY_|POWERED_)", line):
                n += say(path, number, line)
            if re.match(r"(pub )?const NONE\b", line):
                n += say(path, number, line)
            if re.match(r"\s*match \w+ \{$", line) and re.match(r"\s*([0-9]+|[A-Z][A-Z0-9]+) =>", lines[number]):
                n += say(path, number, "a match on numbers that stand for kinds")
    return n


def tokens(text):
    body = "\n".join(line for line in text if not re.match(r"\s*(requires|ensures)\b", line))
    names, out = {}, []
    for token in re.findall(r"\w+|[^\s\w]", body):
        if re.fullmatch(r"u8|u16|u32|u64|usize", token):
            out.append("T")
        elif re.fullmatch(r"[0-9][0-9a-fx_]*", token):
            out.append("N")
        elif token in WORDS or not re.match(r"\w", token):
            out.append(token)
        else:
            out.append(names.setdefault(token, f"x{len(names)}"))
    return tuple(out)


def point2():
    groups = collections.defaultdict(list)
    for path, number, name, text in all_items("fn"):
        shape = tokens(text)
        if len(shape) >= 24:
            groups[shape].append((path, number, name))
    n = 0
    for shape, places in groups.items():
        if len(places) > 1:
            print("  one shape:")
            for path, number, name in places:
                n += say(path, number, f"fn {name}")
    return n


def point3():
    n = 0
    for path, lines in sources():
        for number, line in enumerate(lines, 1):
            if re.match(r"\s*while\b", line):
                n += say(path, number, line.strip())
    return n


def point4():
    n = 0
    for path, lines in sources():
        for number, line in enumerate(lines, 1):
            if re.search(r"\{ 1 \} else \{ 0 \}|picked(16|64)?\([^()]*(\([^()]*\)[^()]*)*, 1, 0\)", line):
                n += say(path, number, line.strip())
            elif re.search(r"std::num::wrapping_|if a < b \{|if given <= room", line):
                n += say(path, number, line.strip())
    return n


def point5():
    facts, groups = collections.defaultdict(list), collections.defaultdict(list)
    for path, number, name, text in all_items("fn"):
        for line in text:
            clause = re.match(r"\s*requires \w* ?\{ (.*) \}", line) or re.match(r"\s*requires \{ (.*) \}", line)
            for fact in re.split(r" × ", clause.group(1)) if clause else []:
                facts[re.sub(r"^\(+|\)+$", "", fact)].append((path, number, name))
        head = " ".join(text).split(")", 1)[0]
        params = [re.sub(r"\s+", " ", p).strip() for p in head.split("(", 1)[-1].split(",") if ":" in p]
        if len(params) >= 3:
            groups[", ".join(params[:3])].append((path, number, name))
    n = 0
    for fact, places in sorted(facts.items()):
        if len({name for _, _, name in places}) >= 3:
            print(f"  the fact {fact}:")
            for path, number, name in places:
                n += say(path, number, f"fn {name}")
    for group, places in sorted(groups.items()):
        if len(places) >= 3 and not path.startswith("crates/c51_"):
            print(f"  the parameters {group}:")
            for path, number, name in places:
                n += say(path, number, f"fn {name}")
    return n


def point6():
    n = 0
    for path, number, name, text in all_items("struct"):
        arrays = [line.strip() for line in text if re.search(r": \[\w+; \w+\]", line)]
        if len(arrays) > 1:
            n += say(path, number, f"struct {name} has parallel arrays: " + " ".join(arrays))
    for path, number, name, text in all_items("fn"):
        head = " ".join(text[:3])
        if re.search(r"at: usize, width: usize", head):
            n += say(path, number, f"fn {name}: a buffer, a place and a length beside it")
    return n


def point7():
    n = 0
    for path, number, name, text in all_items("fn"):
        if any(re.search(r"match (op|step|which)\b", line) for line in text) or re.search(r"\bfn\(", "\n".join(text)):
            n += say(path, number, f"fn {name} picks its step by a switch")
    return n


def point8():
    n = 0
    for path in sorted(glob.glob("crates/*/proofs/**/Answers.antt", recursive=True)):
        n += len(re.findall(r"^pub [\w-]+ : goal\.", open(path, encoding="utf-8").read(), re.M))
    print(f"  answers to goals in proofs/**/Answers.antt: {n}")
    return n


if __name__ == "__main__":
    for point in [int(a) for a in sys.argv[1:]] or range(1, 9):
        print(f"point {point}")
        print(f"point {point}: {globals()[f'point{point}']()} places\n")
