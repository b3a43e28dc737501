#!/usr/bin/env python3
"""Lists the places in crates/*/src that may be written in an older form, by point.

    python3 tools/places.py [POINT ..]     from the top; no point: all
    python3 tools/places.py --count        one line a point

It finds candidates by their text. Which of them are places is for a reader to say."""
import difflib
import itertools
import os
import re
import sys

NUMBER = r"(?:bool|u8|u16|u32|u64|usize)"


def sources():
    for folder, _, names in sorted(os.walk("crates")):
        if "/src" in folder and "/target" not in folder and "/out" not in folder:
            for name in sorted(names):
                if name.endswith(".rt"):
                    path = os.path.join(folder, name)
                    with open(path, encoding="utf-8") as text:
                        yield path, text.read().split("\n")


def functions(lines):
    """Name, first line, head (parameters and clauses) and body of each function with a body."""
    at = 0
    while at < len(lines):
        found = re.match(r"(\s*)(?:pub(?:\([a-z]+\))? )?fn (\w+)", lines[at])
        if not found:
            at += 1
            continue
        indent, start = found.group(1), at
        opened = at
        while opened < len(lines) and not re.search(r"(^" + indent + r"\{|\{)$", lines[opened]) and not lines[opened].endswith(";"):
            opened += 1
        if opened >= len(lines) or lines[opened].endswith(";"):
            at = opened + 1
            continue
        closed = opened + 1
        while closed < len(lines) and lines[closed] != indent + "}":
            closed += 1
        yield found.group(2), start, lines[start : opened + 1], lines[opened + 1 : closed]
        at = closed + 1


def matching(*patterns, tests=True):
    for path, lines in sources():
        if path.endswith("tests.rt") and not tests:
            continue
        for number, line in enumerate(lines, 1):
            if line.strip().startswith("//"):
                continue
            if any(re.search(pattern, line) for pattern in patterns):
                yield path, number, line.strip()


def shape(body):
    words = re.findall(r"[A-Za-z_]\w*|\d+|[^\sA-Za-z_0-9]", " ".join(line.split("//")[0] for line in body))
    keep = {"if", "else", "for", "in", "while", "match", "let", "mut", "return", "Ok", "Err", "Some", "None", "self"}
    return ["N" if word.isdigit() else word if word in keep or not word[0].isalnum() else "x" for word in words]


def twins():
    everything = []
    for path, lines in sources():
        if path.endswith("tests.rt"):
            continue
        for name, start, _, body in functions(lines):
            text = shape(body)
            if len(text) >= 12:
                everything.append((path, start + 1, name, text))
    for (p, n, a, s), (q, m, b, t) in itertools.combinations(everything, 2):
        if min(len(s), len(t)) * 1.25 >= max(len(s), len(t)):
            alike = difflib.SequenceMatcher(None, s, t, autojunk=False).ratio()
            if alike >= 0.92:
                yield p, n, f"{a} and {b} ({q}:{m}), {alike:.2f} alike"


def travelling():
    """Facts and groups of three parameters that stand at three or more functions of a crate."""
    facts, groups = {}, {}
    for path, lines in sources():
        crate = path.split("/")[1]
        if path.endswith("tests.rt"):
            continue
        for name, start, head, _ in functions(lines):
            text = "\n".join(head)
            for clause in re.findall(r"requires(?: \w+)? \{ (.*?) \}\n", text + "\n"):
                fact = re.sub(r"\.(now|old|new|entry)\b", "", clause)
                facts.setdefault((crate, fact), []).append((path, start + 1, name))
            inner = re.search(r"fn \w+(?:<.*?>)?\((.*?)\)(?: ->|\n|$)", text, re.S)
            names = sorted(set(re.findall(r"(\w+): ", inner.group(1)))) if inner else []
            for group in itertools.combinations(names, 3):
                groups.setdefault((crate, group), []).append((path, start + 1, name))
    for (crate, fact), where in sorted(facts.items()):
        if len(where) >= 3:
            yield where[0][0], where[0][1], f"fact at {len(where)} functions of {crate}: {fact}: " + ", ".join(w[2] for w in where)
    for (crate, group), where in sorted(groups.items()):
        if len({w[2] for w in where}) >= 3:
            yield where[0][0], where[0][1], f"parameters of {len(where)} functions of {crate}: {', '.join(group)}: " + ", ".join(w[2] for w in where)


POINTS = {
    1: ("enums, flags, numbers for kinds", lambda: matching(r"^(pub(\(\w+\))? )?enum ", r"[(, ]\w+: bool\b", r"-> " + NUMBER + r"\b", r"Result<[^<>]*, " + NUMBER + ">")),
    2: ("twins", twins),
    3: ("loops counted by hand", lambda: matching(r"\b(while|loop)\b.*\{$", r"\bfor \w+ in .*\.\.", r"\b[a-z]\w* [-+]= [12];")),
    4: ("conversions, comparisons and printing by hand", lambda: matching(r"\bas (usize|u8|u16|u32|u64|i32|char)\b", r"\bfn (of|of_\w+|letter|\w+_letter|hex\w*|\w*_line)\b", r"^impl.*\b(From|TryFrom|Display|PartialEq|Eq|Ord|Clone|Copy)\b.* for", r"=> unreachable\(\)", r"^\s*(Ok|Err|Some|None)(\(\w+\))? => (return )?(Ok|Err|Some|None|true|false|\w+)\b[^(]*,?$", r"push_str\(\w+\.as_str\(\)\)", r"if .*\{ [01] \} else \{ [01] \}")),
    5: ("facts and parameters that travel together", travelling),
    6: ("buffers with a length, parallel arrays", lambda: matching(r"\[[^\[\];]+; [\w]+\]", r"\b(start|lengths?|filled|used): (usize|\[)", r"let \(?(mut )?(lengths|rows|filed)\b", r"Vec<(bool|u32)>", tests=False)),
    7: ("switches and tables of steps", lambda: matching(r"=> \w+(::\w+)*(::<\w+>)?\(.*\w+, \w+.*\)", r"=> \w+\($", r"\bfn\(", r"\bdyn\b", r"Box<")),
}


def main():
    asked = [int(word) for word in sys.argv[1:] if word.isdigit()] or sorted(POINTS)
    for point in asked:
        title, find = POINTS[point]
        found = sorted(set(find()))
        print(f"{point}. {title}: {len(found)} candidates")
        if "--count" not in sys.argv:
            for path, number, text in found:
                print(f"  {path}:{number}: {text}")


main()
