#!/usr/bin/env python3
"""Brings the names of this repository's own definitions and lemmas to the library's spelling.

Run it at the top of the repository, after the library's own respelling: words and lemmas in snake case, types in
camel case, an apostrophe for a prime. Names that the check generates, and names of the library, keep their spelling.
With --list it only prints what it would rename.
"""
import pathlib
import re
import sys

# What ends a name.
BREAK = r"\s(){}\[\],;.:`\"⌜⌝@λ"
NAME = rf"[^{BREAK}]+"
TOKEN = re.compile(NAME)
DECLARED = re.compile(rf"^((?:(?:pub|abbrev|unfoldable)\s+)*)({NAME})(?:\s*\{{[^}}]*\}})?\s+:\s*(.*)$")
ALONE = re.compile(rf"^(?:(?:pub|abbrev|unfoldable)\s+)*({NAME})\s+:$")
SHAPE = re.compile(rf"^(?:pub\s+)?(?:record|data)\s+({NAME})")
NESTED = re.compile(rf"^ +(?:(?:pub|abbrev|unfoldable)\s+)*({NAME}) :(?:\s|$)")
CLAUSE = re.compile(r"\b(?:ensures|requires|ghost)\s+([a-z]\w*_\w*)\s*[:{=]")
MEMBER = re.compile(rf"^\s+(?:pub\s+)?({NAME})\s+:\s")


def crate_files(root):
    return sorted(p for p in root.glob("crates/*/**/*") if p.is_file() and "/out/" not in str(p))


def rewrite(path, new):
    """Writes the text where it is another than before, and answers whether it is."""
    if path.read_text() == new:
        return False
    path.write_text(new)
    return True


def continued(lines, i):
    """The indented lines below line i, put together."""
    whole = []
    for more in lines[i + 1 :]:
        if not more.startswith(" "):
            break
        whole.append(more.strip())
    return whole


def signatures(text):
    """Each top-level signature as (name, type), a type over several lines put together."""
    lines = text.split("\n")
    for i, line in enumerate(lines):
        if line.startswith(("use ", "--", "unfolding")):
            continue
        found = DECLARED.match(line)
        if found:
            yield found.group(2), " ".join([found.group(3)] + continued(lines, i))
            continue
        found = ALONE.match(line)
        if found:
            yield found.group(1), " ".join(continued(lines, i))


def aliases(line):
    """The names under which a line imports its items."""
    if not re.match(r"^(ghost )?use ", line):
        return []
    return re.findall(rf" as ({NAME})", line)


def names_of(root):
    """The names that this repository declares, and of each whether it is a type."""
    words, types, generated = set(), set(), set()
    for path in crate_files(root):
        if path.suffix == ".rt":
            for line in path.read_text().split("\n"):
                words.update(aliases(line))
                # A clause's name once had a dash in a proof for each underscore.
                words.update(name.replace("_", "-") for name in CLAUSE.findall(line))
        if path.suffix != ".antt":
            continue
        text = path.read_text()
        generated.update(re.findall(rf"\bgoal\.({NAME})", text))
        for line in text.split("\n"):
            found = re.match(rf"^use .*\.(?:Goals|Given)\.\{{(.*)\}}", line)
            if found:
                generated.update(w.strip() for w in found.group(1).split(","))
        for name, kind in signatures(text):
            if re.search(r"(^|→\s*)Type (0|ℓ)$", kind) or name[0].isupper():
                types.add(name)
            else:
                words.add(name)
        inside = None
        for line in text.split("\n"):
            words.update(aliases(line))
            shape = SHAPE.match(line)
            if shape:
                types.add(shape.group(1))
                inside = True
            elif line and not line[0].isspace() and not line.startswith("--"):
                inside = None
            elif inside:
                member = MEMBER.match(line)
                if member:
                    (types if member.group(1)[0].isupper() else words).add(member.group(1))
            nested = NESTED.match(line)
            if nested:
                (types if nested.group(1)[0].isupper() else words).add(nested.group(1))
    return words - generated, types - generated


def snake(name):
    plain = name.replace("-", "_").replace("′", "'")
    return re.sub(r"(?<=[a-z0-9])([A-Z])", lambda found: "_" + found.group(1).lower(), plain)


def camel(name):
    parts = name.replace("′", "'").split("-")
    return parts[0] + "".join(part[:1].upper() + part[1:] for part in parts[1:])


def respelled(root):
    words, types = names_of(root)
    table = {}
    for name in sorted(words | types):
        if not re.search(r"[A-Za-z]", name) or "◌" in name:
            continue
        new = camel(name) if name in types else snake(name)
        if new != name:
            table[name] = new
    return table


def library_names(root):
    """The names that files of this repository take from the library."""
    taken = set()
    for path in crate_files(root):
        if path.suffix in (".antt", ".rt"):
            for found in re.finditer(r"use Rattle\.std\.[^{;\n]*\{([^}]*)\}", path.read_text()):
                for word in found.group(1).split(","):
                    taken.add(word.split(" as ")[-1].strip())
    return taken


def in_full(text):
    """The word that holds of each element by recursion, under its own name: `All` is another word of the library's."""
    short = "AllByRecursion as All"
    if short not in text:
        return text
    lines = text.replace(short, "AllByRecursion").split("\n")
    word = re.compile(rf"(?<![^{BREAK}])All(?![^{BREAK}])")
    return "\n".join(line if line.lstrip().startswith(("--", "//")) else word.sub("AllByRecursion", line) for line in lines)


def aligned(text):
    """The words that a file's head explains, their explanations in one column again after a name grew shorter."""
    lines = text.split("\n")
    entry = re.compile(r"^(--   \S.*?)(\s{2,})(\S.*)$")
    heads = []
    for i, line in enumerate(lines):
        if not line.startswith("--"):
            break
        found = entry.match(line)
        if found:
            heads.append((i, found))
    if not heads:
        return text
    columns = [found.start(3) for _, found in heads]
    column = max(columns, key=columns.count)
    for i, found in heads:
        if abs(found.start(3) - column) <= 3 and len(found.group(1)) + 2 <= column:
            lines[i] = found.group(1).ljust(column) + found.group(3)
    return "\n".join(lines)


def main():
    root = pathlib.Path(".")
    table = respelled(root)
    words, types = names_of(root)
    library = library_names(root)
    for name, new in sorted(table.items()):
        if name in library:
            print(f"also a name of the library, kept: {name}", file=sys.stderr)
    table = {name: new for name, new in table.items() if name not in library}
    news = {}
    for name, new in sorted(table.items()):
        if new in news or new in words | types or new in library:
            print(f"falls together: {name} and {news.get(new, new)}", file=sys.stderr)
        news[new] = name
    if "--list" in sys.argv:
        for name, new in sorted(table.items()):
            print(name, new)
        return

    def respell(text):
        return in_full(TOKEN.sub(lambda found: table.get(found.group(0), found.group(0)), text))

    changed = 0
    for path in crate_files(root):
        if path.suffix not in (".antt", ".rt", ".edit"):
            continue
        new = respell(path.read_text())
        changed += rewrite(path, aligned(new) if path.parent.name == "specs" else new)
    for path in [pathlib.Path("README.md"), *sorted(pathlib.Path("docs").glob("*.md"))]:
        if not path.exists() or path.name.startswith("PORT"):
            continue
        changed += rewrite(path, re.sub(r"`[^`\n]+`", lambda found: respell(found.group(0)), path.read_text()))
    print(f"{len(table)} names respelled in {changed} files")


if __name__ == "__main__":
    main()
