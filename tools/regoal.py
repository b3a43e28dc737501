#!/usr/bin/env python3
"""Brings the names of goals and steps in the proof files of functions to today's spelling.

Run it at the top of the repository, after tools/respell.py: a name that comes from the source keeps its underscores, and a
word of the check's own has underscores, where both once had dashes. Dashes join the parts of a name, as in
`overflow_add-at-in-loop-lead`. One name that the rule gets wrong is mended by hand: `bounds-counts-code-in-loop-i`, where
`code_in` is a function elsewhere.
"""
import pathlib
import re

from respell import TOKEN, crate_files, rewrite

# Words of the check and of the library that proofs name.
WORDS = """
overflow_add overflow_sub overflow_mul overflow_shl overflow_shr overflow_cast overflow_step slice_bounds nonzero_div
nonzero_rem offset_bounds invariant_of in_ok in_err in_default yielded_by type_inv as_slice deref_mut as_mut_slice
index_mut from_residual into_iter size_hint as_str as_bytes
""".split()


def source_names(root):
    names = set()
    for path in root.glob("crates/*/src/**/*.rt"):
        names.update(re.findall(r"\b[A-Za-z]\w*_\w*\b", path.read_text()))
    return names


def main():
    root = pathlib.Path(".")
    names = source_names(root) | set(WORDS)
    table = sorted(((n.replace("_", "-"), n) for n in names if not n.startswith("_")), key=lambda pair: -len(pair[0]))
    rules = [(dashed, re.compile(rf"(?<![A-Za-z0-9_']){re.escape(dashed)}(?![A-Za-z0-9_'])"), name) for dashed, name in table]

    def turned(found):
        token = found.group(0)
        for dashed, rule, name in rules:
            if dashed in token:
                token = rule.sub(name, token)
        return token

    changed = 0
    for path in crate_files(root):
        # The files of functions lie in folders below proofs/, lemmas right in it.
        if path.suffix != ".antt" or path.parts[2] != "proofs" or path.parent.name == "proofs":
            continue
        lines = path.read_text().split("\n")
        new = "\n".join(x if x.startswith(("--", "use Rattle.std")) else TOKEN.sub(turned, x) for x in lines)
        changed += rewrite(path, new)
    print(f"{changed} files")


if __name__ == "__main__":
    main()
