#!/usr/bin/env python3
"""Brings this repository's own definitions and lemmas to one spelling: words in snake case.

usage: tools/respell.py [FOLDER]    at the top of a checkout, once, after the toolchain's port.py

What specs/ and proofs/ declare in camel case with a small first letter, or with dashes, is written in snake case:
`stableTest` is `stable_test`, `and-iff` is `and_iff`. Types, modules, functions of src/ and what Rattle makes of them keep
their names. Where a definition and a law fall together, the law gets `_lem` behind its name.
"""

import collections
import os
import re
import sys

DECLARED = re.compile(r"(?m)^[ ]*((?:[^\s(){}\[\];,:.=]+[ ]+)*[^\s(){}\[\];,:.=]+)((?:\s+[({][^(){}]*[)}])*)\s+:\s")
FIELD = re.compile(r"(?m)^[ ]+pub ([^\s(){}\[\];,:.]+)((?:\s+[({][^(){}]*[)}])*)\s+:\s")
ALIAS = re.compile(r"\buse [^\s;{}]+ as ([^\s;{}]+)")
TOKEN = re.compile(r"[^\s(){}\[\];,:.`«»]+")
# laws whose names are in snake case already, and would now be a definition's
TAKEN = {"others_by": "others_by_lem", "at_target": "at_target_lem"}


def is_camel(name):
    return name[0].islower() and re.search(r"[a-z0-9][A-Z]", name) is not None


def snake(name):
    if is_camel(name):
        name = re.sub(r"(?<=[a-z0-9])[A-Z]", lambda m: "_" + m.group(0).lower(), name)
    return name.replace("-", "_")


def files(root):
    for folder, dirs, names in os.walk(os.path.join(root, "crates")):
        dirs[:] = sorted(d for d in dirs if d not in ("out", "must-fail"))
        for name in sorted(names):
            if name.endswith((".rt", ".antt")):
                yield os.path.join(folder, name)


def read(path):
    with open(path, encoding="utf-8") as f:
        return f.read()


def declared(root):
    names, fields = set(), set()
    for path in files(root):
        if path.endswith(".antt") and os.path.basename(path) != "Proof.antt":
            text = read(path)
            names |= {name for m in DECLARED.finditer(text) for name in m.group(1).split()}
            fields |= {m.group(1) for m in FIELD.finditer(text)}
    return names, fields


def renamings(names):
    turned = collections.defaultdict(list)
    for name in sorted(names):
        if len(name) > 1 and "◌" not in name and ("-" in name or is_camel(name)):
            turned[snake(name)].append(name)
    to = dict(TAKEN)
    for new, old in turned.items():
        laws = [name for name in old if "-" in name and not is_camel(name)]
        rest = [name for name in old if name not in laws]
        if len(laws) > 1 or len(rest) > 1:
            raise SystemExit(f"respell: {old} fall together")
        for name in rest:
            to[name] = new
        for name in laws:
            to[name] = new + "_lem" if rest or new in names and new not in TAKEN else new
    return to


def turn(path, text, to, fields):
    modules = set(ALIAS.findall(text)) - {"tie"}
    out, last = [], 0
    for m in TOKEN.finditer(text):
        name = m.group(0)
        new = to.get(name)
        if new is None:
            continue
        if m.start() and text[m.start() - 1] == ".":
            before = re.search(r"([^\s(){}\[\];,:.]*)\.$", text[: m.start()]).group(1)
            if not before[:1].isupper() and before not in modules and (name not in fields or before == "tie"):
                continue
        out += [text[last : m.start()], new]
        last = m.end()
    return "".join(out) + text[last:]


def main(root):
    names, fields = declared(root)
    to = renamings(names)
    changed = 0
    for path in files(root):
        text = read(path)
        new = turn(path, text, to, fields)
        if new != text:
            changed += 1
            with open(path, "w", encoding="utf-8") as f:
                f.write(new)
    print(f"respell: {len(to)} names in {changed} files")
    laws = sorted(new for new in to.values() if new.endswith("_lem"))
    print("respell: laws beside a definition of their name: " + ", ".join(laws))


if __name__ == "__main__":
    main(sys.argv[1] if len(sys.argv) > 1 else ".")
