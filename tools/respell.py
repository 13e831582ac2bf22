#!/usr/bin/env python3
"""Respells the repository's own definitions and lemmas after the kit's port.py: words in snake case, types in camel case.

usage: python3 tools/respell.py          at the top of a checkout that port.py has turned: rewrites crates/ in place
       python3 tools/respell.py --list   prints the names and their new spelling, and writes nothing

    decodingOf, first-exit-hidden -> decoding_of, first_exit_hidden        Starts-related, Demand-3-in -> StartsRelated, Demand3In
    R-compose, B₀-exact           -> R_compose, B₀_exact (R and B₀ are the documents' letters)

A name is respelled where the repository declares it (in specs/ or proofs/) and the file does not bring a name of that spelling in from the
kit's libraries. Names that Rattle makes (goals, steps of a proof), functions of src/, strings and the files' names stay. It goes by text, and
was run once, directly after port.py.
"""

import glob
import os
import re
import sys

W = r"[^\s(){}.;,@\"«»\[\]\\`λ]+"
MARKS = r"(?:(?:pub|abbrev|unfoldable|private|opaque)\s+)*"
KIND = re.compile(r"^(\s*)(?:" + MARKS + r")(record|data|ruleset)\s+(" + W + r")")
DECL = re.compile(r"^(\s*)(" + MARKS + r")(" + W + r"(?:\s*,\s*" + W + r")*)(?:\s+\{[^{}]*\})?\s+:\s+(.*)$")
# several constructors in one line; the names that a use line gives; the parameters of a definition
SEVERAL = re.compile(r"^\s+((?:" + W + r"\s+)+" + W + r")\s+:\s+(.*)$")
ALIAS = re.compile(r"\sas\s+(" + W + r")")
BINDERS = re.compile(r"\(([^():]*) : ")
USE = re.compile(r"^\s*(?:pub\s+)?(?:ghost\s+)?use\s+([^\s;{]+?)\.?(?:\{(.*)\})?(?:\s+as\s+(\S+?))?;?\s*$")
# own names that would fall together with another one when respelled by rule, or read badly
BY_HAND = {
    "Without-exit": "WithoutExit",
    "is-deeper": "is_deeper_reads",
    "node-hash": "node_hash_reads",
    "nodesOf": "nodes_of_functions",
    "verdict-values": "values_of_verdict",
}
# the same in one folder or file alone
IN_PLACE = {
    "crates/frames/": {"in-range": "is_in_range", "last-of": "last_of_last"},
    "crates/relations/proofs/Levels.antt": {"number-at": "number_at_levels"},
}


def sources():
    found = glob.glob("crates/*/specs/**/*.antt", recursive=True) + glob.glob("crates/*/proofs/**/*.antt", recursive=True)
    return sorted(found), sorted(glob.glob("crates/*/src/**/*.rt", recursive=True))


def bare(line):
    """A line of antt without its comment."""
    return re.sub(r"(^|\s)--(\s.*|)$", "", line)


def signature(lines, i, indent, text):
    j = i + 1
    while j < len(lines) and lines[j].strip() and len(lines[j]) - len(lines[j].lstrip()) > indent and not text.rstrip().endswith("where"):
        text += " " + bare(lines[j]).strip()
        j += 1
    return text


def declared(paths):
    """The declared names, each with whether it is a type."""
    out = {}
    for path in paths:
        lines = open(path, encoding="utf-8").read().split("\n")
        for i, line in enumerate(lines):
            line = bare(line)
            kind = KIND.match(line)
            if kind:
                out[kind[3]] = out.get(kind[3], False) or kind[2] != "ruleset"
                continue
            more = ALIAS.findall(line) if re.match(r"\s*(pub\s+)?(ghost\s+)?use\s", line) else []
            many = SEVERAL.match(line)
            if many and not re.search(r"[=→λ]|\b(let|in|where|pub|abbrev|unfoldable|mutual)(?![\w-])", many[1]):
                more += many[1].split()
            if "/specs/" in path:
                more += [name for group in BINDERS.findall(line) for name in group.split()]
            for name in more:
                if "-" in name:
                    out.setdefault(name, name[0].isupper() and len(name.split("-")[0]) > 1)
            it = DECL.match(line)
            if not it or re.match(r"\s*(use|let|in|ghost)(?![\w-])", line):
                continue
            text = signature(lines, i, len(it[1]), it[4])
            if text.startswith(("tie.", "goal.")):
                continue
            for name in re.split(r"\s*,\s*", it[3]):
                out[name] = out.get(name, False) or bool(re.search(r"Type(\s+\S+)?$", text.strip()))
    return out


def respelt(name, is_type):
    if name in BY_HAND:
        return BY_HAND[name]
    if is_type and name[0].isupper():
        return "".join(it[:1].upper() + it[1:] for it in name.split("-"))
    if name[0].isupper() and "-" not in name:
        return name
    parts = []
    for it in name.split("-"):
        parts.append(re.sub(r"(?<=[a-z0-9])([A-Z])", lambda m: "_" + m[1].lower(), it))
    return "_".join(parts)


def names(paths):
    out = {}
    for name, is_type in declared(paths).items():
        if not re.search(r"[A-Za-z]", name) or name.startswith("+") or "◌" in name:
            continue
        new = respelt(name, is_type)
        if new != name:
            out[name] = new
    return out


def brought_in(text, crates):
    """The names that a file brings in from elsewhere than the repository's crates."""
    out = set()
    for line in text.split("\n"):
        it = USE.match(line)
        if not it:
            continue
        root = it[1].split(".")
        if root[0] == "Rattle" and len(root) > 1 and root[1] in crates:
            continue
        for one in (it[2] or "").split(","):
            words = one.split()
            out.update(words[:1] + words[2:])
    return out


def turned(text, new, keep, is_code):
    token = re.compile((r'"(?:[^"\\]|\\.)*"|' if is_code else "") + W)
    return token.sub(lambda m: m[0] if m[0] in keep else new.get(m[0], m[0]), text)


def main():
    antt, code = sources()
    new = names(antt)
    if "--list" in sys.argv[1:]:
        for old in sorted(new):
            print(f"{old}\t{new[old]}")
        return
    crates = set(os.listdir("crates"))
    changed = 0
    for path in antt + code:
        text = open(path, encoding="utf-8").read()
        here = dict(new)
        for place, other in IN_PLACE.items():
            if path.startswith(place):
                here.update(other)
        out = turned(text, here, brought_in(text, crates), path.endswith(".rt"))
        if out != text:
            open(path, "w", encoding="utf-8").write(out)
            changed += 1
    print(f"respell: {len(new)} names, {changed} files")


if __name__ == "__main__":
    main()
