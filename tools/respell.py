#!/usr/bin/env python3
"""Spells the repository's own definitions and lemmas as today's Rattle does: words in snake case with plain underscores, types in
camel case. It was run once, right after the kit's port.py (docs/PORT.md), and writes the files of crates/ in place.

usage: respell.py [--check]      at the top of the repository; --check only lists what it would rename

Turned are the names that specs/ and the lemma files of proofs/ declare, wherever specs, proofs, clauses and comments name them. Names
of functions in src/ are not touched, nor what Rattle makes of them in a proof (tie.Need-.., the steps behind c.)."""

import collections
import glob
import os
import re
import sys

# A name of antt: what stands between these.
WORD = re.compile(r'[^\s(){}.;,@"«»`⦃⦄]+')
DECLARED = re.compile(r"(?m)^[ \t]*(?:(?:abbrev|unfoldable|pub|pattern|axiom) +)*(?:(?:data|record) +)?([^\s:(){}.;,@\"«»]+)(?:[ \t]*\{[^}\n]*\}|[ \t]*\([^)\n]*\))*[ \t]*:(?=\s)")
# A tactic's name, and names that would fall together with another of the same file: a lemma that would have its function's name ends
# in _lem.
BY_HAND = {
    "first_of": "first_holding",
    "asLong": "is_as_long",
    "bit-and": "bit-of_and",
    "bit-or": "bit-of_or",
    "columns_of": "columns_of_lem",
    "core-step": "core_step_lem",
    "entry_in": "entry_in_lem",
    "fits-of": "fits_of_lem",
    "has-keys": "has_all_keys",
    "in-range": "each_in_range",
    "is-ended": "has_ended",
    "no-entry": "no_entry_lem",
    "no-state": "no_state_lem",
    "of_number": "of_number_lem",
    "of-turn": "of_turn_lem",
    "step-records": "step_records_lem",
    "text_in": "text_in_lem",
    "value-at": "value_at_lem",
}


def snake(name):
    # W, P and the like behind a word are a word of their own: jobW is job_w
    words = re.sub(r"(?<=[a-z0-9])[A-Z]", lambda m: "_" + m[0].lower(), name)
    return words.replace("-", "_")


def camel(name):
    return "".join(w[:1].upper() + w[1:] for w in re.split(r"[-_]", name))


def spec_files():
    for f in sorted(glob.glob("crates/*/specs/**/*.antt", recursive=True) + glob.glob("crates/*/proofs/*.antt")):
        if not f.endswith("/Lib.antt"):
            yield f


def signature(text, at):
    """The type behind a declaration's colon: the lines up to one that is not indented deeper."""
    start = text.rfind("\n", 0, at) + 1
    indent = len(text[start:]) - len(text[start:].lstrip())
    lines = text[at:].split("\n")
    out = [lines[0]]
    for l in lines[1:]:
        if l.strip() and len(l) - len(l.lstrip()) > indent and not l.strip().startswith("--"):
            out.append(l)
        else:
            break
    return " ".join(out)


def table():
    declared, typed = collections.Counter(), set()
    for f in spec_files():
        text = open(f, encoding="utf-8").read()
        code = re.sub(r"--[^\n]*", lambda m: " " * len(m[0]), text)
        for m in DECLARED.finditer(code):
            name = m[1]
            declared[name] += 1
            sig = signature(code, m.end())
            if re.search(r"(?:→|^)\s*Type\s*(?:\d|ℓ|\()?[\w\s]*\)?\s*(?:where)?\s*$", sig.strip()) and name[:1].islower():
                typed.add(name)
    rows = {}
    for name in declared:
        if name in BY_HAND:
            rows[name] = BY_HAND[name]
        elif name in typed:
            rows[name] = camel(name)
        elif name[:1].islower() and re.search(r"[a-z0-9][A-Z]|[a-z0-9]-[a-z0-9]", name):
            rows[name] = snake(name)
        elif re.fullmatch(r"[A-Z]\w*-.*", name):
            pass  # a type at the head of a lemma's name keeps its dash
    return {o: n for o, n in rows.items() if o != n}, declared, typed


def main(argv):
    rows, declared, typed = table()
    met = collections.defaultdict(list)
    for name in declared:
        met[rows.get(name, name)].append(name)
    for new, olds in sorted(met.items()):
        if len(olds) > 1:
            print("falls together:", new, olds)
    print("types:", sorted((o, rows[o]) for o in typed if o in rows))
    if argv[:1] == ["--check"]:
        for o in sorted(rows):
            print(o, rows[o])
        return
    files = [f for f in glob.glob("crates/**/*", recursive=True) if f.endswith((".antt", ".rt")) and "/out/" not in f]
    for f in sorted(files):
        text = open(f, encoding="utf-8").read()
        new = turned(text, rows, f)
        if new != text:
            open(f, "w", encoding="utf-8").write(new)


def turned(text, rows, f):
    if f.endswith(".antt"):
        return WORD.sub(lambda m: rows.get(m[0], m[0]), text)

    # In .rt only tokens that no Rust name can be, and the names of ghost text: a name with a capital behind a small letter or a dash.
    def word(m):
        o = m[0]
        return rows[o] if o in rows and (re.search(r"[a-z0-9][A-Z]|-", o) or in_ghost(text, m.start())) else o

    return WORD.sub(word, text)


def in_ghost(text, at):
    line = text[text.rfind("\n", 0, at) + 1 : at]
    return bool(re.search(r"ghost use|requires|ensures", line))


if __name__ == "__main__":
    main(sys.argv[1:])
