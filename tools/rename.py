#!/usr/bin/env python3
"""Turns the repository's own camel-case names of definitions, lemmas, fields and variables to snake case, once, after the kit's port.py.

usage: tools/rename.py          in the repository: rewrites the .rt, .antt and .edit files below crates/
       tools/rename.py --list   says what it would rename, and where the new name is in use already

Types, modules and facts keep their capitals; functions of src/, exported names, strings and outputs have no such names.
"""
import os
import re
import sys

# Lemmas that have the name which the function they speak of now gets, by the crate that holds and cites them.
LEMMAS = {
    "thread_entry": ["many_more"],
    "statement": ["field_in", "field_next", "word_end"],
    "machine": ["turns_at", "chosen_at"],
    "turn_counts": ["turns_at"],
    "interpreter": ["turns_at"],
    "trace": ["turns_at"],
    "night": ["turns_at"],
    "image": ["read_number", "entry_in"],
}
# Names whose snake case is taken in a file that knows both.
OTHER = {"oneMore": "one_more_turn"}
CAMEL = re.compile(r"(?<![\w.'])[a-z][a-z0-9]*(?:[A-Z][A-Za-z0-9]*)+(?![\w'])|(?<=\.)[a-z][a-z0-9]*(?:[A-Z][A-Za-z0-9]*)+(?![\w'])")


def snake(name):
    if name in OTHER:
        return OTHER[name]
    name = re.sub(r"([a-z0-9])([A-Z])", r"\1_\2", name)
    return re.sub(r"([A-Z])([A-Z][a-z])", r"\1_\2", name).lower()


def files():
    for folder, dirs, names in os.walk("crates"):
        dirs[:] = sorted(d for d in dirs if d != "out")
        for name in sorted(names):
            if name.endswith((".rt", ".antt", ".edit")):
                yield os.path.join(folder, name)


def lemmas(path, text):
    crate = path.split("/")[1]
    for name in LEMMAS.get(crate, []):
        if "/proofs/" in path:
            # not a part of a path, and not a step or field of a need
            text = re.sub(rf"(?<![\w.'-]){name}(?![\w'.`-])", name + "_lem", text)
    return text


def specs(path, text):
    """The proof of a function f_g is f_g_spec."""
    name = path.split("/")[-2]
    if path.endswith("/Proof.antt"):
        for f in name.strip("+").split("+") + [name.strip("+")]:
            text = re.sub(rf"(?<![\w.'-]){f.replace('_', '-')}-spec(?![\w'-])", f + "_spec", text)
    return text


def main():
    listing = "--list" in sys.argv
    for path in files():
        with open(path, encoding="utf-8") as f:
            text = f.read()
        new = specs(path, lemmas(path, text))
        names = sorted(set(CAMEL.findall(new)))
        if listing:
            for n in names:
                hit = re.findall(rf"(?<![\w.'`-]){snake(n)}(?![\w'`-])(?!\.[A-Za-z{{])", new)
                if hit:
                    print(f"{path}: {n} and {snake(n)} ({len(hit)})")
            continue
        new = CAMEL.sub(lambda m: snake(m[0]), new)
        if new != text:
            with open(path, "w", encoding="utf-8") as f:
                f.write(new)


main()
