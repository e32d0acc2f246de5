#!/usr/bin/env python3
"""Brings the names of definitions and lemmas to snake case: neighboursOf becomes neighbours_of, row-of-start becomes row_of_start.

usage: python3 tools/respell.py [--list]     at the top of the repository, once, behind port.py

Renamed are the names that specs/ and the lemma files of proofs/ declare: definitions, lemmas, fields, constructors and local helpers.
Functions of src/, names that the checker makes, strings, types and modules keep theirs. --list prints the table and writes nothing.
Where a definition and a lemma would get one name, the lemma's ends in _lem.
"""
import collections
import glob
import re
import subprocess
import sys
import tempfile

SNAKE = "/opt/rattle/port/notes/2026-11-18-names-are-in-snake-case/snake.py"

ID = r"[^\s(){}\[\].,;:@\"«»λ→↦⊎×≡∷]+"
HEAD = re.compile(r"^\s*(?:(?:pub|unfoldable|abbrev|opaque|irrelevant)\s+)*(" + ID + r"(?:\s+" + ID + r")*)\s*:(?:\s|$)")
# where two names would become one, a lemma gets _lem; some get a better word
OTHER = {
    "mostNodes": "most_nodes_of",
    "mostLinks": "most_links_of",
    "most-nodes": "most_nodes_bound",
    "most-links": "most_links_bound",
    "bit-and": "bit-bit_and",
    "bit-or": "bit-bit_or",
    "by-link": "by_link_iff",
    "listing-of": "listing_asked",
    "hub-list": "hubs_left",
    "first-of": "first_of_lem",
    "once_after": "once_after_lem",
    "first_says": "first_says_lem",
    "in_group": "within_group",
    "is_open": "open_still",
    "edges-taken": "edges_taken_lem",
    "hub-part": "hub_part_lem",
}


# spelled so by the library, too
LEAVE = {"or-false", "not-not"}


def snake(name):
    parts = name.replace("′", "'").split("-")
    out = []
    for p in parts:
        if re.fullmatch(r"[A-Z]\w*'*", p):
            out.append(p)
        else:
            out.append(re.sub(r"(?<=[a-z0-9])([A-Z])", lambda m: "_" + m.group(1).lower(), p))
    return "_".join(out)


def wanted(name):
    return (re.match(r"^[a-zA-Z][\w'′-]*$", name) or re.match(r"^[\wℕ₀-₉'′-]+$", name)) and name != snake(name) and not re.match(r"^[A-Z]", name)


def declared(path):
    names = set()
    for line in open(path, encoding="utf-8"):
        if line.lstrip().startswith("--"):
            continue
        m = HEAD.match(line.rstrip("\n"))
        if m:
            for n in m.group(1).split():
                if wanted(n):
                    names.add(n)
    return names


def table():
    names = set(OTHER)
    for p in sorted(glob.glob("crates/*/specs/*.antt") + glob.glob("crates/*/proofs/*.antt")):
        names |= declared(p) - LEAVE
    new = {n: OTHER.get(n, snake(n)) for n in names}
    camel = {new[n] for n in names if "-" not in n and n not in OTHER}
    for n in names:
        if "-" in n and n not in OTHER and new[n] in camel:
            new[n] += "_lem"
    return new


def main():
    new = table()
    together = collections.Counter(new.values())
    for n in sorted(new):
        if together[new[n]] > 1:
            raise SystemExit(f"fall together: {n} as {new[n]}")
    if "--list" in sys.argv:
        for n in sorted(new):
            print(n, new[n], sep="\t")
        return
    with tempfile.NamedTemporaryFile("w", suffix=".tsv", encoding="utf-8") as f:
        f.writelines(f"{n}\t{new[n]}\n" for n in sorted(new))
        f.flush()
        subprocess.run([sys.executable, SNAKE, "--table", f.name, "--only", "antt,rt", "crates"], check=True)


main()
