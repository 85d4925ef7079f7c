#!/usr/bin/env python3
"""Respells the repository's own definitions and lemmas as today's Rattle spells its own: words in snake case, a prime as an apostrophe.

usage: tools/spell_names.py [--check]

    butterflyOf, bit-ofBits, getD-zeros, logTo64  ->  butterfly_of, bit-of_bits, get_or-zeros, log_to_64

It goes over crates/ (.antt whole; of .rt files the `ghost use` lines and the clauses; must-fail edits), and over the names in backticks of
README.md, CHANGELOG.md and docs/. A dash goes on joining the parts of a name. Functions of src/, exported names, strings, inputs and outputs
are not touched. --check writes nothing and lists each old name, its new one, and what else in the repository has the new name.
Run once, after the kit's port.py. A second run writes nothing more.
"""

import os
import re
import subprocess
import sys

TOKEN = re.compile(r"[^\s(){}.;,:@\"«»\[\]\\`|/<>=&!*+]+")
CAMEL = re.compile(r"[a-z][a-z0-9]*(?:[A-Z][a-z0-9]*)+")
# What the library calls now what the repository's lemmas were named after.
SPECIAL = {"getD": "get_or"}
# Lemmas whose name a definition gets: a lemma that would have its function's name ends in _lem.
LEMMAS = {
    ("crates/network/", "in_use"),
    ("crates/permute/", "in_use"),
    ("crates/despeckle/", "new_word"),
    ("crates/gather/proofs/Joining.antt", "count_at"),
}


def spelled(part):
    """One part of a name, between dashes."""
    head = re.match(r"[A-Za-z0-9]*", part).group(0)
    tail = part[len(head):]
    if head in SPECIAL:
        return SPECIAL[head] + tail
    if not CAMEL.fullmatch(head):
        return part
    words = re.findall(r"[a-z]+|[A-Z][a-z]*|[0-9]+", head)
    out = words[0].lower()
    for before, word in zip(words, words[1:]):
        # A number after a word of one letter belongs to it, as in s1.
        out += ("" if word.isdigit() and len(before) == 1 else "_") + word.lower()
    return out + tail


def respelled(name):
    if "_" in name and not CAMEL.search(name):
        return name
    return "-".join(spelled(part) for part in name.split("-")).replace("′", "'")


def in_text(text, names=None):
    def one(m):
        new = respelled(m.group(0))
        if names is not None and new != m.group(0):
            names.setdefault(m.group(0), new)
        return new

    return TOKEN.sub(one, text)


def in_antt(text, names, path):
    """Comments too: they cite definitions."""
    lemmas = {old for top, old in LEMMAS if path.startswith(top)}
    if lemmas and names:
        text = TOKEN.sub(lambda m: m.group(0) + "_lem" if m.group(0) in lemmas else m.group(0), text)
    return in_text(text, names)


def in_rt(text, names):
    """The ghost items and the clauses: what stands in braces after requires, ensures or ghost, at the beginning of a line."""
    out, at = [], 0
    for m in re.finditer(r"(?m)^\s*(?:ghost use [^;]*;|(?:requires|ensures|ghost)\*?(?: \w+:?)? \{)", text):
        if m.start() < at:
            continue
        end = m.end()
        if text[end - 1] == "{":
            depth = 1
            while depth:
                depth += {"{": 1, "}": -1}.get(text[end], 0)
                end += 1
        out += [text[at:m.start()], in_text(text[m.start():end], names)]
        at = end
    return "".join(out) + text[at:]


def in_edit(text, names, known):
    """An edit of a definition is all antt. An edit of code may hold a clause; only names that the crates have are turned there."""
    if "file: specs/" in text:
        return in_text(text, names)
    return TOKEN.sub(lambda m: known.get(m.group(0), m.group(0)), text)


def in_page(text, known):
    return re.sub(r"`[^`\n]+`", lambda m: TOKEN.sub(lambda n: known.get(n.group(0), n.group(0)), m.group(0)), text)


def below(*tops):
    for top in tops:
        if os.path.isfile(top):
            yield top
        for folder, dirs, files in os.walk(top):
            dirs[:] = sorted(d for d in dirs if d not in ("out", "target", ".git"))
            for f in sorted(files):
                yield os.path.join(folder, f)


def main(argv):
    check = "--check" in argv
    root = subprocess.run(["git", "rev-parse", "--show-toplevel"], capture_output=True, text=True, check=True).stdout.strip()
    os.chdir(root)
    names, new = {}, {}
    files = list(below("crates", "README.md", "CHANGELOG.md", "docs"))
    read = {f: open(f, encoding="utf-8").read() for f in files if f.endswith((".antt", ".rt", ".edit", ".md"))}
    for f, t in read.items():
        if f.endswith(".antt"):
            in_text(t, names)
        elif f.endswith(".rt"):
            in_rt(t, names)
    for f, t in read.items():
        if f.endswith(".antt"):
            new[f] = in_antt(t, names, f)
        elif f.endswith(".rt"):
            new[f] = in_page(in_rt(t, names), names)
    for f, t in read.items():
        if f.endswith(".edit"):
            new[f] = in_edit(t, names, names)
    for f, t in read.items():
        if f.endswith(".md"):
            new[f] = in_page(t, names)
    if check:
        words = {}
        for f, t in read.items():
            if f.endswith((".antt", ".rt")):
                for w in set(TOKEN.findall(t)):
                    words.setdefault(w, set()).add(f)
        for old, now in sorted(names.items()):
            print(f"{old}\t{now}\t{' '.join(sorted(words.get(now, ()))[:4])}")
        return 0
    for f, t in new.items():
        if t != read[f]:
            with open(f, "w", encoding="utf-8") as out:
                out.write(t)
    print(f"{len(names)} names, {sum(t != read[f] for f, t in new.items())} files")
    return 0


if __name__ == "__main__":
    raise SystemExit(main(sys.argv[1:]))
