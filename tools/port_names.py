#!/usr/bin/env python3
"""Brings the repository's own names to today's spelling: words in snake case, types in upper camel case.

usage: port_names.py [--check]      at the top of the repository, once, after port.py

A word in lower camel case becomes snake case wherever it stands in an .antt file, a clause or a must-fail edit: Rust code, exported
names and strings have none. In the name of a lemma a dash stays where it joins the lemma to the definition that stands before it,
and is an underscore elsewhere. With --check it prints the table and the names that fall together, and writes nothing.
"""
import glob
import re
import sys

WORD = re.compile(r"(?<![\w'·◌-])[A-Za-z_ℤℕ][\w'₀₁₂₃ₛ]*(?:-[\w'₀₁₂₃]+)*(?![\w'-])")
# What a plain word before a dash has to be for the dash to stay: one of std's functions.
STD = {"length", "take", "drop", "set", "sets", "get_or", "mag", "map"}
# Names that would fall together with another one get a word more.
OTHER = {
    "in-z": "in_z_lem",
    "is-nan": "is_nan_lem",
    "load-saved": "load_saved_lem",
    "load-start": "load_start_lem",
    "y-enabled": "y_enabled_lem",
}


def snake(word):
    word = re.sub(r"([a-z0-9])([A-Z])", r"\1_\2", word)
    return word.lower()


def files():
    for pattern in ("crates/*/specs/**/*.antt", "crates/*/proofs/**/*.antt", "crates/*/src/**/*.rt", "crates/*/must-fail/*.edit"):
        yield from sorted(glob.glob(pattern, recursive=True))


def bare(text):
    return re.sub(r"--.*|//.*", "", text)


def defined():
    """The names that specs/ and proofs/ define: all of them, and those of lemmas, whose files lie in proofs/ itself or which Theorems cite."""
    names = set()
    for path in files():
        if path.endswith(".antt") and not re.search(r"/proofs/.*/(Proof|Answers|Invariants)\.antt$", path):
            with open(path, encoding="utf-8") as f:
                for block in re.split(r"\n(?=\S)", f.read()):
                    m = re.match(r"(?:(?:abbrev|unfoldable|opaque) )*(?:pub )?(?:record |data )?([^\s:(){}]+)(?: \{[^}]*\})*(?: \([^)]*\))* :\s", block)
                    if m:
                        names.add(m.group(1))
    return names


def table():
    names = defined()
    plain = {n for n in names if "-" not in n} | STD
    words, out = set(), {}
    for path in files():
        with open(path, encoding="utf-8") as f:
            words |= set(WORD.findall(f.read()))
    for w in words:
        parts = w.split("-")
        camel = [p for p in parts if re.match(r"[a-z]", p) and re.search(r"[a-z0-9][A-Z]", p)]
        new = [snake(p) if p in camel else p for p in parts]
        if w in names and len(parts) > 1:
            text = new[0]
            for i in range(1, len(parts)):
                text += ("-" if i == 1 and parts[0] in plain else "_") + new[i]
        elif camel:
            text = "-".join(new)
        else:
            continue
        text = OTHER.get(w, text)
        if text != w:
            out[w] = text
    return out


def main(argv):
    names = table()
    after = {}
    for old, new in names.items():
        after.setdefault(new, []).append(old)
    for new, olds in sorted(after.items()):
        if len(olds) > 1:
            print("together:", new, olds)
    for path in files():
        with open(path, encoding="utf-8") as f:
            text = f.read()
        words = set(WORD.findall(bare(text)))
        for w in sorted(words):
            if w in names and names[w] in words:
                print("together in", path + ":", w, names[w])
        if "--check" in argv:
            continue
        new = WORD.sub(lambda m: names.get(m.group(0), m.group(0)), text)
        if new != text:
            with open(path, "w", encoding="utf-8") as f:
                f.write(new)
    if "--check" in argv:
        for old in sorted(names):
            print(old, names[old])


main(sys.argv[1:])
