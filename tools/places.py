#!/usr/bin/env python3
"""Lists the places in src/ that docs/DESIGN-PASS.md counts, by the number of its points. usage: places.py [ROOT] [POINT], of a checkout, and of one point"""

import collections
import glob
import re
import sys

WIDTH = re.compile(r"(8|16|32|64)(?=$|_)")
BY_HAND = re.compile(
    r"wide\d+|pair|\w+_differ|copy_\w+|narrower|at_most_\d+|up_to_\d+|run_of|bits\d+|sign\d+|signed\d+|wrapped\d+|added|negated"
    r"|(no_op|refused|reason|refusal|host|normal|file_refusal)_number|(store|put)_word|chosen\d*|kept_if"
)


def sources(root):
    for path in sorted(glob.glob(f"{root}/crates/*/src/*.rt")):
        yield path.split("/crates/")[1].split("/")[0], open(path).read()


def without_comments(text):
    return re.sub(r"//[^\n]*", "", text)


def functions(text):
    """Name, parameters, result, clauses and body of each function, in order."""
    text = without_comments(text)
    for m in re.finditer(r"^( *)(?:pub )?(?:extern \"C\" )?fn (\w+)(?:<[^(]*>)?\(", text, re.M):
        deep, end = 1, m.end()
        while deep:
            deep += {"(": 1, ")": -1}.get(text[end], 0)
            end += 1
        parameters = text[m.end() : end - 1]
        found = re.compile(rf"^{m[1]}\{{\n(.*?)^{m[1]}\}}|;\n", re.M | re.S).search(text, end)
        head = text[end : found.start()] if found else ""
        yield m[2], parameters, head, (found[1] or "") if found else ""


def enums(root):
    """1: enums, structs with a flag, functions that turn a kind into a number or say by a bool whether a thing was done"""
    for crate, text in sources(root):
        plain = without_comments(text)
        for m in re.finditer(r"enum (\w+) \{(.*?)\n\}", plain, re.S):
            yield f"{crate}::{m[1]} {{{', '.join(re.sub(r'[({=,].*', '', v).strip() for v in m[2].split(chr(10)) if v.strip())}}}"
        for m in re.finditer(r"struct (\w+)[^;{]*\{(.*?)\n\}", plain, re.S):
            flags = re.findall(r"(\w+): bool", m[2])
            if flags:
                yield f"{crate}::{m[1]}, flags {' '.join(flags)}"
        for name, parameters, head, body in functions(text):
            if name.endswith("_number") and "->" in head:
                yield f"{crate}::{name}"
            if "-> bool" in head and "&mut" in parameters + "io" and re.search(r"\bErr\(", body):
                yield f"{crate}::{name}, a bool for what failed"
        for m in re.finditer(r"const (OWN)\b", plain):
            yield f"{crate}::{m[1]}, a number for none"


def twins(root):
    """2: functions of a crate whose names differ in a width or in x and y alone, or whose bodies are the same but for names and numbers"""
    for crate, text in sources(root):
        by_name, by_body = collections.defaultdict(list), collections.defaultdict(list)
        for name, parameters, head, body in functions(text):
            by_name[re.sub(r"^[xy]_", "", WIDTH.sub("", name))].append(name)
            shape = re.sub(r"\b\w+\b", lambda w: "N" if w[0][0].isdigit() else re.sub(r"(8|16|32|64)$", "", w[0]), body)
            if body.count("\n") > 1:
                by_body[re.sub(r"\b\w+(?=[(.])", "f", shape)].append(name)
        groups = [set(g) for g in (*by_name.values(), *by_body.values()) if len(set(g)) > 1]
        merged = []
        for g in groups:
            for other in [o for o in merged if o & g]:
                merged.remove(other)
                g = g | other
            merged.append(g)
        for g in merged:
            yield f"{crate}: {' '.join(sorted(g))}"


def loops(root):
    """3: loops that count an index"""
    for crate, text in sources(root):
        for name, parameters, head, body in functions(text):
            for m in re.finditer(r"^ *(for \w+ in [^{]*\.\.[^{]*|while [^{]*<[^{]*|loop )\{", body, re.M):
                yield f"{crate}::{name}: {m[1].strip()}"


def by_hand(root):
    """4: functions that compare, copy, choose the less, convert or print by hand"""
    for crate, text in sources(root):
        for name, parameters, head, body in functions(text):
            if BY_HAND.fullmatch(name):
                yield f"{crate}::{name}"
        for m in re.finditer(r"std::num::wrapping_\w+", without_comments(text)):
            yield f"{crate}: {m[0]}"


def facts(root):
    """5: a conjunct of requires in three functions or more; three parameters that travel together in three or more"""
    clauses, sets = collections.Counter(), collections.Counter()
    for crate, text in sources(root):
        for name, parameters, head, body in functions(text):
            for clause in re.findall(r"requires[^{]*\{(.*?)\}\n", head + "\n", re.S):
                for fact in re.split(r"×", clause):
                    fact = re.sub(r"[\s()]+", " ", fact).strip()
                    fact = re.sub(r"\b(state|registers|s)\.", "state.", fact)
                    clauses[fact] += 1
            names = re.findall(r"(\w+): ([^,]+?)(?:,|$)", parameters.replace("\n", " "))
            names = [f"{n}: {t.strip()}" for n, t in names if n != "state"]
            for i in range(len(names)):
                for j in range(i + 1, len(names)):
                    sets[(crate, names[i], names[j])] += 1
    for fact, n in clauses.most_common():
        if n >= 3:
            yield f"{n} requires: {fact}"
    for (crate, a, b), n in sets.most_common():
        if n >= 5:
            yield f"{n} functions of {crate}: {a}, {b}"


def buffers(root):
    """6: a buffer with a position or a length beside it"""
    for crate, text in sources(root):
        for name, parameters, head, body in functions(text):
            flat = re.sub(r"\s+", " ", parameters)
            if re.search(r"&(?:mut )?\[u8\], (?:at|from|n): (usize|u32)", flat):
                yield f"{crate}::{name}"
        for m in re.finditer(r"struct (\w+) \{[^}]*\[u8; \d+\],[^}]*: usize,", without_comments(text)):
            yield f"{crate}::{m[1]}"


def switches(root):
    """7: functions that choose a step by a number or a flag and call another with the same arguments"""
    for crate, text in sources(root):
        for name, parameters, head, body in functions(text):
            if len(re.findall(r"(?:if \w+(?: == \d+)? \{|\d+ =>)\s*(?:return )?[\w:]+\(", body)) >= 2:
                yield f"{crate}::{name}"


def proofs(root):
    """8: proofs that differ in a number or in the function's name alone"""
    groups = collections.defaultdict(list)
    for path in sorted(glob.glob(f"{root}/crates/*/proofs/**/*.antt", recursive=True)):
        folder, file = path.split("/crates/")[1].rsplit("/", 1)
        if file not in ("Answers.antt", "Invariants.antt"):
            continue
        function = folder.rsplit("/", 1)[1]
        text = re.sub(r"^use [^\n]*\n", "", open(path).read(), flags=re.M)
        groups[file, re.sub(r"\d+", "N", text.replace(function, "F"))].append(folder)
    for (file, text), folders in groups.items():
        if len(folders) > 1 and text.count("\n") > 3:
            yield f"{file}: {' '.join(folders)}"


POINTS = {1: enums, 2: twins, 3: loops, 4: by_hand, 5: facts, 6: buffers, 7: switches, 8: proofs}


def main(words):
    root = next((w for w in words if not w.isdigit()), ".")
    wanted = [int(w) for w in words if w.isdigit()] or list(POINTS)
    for point in wanted:
        places = list(POINTS[point](root))
        print(f"point {point}: {len(places)} places")
        for place in places:
            print(f"  {place}")


if __name__ == "__main__":
    main(sys.argv[1:])
