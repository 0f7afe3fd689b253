#!/usr/bin/env python3
"""Brings the names of definitions and lemmas to today's spelling: words in snake case.

usage: python3 tools/spelling.py        at the top, once, after port.py
       python3 tools/spelling.py --list  prints each old name with its new one, and writes nothing

`zoneTariff` becomes `zone_tariff`, `refused-exactly-when` becomes `refused_exactly_when`. A dash stays where it joins names of operations (`sum-add`), behind a name that
begins with a capital or a symbol (`Σ-add`), and in what Rattle makes (goals and steps). Where the new name would meet another one in some file, as a lemma's that of the
definition it is about, it gets `_lem`. Names of src/, strings and outputs stay. Comments follow the code.
"""
import collections
import glob
import re
import sys

NAME = r"[^\s(){}\[\].;,@\"«»`:=|]+"
WORD = re.compile(NAME)
STRING = re.compile(r'"(?:[^"\\\n]|\\.)*"')
LIBRARY = re.compile(r"^\s*(?:pub )?(?:ghost )?use (?!Rattle\.(?!std\b|core\b))(\S+?)\.\{([^}]*)\}", re.M)
ALIAS = re.compile(r"use (\S+) as (\S+)")
MADE = re.compile(r"\.(Tie|Goals|Given|Statement|Lts|Code|Met|Reads|Kinds)$")
DECLARED = re.compile(r"^\s*(?:(?:abbrev|unfoldable|pub)\s+)*(?:record\s+|data\s+)?(\S+)\s*(?:\(.*\)|\{.*\}|\s)*:(?!:)")
FIELD = re.compile(r"^ +pub (\S+-\S+) :")
OPERATIONS = set("add mul sub neg abs suc zero one cons append le lt ge gt max min and or not div mod pow bit sum count mag pos length take drop get set map".split())
UNITS = {"kW", "kV", "mW"}
# A lemma that would have its function's name.
LEMMAS = {("sizes", "in-all"): "in_all_lem", ("sizes", "in_all"): "in_all_lem", ("sizes", "node-lines"): "node_lines_lem", ("sizes", "node_lines"): "node_lines_lem", ("", "run-length"): "run_length_lem", ("", "run_length"): "run_length_lem"}


def read(path):
    with open(path, encoding="utf-8", newline="") as it:
        return it.read()


def texts():
    out = {}
    for kind in ("specs/**/*.antt", "proofs/**/*.antt", "src/**/*.rt"):
        for path in sorted(glob.glob("crates/*/" + kind, recursive=True)):
            out[path] = read(path)
    return out


def snake(word):
    return re.sub(r"(?<=[A-Za-z0-9])[A-Z]", lambda m: "_" + m[0].lower(), word)


def is_camel(part):
    bare = part.strip("◌'_")
    return bool(re.match(r"^[a-z][a-z0-9_]*[A-Z]", bare)) and bare not in UNITS


def code(line):
    return STRING.sub('""', re.sub(r"(?<!\S)--.*|//.*", "", line))


def of_function(path):
    """A file of one function's proof: what it declares at goals is Rattle's name."""
    return path.endswith(("/Proof.antt", "/Answers.antt", "/Invariants.antt"))


def respelled(word):
    parts = word.split("-")
    parts = [snake(it) if is_camel(it) else it for it in parts]
    plain = "-".join(parts)
    if len(parts) == 1:
        return plain
    if not re.match(r"^[a-z]", word) or all(it in OPERATIONS for it in parts) or "" in parts:
        return plain
    return "_".join(parts)


def table(all_texts):
    words = {path: set(WORD.findall(text)) for path, text in all_texts.items()}
    camel = {w for s in words.values() for w in s if any(is_camel(it) for it in w.split("-"))}
    declared, fields, library = set(), set(), set()
    for path, text in all_texts.items():
        for m in LIBRARY.finditer(text):
            library.update(it.split(" as ")[0].strip() for it in m[2].split(","))
        if path.endswith(".rt"):
            continue
        for line in text.splitlines():
            f = FIELD.match(line)
            if f:
                fields.add(f[1])
            d = DECLARED.match(code(line))
            if d and "-" in d[1] and not of_function(path) and re.match(r"^[a-z]", d[1]):
                declared.add(d[1])
    names = {w: respelled(w) for w in camel}
    names.update({w: respelled(w) for w in (declared | fields) - library})
    names = {a: b for a, b in names.items() if a != b}
    # names that fall together: in some file both spellings stand, or two old names get one new
    met = collections.defaultdict(set)
    for path, has in words.items():
        new = collections.defaultdict(set)
        for w in has:
            new[names.get(w, w)].add(w)
        for n, olds in new.items():
            if len(olds) > 1:
                for o in olds & set(names):
                    if "-" in o and not any(is_camel(it) for it in o.split("-")):
                        met[o].add(path)
    everywhere = set().union(*words.values())
    for o in met:
        names[o] += "_lem"
        if names[o] in everywhere:
            raise SystemExit(f"spelling: {names[o]} is taken")
    return names, fields, met


def turned(path, text, names, fields):
    crate = path.split("/")[1]
    heads = {a for p, a in ALIAS.findall(text) if not MADE.search(p)}
    proof = of_function(path)
    out, at = [], 0
    for m in WORD.finditer(text):
        w = m[0]
        out.append(text[at : m.start()])
        at = m.end()
        line = text.rfind("\n", 0, m.start()) + 1
        before = text[line : m.start()]
        new = LEMMAS.get((crate, w)) or LEMMAS.get(("", w)) if path.endswith(".antt") else None
        new = new or names.get(w, w)
        if (crate, w) in LEMMAS or ("", w) in LEMMAS:
            # only the lemma: a step, a field or a module of that name stays
            if before.endswith(".") or text[m.end() : m.end() + 1] == ".":
                new = w
        if STRING.sub("", before).count('"') % 2:
            new = w
        in_comment = re.search(r"(?<!\S)--|//", before)
        if new != w and "-" in w and not any(is_camel(it) for it in w.split("-")):
            if in_comment and not before.endswith("`"):
                new = w
            elif before.endswith(".") and not in_comment:
                head = re.search(r"([^\s(){}\[\].;,]+)\.$", before)
                is_module = head and (re.match(r"[A-Z]", head[1]) or head[1] in heads)
                if not is_module and w not in fields:
                    new = w
            elif proof and DECLARED.match(text[line:].split("\n", 1)[0]) and re.search(r": tie\.", text[line:].split("\n", 1)[0]) and not before.strip():
                new = w
        out.append(new)
    out.append(text[at:])
    return "".join(out)


def main():
    all_texts = texts()
    names, fields, met = table(all_texts)
    if "--list" in sys.argv:
        for a, b in sorted(names.items()):
            print(a, b)
        for a in sorted(met):
            print("meets another:", a, "in", *sorted(met[a])[:2])
        return
    for path, text in all_texts.items():
        new = turned(path, text, names, fields)
        if new != text:
            with open(path, "w", encoding="utf-8", newline="") as it:
                it.write(new)
    print(f"spelling: {len(names)} names; {len(met)} of them with _lem, since the new name would meet another")


if __name__ == "__main__":
    main()
