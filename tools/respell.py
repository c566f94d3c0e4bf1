#!/usr/bin/env python3
"""Spells the repository's own definitions, fields, constructors and lemmas as today's Rattle does: words in snake case, types and modules in camel case.

usage: tools/respell.py [--list]        run once, at the top of the repository, on what port.py left; --list prints old and new names and writes nothing

Renamed are the names that files of specs/ and proofs/ declare, wherever antt reads them: in those files, in clauses of src/ and in must-fail edits. Functions of src/, strings and names that
the toolchain makes stay. A dash stays where it joins the names of two definitions, as in `length-list_below`. Where two names would fall together, the later kind gets `_lem`.
"""
import collections
import glob
import json
import os
import re
import sys

sys.dont_write_bytecode = True

DECLARED = re.compile(r"^( *)((?:abbrev |unfoldable |pub |data |record )*)([^\s(){}.;,@\"«»:]+)(?: \{[^{}\n]*\})* :")
NAME = re.compile(r"[^\s(){}\[\].;,@\"«»`]+")
CAMEL = re.compile(r"(?<=[a-z0-9])[A-Z]")
STD = set("length take drop set get_or replicate at max min map filter sum reverse append insert cons zero suc cond not refl sym ap subst omega".split())
# Names that would meet a word of the library or of Rust in the same text.
BY_HAND = {}
# Rattle has a library `log` of its own, so the crate of the call log has another name.
CRATES = {"log": "call_log"}


def snake(name):
    return CAMEL.sub(lambda m: "_" + m[0].lower(), name)


def antt_files(root="."):
    for part in ("specs", "proofs"):
        yield from glob.glob(os.path.join(root, "crates/*/" + part + "/**/*.antt"), recursive=True)


def derived(path):
    return "/Derived/" in path or "/proofs/" in path and os.path.basename(path) == "Tie.antt"


def by_hand_walk(path):
    return "/proofs/" in path and os.path.basename(path) == "Proof.antt"


def declared(root="."):
    """Each declared name with the kinds of its declarations: 'def' of specs/ (and constructors), 'field', 'lemma' of proofs/; and each record's fields with the words of its text."""
    kinds = collections.defaultdict(set)
    records = []
    for p in antt_files(root):
        if derived(p):
            continue
        walk = by_hand_walk(p)
        block = None
        for line in open(p, encoding="utf-8"):
            if line.lstrip().startswith("--") or not line.strip():
                continue
            if not line[0].isspace():
                head = re.match(r"(?:abbrev |unfoldable |pub )*(record|data|module)\b", line)
                block = head[1] if head else None
                if block == "record":
                    records.append((set(), set()))
            if block == "record" and records:
                records[-1][1].update(NAME.findall(line))
            m = DECLARED.match(line)
            if not m or walk and re.search(r": (\{[^}]*\} → )?(tie\.|statement)", line):
                continue
            indent, words, name = m.groups()
            if name[0].isupper() or not name[0].isalpha():
                continue
            if indent and block == "record":
                kinds[name].add("field")
                records[-1][0].add(name)
            elif indent and block is None:
                continue
            else:
                kinds[name].add("def" if "/specs/" in p else "lemma")
    return kinds, records


def harmful(a, b, kinds, records):
    """Whether two names may not become one: unless fields of records that do not speak of both."""
    if not ("field" in kinds[a] or "field" in kinds[b]):
        return True
    if kinds[a] - {"field"} and kinds[b] - {"field"}:
        return True
    return any((a in fields and b in words) or (b in fields and a in words) for fields, words in records)


def new_names(kinds, records):
    functions = {snake(n) for n, k in kinds.items() if "def" in k and "-" not in n} | STD
    new = {}
    for n, k in kinds.items():
        s = snake(n).replace("getD-", "get_or-").replace("-getD", "-get_or")
        parts = s.split("-")
        if "field" in k or "def" in k:
            s = "_".join(parts)
        else:
            out = parts[0]
            for i in range(1, len(parts)):
                left = out.split("-")[-1]
                right = any("_".join(parts[i:j]) in functions for j in range(i + 1, len(parts) + 1))
                out += ("-" if left in functions and right else "_") + parts[i]
            s = out
        new[n] = BY_HAND.get(n, s)
    by = collections.defaultdict(list)
    for n, s in new.items():
        by[s].append(n)
    fallen = []
    order = {"def": 0, "field": 1, "lemma": 2}
    for s, olds in by.items():
        olds.sort(key=lambda n: (min(order[k] for k in kinds[n]), n != s, n))
        taken = [(olds[0], s)]
        for n in olds[1:]:
            for i in range(9):
                to = s if i == 0 else s + "_lem" if i == 1 else f"{s}_lem{i}"
                if not any(t == to and harmful(n, o, kinds, records) for o, t in taken):
                    break
            new[n] = to
            taken.append((n, to))
        if len({t for _, t in taken}) > 1:
            fallen.append((s, olds))
    return {o: n for o, n in new.items() if o != n}, fallen


def respell_words(text, names):
    # The path of a `use` line names files and folders.
    path = re.match(r"(?:pub )?use [^{}\s]+", text)
    if path:
        return path[0] + respell_words(text[path.end() :], names) if text[path.end() :] else text
    return NAME.sub(lambda m: names.get(m[0], m[0]), text)


def respell_comment(text, names):
    """In a comment a hyphen may be English: only names in camel case, and what stands in backticks, are ours."""
    text = re.sub(r"`([^`]*)`", lambda m: "`" + respell_words(m[1], names) + "`", text)
    return re.sub(r"(?<![\w-])[a-z][a-z0-9]*(?:[A-Z][a-z0-9]*)+(?![\w-])", lambda m: names.get(m[0], m[0]), text)


def respell_line(line, names, comment):
    """Code of a line by its words, the comment behind it by respell_comment; text in quotes stays."""
    at = None
    quoted = False
    i = 0
    while i < len(line):
        if line[i] == '"':
            quoted = not quoted
        if not quoted and line.startswith(comment, i) and (comment != "--" or (i == 0 or line[i - 1] in " (") and (i + 2 >= len(line) or line[i + 2] in " \n")):
            at = i
            break
        i += 1
    code, rest = (line, "") if at is None else (line[:at], line[at:])
    pieces = re.split(r'("(?:[^"\\]|\\.)*")', code)
    code = "".join(p if p.startswith('"') else respell_words(p, names) for p in pieces)
    return code + respell_comment(rest, names)


MADE = re.compile(r"(?<![\w.-])(?:tie|reads|lts|[\w-]+-(?:reads|lts|tie))\.[^\s(){}.;,]+|(?<![\w.'-])c[′']?(?:\.before)*\.[^\s(){}.;,]+")


def respell_walk(text, names):
    """A proof by hand: what the toolchain names stays."""
    goals = set(re.findall(r"(?m)^([^\s:]+) : (?:\{[^}]*\} → )?(?:tie\.|statement)", text))
    own = {o: n for o, n in names.items() if o not in goals}
    out = []
    for line in text.splitlines(keepends=True):
        if re.match(r"use Rattle\.\S+ as \S+$", line.rstrip()):
            out.append(line)
            continue
        last, made = 0, ""
        for m in MADE.finditer(line):
            made += respell_line(line[last : m.start()], own, "--") + m[0]
            last = m.end()
        out.append(made + respell_line(line[last:], own, "--"))
    return "".join(out)


def rename_crates():
    for old, new in CRATES.items():
        os.rename(f"crates/{old}", f"crates/{new}")
        lines = []
        for line in open("crates.txt", encoding="utf-8"):
            if not line.startswith("#"):
                line = re.sub(rf"\b{old}\b", new, line)
            lines.append(line)
        open("crates.txt", "w", encoding="utf-8").write("".join(lines))
        for p in [*antt_files(), *glob.glob("crates/*/src/**/*.rt", recursive=True), *glob.glob("crates/*/must-fail/*.edit")]:
            text = open(p, encoding="utf-8").read()
            now = re.sub(rf"Rattle([.\u00b7]){old}([.\u00b7])", rf"Rattle\1{new}\2", text)
            if now != text:
                open(p, "w", encoding="utf-8").write(now)


# Fields of lent tables that fall together with the facts on them: the table's field has the plain name, and the fact the ending.
TABLE_FIELDS = "stop_counts first_drones first_stops second_drones second_stops".split()


def swap_facts():
    names = {n: n + "_lem" for n in TABLE_FIELDS} | {n + "_lem": n for n in TABLE_FIELDS} | {"dependency_count_lem": "dependency_count", "drone_flags_lem": "drone_flags"}
    word = re.compile(r"(?<![\w'-])(c[′']?(?:\.before)*\.[\w-]+\.)?(" + "|".join(sorted(names, key=len, reverse=True)) + r")(?![\w'-])")
    for p in [*antt_files(), *glob.glob("crates/*/src/**/*.rt", recursive=True)]:
        if derived(p):
            continue
        out = []
        for line in open(p, encoding="utf-8"):
            if p.endswith(".rt"):
                # In a clause a plain name is a parameter, and one with the ending a table's field.
                line = re.sub(r"\b(" + "|".join(n for n in names if n.endswith("_lem")) + r")\b", lambda m: names[m[1]], line)
            else:
                line = word.sub(lambda m: m[0] if m[1] and not m[2].endswith("_lem") else (m[1] or "") + names[m[2]], line)
            out.append(line)
        text = "".join(out)
        if text != open(p, encoding="utf-8").read():
            open(p, "w", encoding="utf-8").write(text)


def main():
    kinds, records = declared()
    names, fallen = new_names(kinds, records)
    for s, olds in fallen:
        print("fall together:", s, [(o, sorted(kinds[o]), names.get(o, o)) for o in olds], file=sys.stderr)
    if "--list" in sys.argv:
        json.dump(names, sys.stdout, indent=0, ensure_ascii=False)
        return
    for p in antt_files():
        if derived(p):
            continue
        old = open(p, encoding="utf-8").read()
        text = respell_walk(old, names) if by_hand_walk(p) else "".join(respell_line(l, names, "--") for l in old.splitlines(keepends=True))
        if text != old:
            open(p, "w", encoding="utf-8").write(text)
    rename_crates()
    # A name of src/ keeps its spelling: in .rt files only what Rust could not be called is ours.
    ours = {o: n for o, n in names.items() if "-" in o or CAMEL.search(o)}
    for p in glob.glob("crates/*/src/**/*.rt", recursive=True):
        old = open(p, encoding="utf-8").read()
        text = "".join(respell_line(l, ours, "//") for l in old.splitlines(keepends=True))
        if text != old:
            open(p, "w", encoding="utf-8").write(text)
    swap_facts()


if __name__ == "__main__":
    main()
