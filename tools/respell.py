#!/usr/bin/env python3
"""Spells this repository's own definitions and lemmas as the library spells its: snake case, types and modules in camel case.

usage: respell.py [FOLDER]      at the top of the repository, once, after the toolkit's own script has run

spelling.tsv beside this file has a row for each name. Turned are the texts of specs/ and proofs/, the clauses and `ghost use` items of src/,
and the edits of must-fail/ and checks/edits. Functions of src/, exported names and strings keep their names. In a proof that walks the code a name
right after a dot stays, unless it is a field of a record of ours. A line 'look:' names a clause in which a parameter is spelled like a new name.
"""
import glob
import os
import re
import sys

HERE = os.path.dirname(os.path.abspath(__file__))
TOP = sys.argv[1] if len(sys.argv) > 1 else os.path.join(HERE, "..")
WORD = re.compile(r'--[^\n]*|"(?:[^"\\\n]|\\.)*"|[^\s(){}.;,@"«»\[\]]+')
RT_WORD = re.compile(r"[^\s(){}.;,@\"«»\[\]<>&!:=+*/?|^%]+(?:-[^\s(){}.;,@\"«»\[\]<>&!:=+*/?|^%]+)*")

everywhere, in_crate = {}, {}
for row in open(os.path.join(HERE, "spelling.tsv"), encoding="utf-8"):
    if row.startswith("#"):
        continue
    it = row.rstrip("\n").split("\t")
    if len(it) == 3:
        in_crate.setdefault(it[2], {})[it[0]] = it[1]
    else:
        everywhere[it[0]] = it[1]


def fields():
    """The fields of the records that specs/ and proofs/ declare."""
    names = set()
    for path in glob.glob(os.path.join(TOP, "crates/*/*/**/*.antt"), recursive=True):
        inside = None
        for line in open(path, encoding="utf-8"):
            head = re.match(r"^(\s*)(?:pub\s+)?(record|data)\s", line)
            depth = len(line) - len(line.lstrip())
            if head:
                inside = (len(head.group(1)), head.group(2))
            elif inside and line.strip() and depth <= inside[0]:
                inside = None
            elif inside and inside[1] == "record":
                field = re.match(r"^\s*(?:pub\s+)?(\S+)\s+:\s", line)
                if field:
                    names.add(field.group(1))
    return names


FIELDS = fields()


def turned(word, table):
    return table.get(word, word)


def antt(text, table, walk):
    def put(found):
        word = found.group(0)
        if word.startswith("--"):
            return re.sub(r"`([^`\n]+)`", lambda s: "`" + WORD.sub(put_plain, s.group(1)) + "`", word) if not walk else word
        if word.startswith('"'):
            return word
        behind = found.start() and text[found.start() - 1] == "."
        if behind and walk and word not in FIELDS:
            before = re.search(r"(\S+)\.$", text[: found.start()])
            if not (before and re.match(r"\(*[A-Z]", before.group(1).split(".")[-1])):
                return word
        if behind and word in LEMMAS_OF_A_CRATE:
            return word
        return turned(word, table)

    def put_plain(found):
        return turned(found.group(0), table)

    return WORD.sub(put, text)


LEMMAS_OF_A_CRATE = {n for t in in_crate.values() for n in t}
CLAUSE = re.compile(r"\b(?:requires|ensures)\b\*?(?:\s+\w+)?\s*\{|\bghost\s+(?:invariant\s+)?\w+\s*(?::|=)?[^{};]*\{")


def clauses(text):
    """The places of the clauses, without their braces."""
    for found in CLAUSE.finditer(text):
        depth, at = 1, found.end()
        while at < len(text) and depth:
            depth += {"{": 1, "}": -1}.get(text[at], 0)
            at += 1
        yield found.end(), at - 1


def rt(text, table, path):
    cuts = []
    for a, e in clauses(text):
        cuts.append((a, e))
    for found in re.finditer(r"ghost use ([^;]*);", text):
        cuts.append((found.start(1), found.end(1)))
    cuts.sort()
    out, last = [], 0
    for a, e in cuts:
        if a < last:
            continue
        out.append(text[last:a])
        out.append(WORD.sub(lambda f: turned(f.group(0), table), text[a:e]))
        last = e
    out.append(text[last:])
    # a parameter that hides a name that turned
    for found in re.finditer(r"fn (\w+)\s*(?:<[^>]*>)?\(([^)]*)\)([^{]*?\{)", text):
        names = set(re.findall(r"(?:mut )?(\w+)\s*:", found.group(2)))
        for a, e in cuts:
            if found.end(2) <= a < found.end(2) + 3000 and not re.search(r"\bfn \w+", text[found.end(2) : a]):
                for word in WORD.findall(text[a:e]):
                    if word in table and table[word] in names:
                        print(f"look: {path}: fn {found.group(1)}: {table[word]}")
    return "".join(out)


def edit(text, table, top):
    file = re.search(r"(?m)^file: (\S+)", text)
    kind = file.group(1) if file else ""

    def line(found):
        body = found.group(2)
        if kind.endswith(".antt"):
            return found.group(1) + antt(body, table, kind.endswith("Proof.antt"))
        if re.match(r"\s*(?:requires|ensures|ghost)\b", body):
            return found.group(1) + WORD.sub(lambda f: turned(f.group(0), table), body)
        return found.group(0)

    return re.sub(r"(?m)^((?:old|new): )(.*)$", line, text)


def main():
    changed = 0
    paths = []
    for form in ("crates/*/specs/**/*.antt", "crates/*/proofs/**/*.antt", "crates/*/src/**/*.rt", "crates/*/must-fail/*.edit", "checks/edits/*/*.edit"):
        paths += glob.glob(os.path.join(TOP, form), recursive=True)
    for path in sorted(set(paths)):
        place = os.path.relpath(path, TOP).split(os.sep)
        crate = place[2] if place[0] == "checks" else place[1]
        table = {**everywhere, **in_crate.get(crate, {})}
        text = open(path, encoding="utf-8").read()
        if path.endswith(".antt"):
            new = antt(text, table, path.endswith("Proof.antt"))
        elif path.endswith(".rt"):
            new = rt(text, table, os.path.relpath(path, TOP))
        else:
            new = edit(text, table, place)
        if new != text:
            open(path, "w", encoding="utf-8").write(new)
            changed += 1
    print(f"respell: {changed} files changed")


main()
