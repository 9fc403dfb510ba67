#!/usr/bin/env python3
"""Spells this repository's own definitions, lemmas and fields in snake case, once, after the toolchain's port.py.

usage: tools/respell.py        at the top of the repository

What turns: names that specs/ and proofs/ declare, at any depth, with a dash or a capital inside (`lex-rank`, `tallyOf`). They turn in
.antt files, in the clauses of .rt files, in must-fail edits, and in code spans of comments and pages. What stays: names that a file imports
from the toolchain's library, names that the toolchain makes (goals, steps behind `c.`), strings, and what Rust declares.
A lemma that would get its definition's name ends in `_lem`. Prints what falls together.
"""

import re
import subprocess
import collections

TOKEN = re.compile(r"[^\s(){}.;,@\"«»`]+")
DECLARED = re.compile(r"^(\s*)((?:(?:unfoldable|abbrev|pub|data|record|axiom)\s+)*)([^\s:(){}]+)((?:\s*\{[^}]*\})*(?:\s*\([^:]*:[^=]*?\))*)\s*:\s(.*)")
# Lemmas whose names port.py spelled already, and that would meet a definition here; and a field that would.
LEMMAS = {
    "crates/lines/proofs/Spelled.antt": ["fit_all", "spelled_at"],
    "crates/lines/proofs/Arrays.antt": ["floats_at", "target_at"],
    "crates/lines/proofs/Saying.antt": ["floats_at", "target_at"],
    "crates/lines/proofs/WholeSettings.antt": ["no_one"],
    "crates/session/proofs/Adding.antt": ["goes_on"],
}
# The last commit in the old spelling: names that port.py spelled are told from it.
BEFORE = "10659e8e721ea1c3d5297a47d607b6879f3c7bbe"
APART = {"no-estimate": "no_estimate_held"}
MADE = re.compile(r"\b(tie|goal)\.")
OWN = re.compile(r"Rattle\.(\w+)\.")
USE = re.compile(r"^use ([^\s{]+?)(?:\.\{(.*)\})?(?: as \S+)?$", re.M)


def files():
    said = subprocess.run(["git", "ls-files", "-c", "-o", "--exclude-standard"], capture_output=True, text=True, check=True).stdout
    return [f for f in said.split("\n") if f]


def is_old(name):
    if name[0].isupper() or not re.match(r"[a-z]", name):
        return bool(re.search(r"-[a-z]", name)) and name[0].isalpha()
    return bool(re.search(r"[a-z0-9]-[a-zA-Z0-9]", name)) or bool(re.search(r"[a-z0-9][A-Z]", name))


def snake(name):
    name = name.replace("-", "_")
    head = re.match(r"^[A-Z]", name)
    name = re.sub(r"(?<=[a-z0-9])([A-Z])", lambda m: "_" + m.group(1).lower(), name)
    name = re.sub(r"_([A-Z])(?=_|$)", lambda m: "_" + m.group(1).lower(), name)
    return name if not head else name[0] + name[1:]


def code_lines(text):
    for line in text.split("\n"):
        yield re.sub(r"(?<![^\s(){}.;,@\"«»])--.*", "", line)


def declared(texts):
    lemma, definition, made, field = set(), set(), set(), set()
    for path, text in texts.items():
        if not path.endswith(".antt"):
            continue
        in_record = False
        for line in code_lines(text):
            if line and not line[0].isspace():
                in_record = bool(re.match(r"(pub )?record ", line))
            m = DECLARED.match(line)
            if not m:
                continue
            indent, words, name, _, rest = m.groups()
            if MADE.search(rest) and path.endswith("Proof.antt"):
                made.add(name)
            elif in_record and indent:
                field.add(name)
            elif "abbrev" in words or "unfoldable" in words or "data" in words or re.search(r"[a-z0-9][A-Z]", name):
                definition.add(name)
            else:
                lemma.add(name)
    return lemma, definition, made, field


def spelled_by_port(texts, new):
    """Names of BEFORE that port.py gave their new spelling: for edits, comments and pages, which it leaves."""
    listed = subprocess.run(["git", "ls-tree", "-r", "--name-only", BEFORE, "crates"], capture_output=True, text=True, check=True).stdout.split("\n")
    before = {}
    for p in listed:
        if p.endswith(".antt"):
            before[p] = subprocess.run(["git", "show", f"{BEFORE}:{p}"], capture_output=True, text=True, check=True).stdout
    now = set().union(*declared(texts))
    return {n: snake(n) for n in set().union(*declared(before)) if is_old(n) and n not in new and snake(n) in now}


def imported_elsewhere(text, crates):
    names = set()
    for m in USE.finditer(text):
        path, items = m.groups()
        own = OWN.match(path + ".")
        if own and own.group(1) in crates:
            continue
        for item in re.split(r",\s*", items or ""):
            names.add(item.split(" as ")[0].strip())
        if not items:
            names.add(path.split(".")[-1])
    return names


def table_of(texts):
    lemma, definition, made, field = declared(texts)
    new = {}
    taken = {n for n in definition | field | lemma if not is_old(n)}
    for name in sorted(definition | field):
        if is_old(name):
            new[name] = APART.get(name, snake(name))
    defined = set(new.values()) | {n for n in definition if not is_old(n)}
    for name in sorted(lemma - definition - field):
        if not is_old(name):
            continue
        to = snake(name)
        new[name] = to + "_lem" if to in defined else to
    met = collections.defaultdict(list)
    for old, to in new.items():
        met[to].append(old)
    for to, olds in sorted(met.items()):
        if len(olds) > 1 or to in taken:
            print("fall together:", to, olds, "taken" if to in taken else "")
    return new, field


def turn_code(text, new, keep, fields, proof, all_names):
    def one(m):
        word = m.group(0)
        if word not in new or word in keep:
            return word
        before = text[m.start() - 1] if m.start() else ""
        if before == ".":
            head = re.search(r"([^\s(){};,@\"«»]*)\.$", text[: m.start()]).group(1)
            if head.startswith("Rattle.") or head.startswith("Rattle·"):
                return new[word]
            if word in fields and not (proof and re.match(r"c\b", head)):
                return new[word]
            return word
        return new[word]

    out, last = [], 0
    quiet = re.compile(r'"(?:[^"\\\n]|\\.)*"|(?<![^\s(){}.;,@"«»])--[^\n]*|//[^\n]*')
    pieces = []
    for m in quiet.finditer(text):
        pieces.append((last, m.start(), True))
        pieces.append((m.start(), m.end(), False))
        last = m.end()
    pieces.append((last, len(text), True))
    for a, b, code in pieces:
        if code:
            out.append("".join(one_at(text, a, b, one)))
        else:
            out.append(turn_spans(text[a:b], all_names))
    return "".join(out)


def one_at(text, a, b, one):
    last = a
    for m in TOKEN.finditer(text, a, b):
        yield text[last : m.start()]
        yield one(m)
        last = m.end()
    yield text[last:b]


def turn_spans(text, new):
    def span(m):
        return TOKEN.sub(lambda w: new.get(w.group(0), w.group(0)), m.group(0))

    return re.sub(r"`[^`\n]+`", span, text)


def main():
    paths = [f for f in files() if f.endswith((".antt", ".rt", ".edit", ".md"))]
    texts = {}
    for p in paths:
        with open(p, encoding="utf-8") as f:
            texts[p] = f.read()
        for lemma in LEMMAS.get(p, []):
            texts[p] = re.sub(rf"(?<![\w.-]){lemma}(?![\w-])", lemma + "_lem", texts[p])
    crates = {p.split("/")[1] for p in paths if p.startswith("crates/")}
    new, fields = table_of(texts)
    all_names = {**spelled_by_port(texts, new), **new}
    for p, text in texts.items():
        with open(p, encoding="utf-8") as f:
            was = f.read()
        if p.endswith(".md"):
            to = turn_spans(text, all_names)
        elif p.endswith(".edit"):
            to = "\n".join(turn_code(l, all_names, set(), fields, False, all_names) if l.startswith(("old:", "new:")) else turn_spans(l, all_names) for l in text.split("\n"))
        else:
            keep = imported_elsewhere(text, crates) if p.endswith(".antt") else set()
            to = turn_code(text, new, keep, fields, p.endswith("Proof.antt"), all_names)
            have = set(TOKEN.findall("\n".join(code_lines(text))))
            for old, n in new.items():
                if old in have and n in have and old not in keep:
                    print("meets in", p, ":", old, "->", n)
        if to != was:
            with open(p, "w", encoding="utf-8") as f:
                f.write(to)
    print(len(new), "names")


if __name__ == "__main__":
    main()
