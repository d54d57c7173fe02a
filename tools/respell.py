#!/usr/bin/env python3
"""Brings the repository's own definitions and lemmas to today's spelling: words in snake case, types and modules in
camel case. Run once, at the top of the repository, after the port's scripts; names of the library, of generated goals
and of the Rust code stay."""
import os
import re
import sys

WORD = r"[A-Za-z_ℕ][A-Za-z0-9_ℕ]*(?:-[A-Za-z0-9_≤≡*+ℕ]+)*'*"
TOKEN = re.compile(r"(?<![A-Za-z0-9_\-ℕ])" + WORD)
SIGNATURE = re.compile(r"^\s*(?:abbrev pub|unfoldable pub|abbrev|unfoldable|pub)?\s*(" + WORD + r") :")
KIND = re.compile(r"^\s*(?:pub )?(?:record|data) (" + WORD + r")")
LET = re.compile(r"\b(?:let|in) (" + WORD + r") (?::|=)")
GOAL = re.compile(r":\s*(?:goal|need|needs)\.")
IMPORT = re.compile(r"^\s*(?:ghost |pub )?use ([A-Za-z0-9_.\-+]+)\.\{([^}]*)\}")
KEPT = {"get_or-set"}
# A case of an enum of the code has the name that this would get.
OTHERWISE = {"At-rest": "IsAtRest"}


def files(top, endings):
    for folder, inner, names in os.walk(top):
        inner[:] = [d for d in inner if d not in ("out", ".git", "tools")]
        for name in names:
            if name.endswith(endings):
                yield os.path.join(folder, name)


def respelled(name):
    if name in OTHERWISE:
        return OTHERWISE[name]
    base = name.replace("getD", "get_or").replace("countBy", "count_by").replace("sumBy", "sum_by")
    if base[0].isupper():
        return "".join(p[:1].upper() + p[1:] for p in base.split("-"))
    return base.replace("-", "_")


def defined(path):
    generated = os.path.basename(path) in ("Answers.antt", "Invariants.antt", "Choices.antt", "Proof.antt")
    for line in open(path, encoding="utf-8"):
        if generated and GOAL.search(line):
            continue
        for pattern in (SIGNATURE, KIND):
            m = pattern.match(line)
            if m:
                yield m.group(1)
        for m in LET.finditer(line):
            yield m.group(1)


def main():
    own = set()
    for path in files("crates", (".antt",)):
        name = os.path.basename(path)[: -len(".antt")]
        if "-" in name:
            own.add(name)
        own.update(n for n in defined(path))
    goals = set()
    for path in files("crates", ("Answers.antt", "Invariants.antt", "Choices.antt")):
        for line in open(path, encoding="utf-8"):
            m = SIGNATURE.match(line)
            if m and GOAL.search(line):
                goals.add(m.group(1))
    change = {n: respelled(n) for n in own if respelled(n) != n and n not in goals and n not in KEPT}
    tokens = {}
    for path in files("crates", (".antt", ".rt")):
        for m in TOKEN.finditer(open(path, encoding="utf-8").read()):
            tokens.setdefault(m.group(0), set()).add(path)
    for old, new in sorted(change.items()):
        if new in tokens and new not in change:
            print("meets:", old, "->", new, "in", sorted(tokens[new] & tokens.get(old, set()))[:4], "elsewhere", len(tokens[new]))
    by_new = {}
    for old, new in change.items():
        by_new.setdefault(new, []).append(old)
    for new, olds in sorted(by_new.items()):
        if len(olds) > 1:
            print("fall together:", olds, "->", new)
    if "--look" in sys.argv:
        print(len(change), "names")
        return
    for path in list(files("crates", (".antt", ".rt"))) + list(files("docs", (".md",))) + ["README.md"]:
        text = open(path, encoding="utf-8").read()
        foreign = set()
        for line in text.split("\n"):
            m = IMPORT.match(line)
            if m and not own_path(m.group(1)):
                foreign.update(x.strip() for x in m.group(2).split(","))
        new = TOKEN.sub(lambda m: m.group(0) if m.group(0) in foreign else change.get(m.group(0), m.group(0)), text)
        if new != text:
            open(path, "w", encoding="utf-8").write(new)
    for path in list(files("crates", (".antt",))):
        folder, name = os.path.split(path)
        base = name[: -len(".antt")]
        if base in change:
            os.rename(path, os.path.join(folder, change[base] + ".antt"))


def own_path(path):
    parts = path.split(".")
    return len(parts) > 1 and parts[0] == "Rattle" and os.path.isdir(os.path.join("crates", parts[1]))


main()
