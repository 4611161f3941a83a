#!/usr/bin/env python3
"""Spells this repository's own definitions, fields and lemmas as today's Rattle does: words in snake case, with underscores.

usage: python3 tools/respell.py     at the top of the repository, once, after port.py

Types, records and modules keep their camel case; what a library of the kit or a Rust item is called is left. Where a lemma
would get the name of a definition it gets `_lem` after it. Pages get the new names where they stand between backticks.
"""

import collections
import glob
import os
import re
import sys

NAME = r"[^\s(){}.;,@\"`|]+"
TOKEN = re.compile(NAME)
BY_HAND = ("Proof.antt", "Answers.antt", "Invariants.antt")
DECLARED = re.compile(rf"^(\s*)(?:(?:pub|abbrev|unfoldable|private|instance|opaque)\s+)*({NAME})(?:\s*\{{[^{{}}\n]*\}})* :(?=\s|$)", re.M)
SEVERAL = re.compile(rf"^\s+((?:{NAME} )+): ({NAME})\s*$", re.M)
USE = re.compile(r"\buse\s+([^\s;{]+?)(?:\.?\{([^}]*)\})?(?=;|\s|$)")


def files(pattern):
    return sorted(f for f in glob.glob(pattern, recursive=True) if "/out/" not in f)


def text_of(path):
    with open(path, encoding="utf-8") as f:
        return f.read()


def is_by_hand(path):
    return path.count("/") > 3 and os.path.basename(path).endswith(BY_HAND)


def bare(text):
    return re.sub(r"(?m)--.*$", "", text)


def snake(name):
    if name[0].islower():
        name = re.sub(r"(?<=[a-z0-9])[A-Z]", lambda m: "_" + m[0].lower(), name)
    return name.replace("-", "_")


def is_old(name):
    return not name.startswith("◌") and ("-" in name.strip("-") or (name[0].islower() and re.search(r"[a-z0-9][A-Z]", name)))


antts = files("crates/*/specs/**/*.antt") + files("crates/*/proofs/**/*.antt")
rts = files("crates/*/src/**/*.rt")
own = {c.split("/")[1] for c in files("crates/*/src")}

declared = collections.defaultdict(set)
fields = set()
for f in antts:
    if is_by_hand(f):
        continue
    t = bare(text_of(f))
    for m in DECLARED.finditer(t):
        declared[m[2]].add(f)
        if m[1]:
            fields.add(m[2])
    for m in SEVERAL.finditer(t):
        for n in m[1].split():
            if n != "pub":
                declared[n].add(f)
                fields.add(n)


def module_of(path):
    crate, rest = path.split("/", 2)[1:]
    return f"Rattle.{crate}." + rest[: -len(".antt")].replace("/", ".")


def imports(text):
    """For each imported word, the path that it comes from."""
    found = {}
    for m in USE.finditer(text):
        if m[2] is None:
            continue
        for part in m[2].split(","):
            words = part.split()
            if not words:
                continue
            if len(words) == 3 and words[1] == "as":
                found[words[2]] = m[1]
            found[words[0]] = m[1]
    return found


def is_own(path):
    steps = path.split(".")
    return steps[0] in ("self", "super") or (steps[0] == "Rattle" and len(steps) > 1 and steps[1] in own)


# Every other word of a file of definitions or lemmas that no library brings: a local name, or a set of lemmas.
for f in antts:
    if is_by_hand(f):
        continue
    t = bare(text_of(f))
    came = imports(t)
    for m in re.finditer(rf"(?<![\w'.-]){NAME}", re.sub(r"(?m)^ *(?:pub )?use .*$", "", t)):
        if m[0] not in declared and is_old(m[0]) and re.fullmatch(r"[a-z][\w'-]*", m[0]) and (m[0] not in came or is_own(came[m[0]])):
            declared[m[0]].add(f)

new = {n: snake(n) for n in declared if is_old(n)}

# Names that fall together: the definition has the plain name, the lemma `_lem`.
together = collections.defaultdict(list)
for n, s in new.items():
    together[s].append(n)
for s, ns in together.items():
    if len(ns) > 1:
        for n in ns:
            if "-" in n:
                new[n] = s + "_lem"
moved = {}  # a name of an earlier script that a definition wants: from which files it comes
for n, s in list(new.items()):
    if s in declared and s == snake(n):
        if "-" in n:
            new[n] = s + "_lem"
        else:
            moved[s] = declared[s]


def mapping(path, text):
    came = imports(text)
    there = dict(new)
    for word, source in came.items():
        if not is_own(source):
            there.pop(word, None)
    if is_by_hand(path):
        here = {m[2] for m in DECLARED.finditer(bare(text)) if not m[1]}
        there = {n: s for n, s in there.items() if (n in came and is_own(came[n])) or (n in fields and n not in here)}
    for word, sources in moved.items():
        if path in sources or came.get(word) in {module_of(s) for s in sources}:
            there[word] = word + "_lem"
    return there


def respell(line, there, by_hand):
    def one(m):
        if by_hand and line[: m.start()].endswith(("tie.", "goal.", "c.")):
            return m[0]
        return there.get(m[0], m[0])

    return TOKEN.sub(one, line)


def antt(path):
    text = text_of(path)
    there = mapping(path, text)
    by_hand = is_by_hand(path)
    lines = []
    for line in text.split("\n"):
        code, dashes, comment = line, "", ""
        m = re.search(r"(^|\s)--(\s|$)", line)
        if m:
            code, comment = line[: m.start()], line[m.start() :]
            # A glossary names words left of `==`; in running text only camel case and backticks are words.
            head, eq, tail = comment.partition(" == ")
            head = respell(head, there, by_hand) if eq else plain(head, there)
            comment = head + eq + plain(tail, there)
        lines.append(respell(code, there, by_hand) + comment)
    return "\n".join(lines)


def plain(text, there):
    """Running text: what stands between backticks, and what is in camel case."""
    text = re.sub(r"`[^`\n]*`", lambda m: respell(m[0], there, False), text)
    return TOKEN.sub(lambda m: there.get(m[0], m[0]) if "-" not in m[0] else m[0], text)


def rt(path):
    text = text_of(path)
    there = mapping(path, text)
    out = []
    depth = 0  # inside the braces of a clause or a ghost import
    for line in text.split("\n"):
        if depth == 0 and re.match(r"\s*//", line):
            out.append(plain(line, there))
            continue
        if depth > 0 or re.match(r"\s*(ghost use|ghost |requires|ensures|requires\*|ensures\*|invariant|decreases)\b", line):
            out.append(respell(line, there, False))
            depth += line.count("{") - line.count("}")
            continue
        out.append(line)
    return "\n".join(out)


def page(path):
    text = text_of(path)
    there = dict(new)
    for word in set(TOKEN.findall(text)):
        if word not in there and word[0].islower() and is_old(word) and snake(word) in declared:
            there[word] = snake(word)
    fence = False
    lines = []
    for line in text.split("\n"):
        if line.startswith("```"):
            fence = not fence
        lines.append(respell(line, there, False) if fence else plain(line, there))
    return "\n".join(lines)


def main():
    turned = 0
    jobs = [(f, antt) for f in antts] + [(f, rt) for f in rts] + [(f, page) for f in files("docs/*.md") + files("README.md") + files("bench/*.md") if not f.startswith("docs/PORT")]
    results = [(f, job(f)) for f, job in jobs]
    for f, t in results:
        if t != text_of(f):
            turned += 1
            with open(f, "w", encoding="utf-8") as g:
                g.write(t)
    print(f"respell: {len(new)} names, {turned} files")
    for n, s in sorted(new.items()):
        if s.endswith("_lem"):
            print(f"together: {n} is {s}")
    for n in sorted(moved):
        print(f"together: {n} is {n}_lem in {', '.join(sorted(moved[n]))}")


if __name__ == "__main__":
    if not os.path.isdir("crates"):
        sys.exit("respell: no crates/ here")
    main()
