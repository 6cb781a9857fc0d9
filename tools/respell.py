#!/usr/bin/env python3
"""Brings the repository's own definitions and lemmas to one spelling: words in snake case, types and modules in camel case.

usage: python3 tools/respell.py      once, at the top, right after /opt/rattle/port/port.py

It goes by text over the .antt and .rt files of crates/. A name that begins with a capital stays, and so do names of other libraries, names that the checker
makes (behind a dot, or brought in from Tie, Lts, Goals and the like) and functions of src/. Where a new name stands already in a file that has the old one,
the renamed one ends in _lem. specs/inner becomes specs/Inner.
"""
import collections
import glob
import os
import re
import subprocess

MADE = ("Tie", "Lts", "Reads", "Goals", "Given", "Statement", "Lts2")
TOKEN = re.compile(r"(?<![\w'\-₀-₉◌·])([A-Za-z][\w'₀-₉]*(?:-[\w'₀-₉>]+)*)(?![\w'\-₀-₉◌·≤≡+*<>])")
DECL = re.compile(r"^\s*(?:(?:abbrev|pub|unfoldable|data|record|ruleset|open|let)\s+)*((?:[A-Za-z][\w'₀-₉>\-]*\s+)*[A-Za-z][\w'₀-₉>\-]*)\s*(?:[({].*[)}]\s*)?:(?:\s|$)")
FIELD = re.compile(r"^\s+pub ((?:[A-Za-z][\w'\-]*\s+)*[A-Za-z][\w'\-]*) :")


def files(pattern):
    return sorted(glob.glob(pattern, recursive=True))


def snake(name):
    """a-b and aB become a_b. A-b, a type joined to a word, stays."""
    if name[0].isupper():
        return name
    return re.sub(r"([A-Z]+)", lambda m: "_" + m.group(1).lower(), name.replace("-", "_")).replace("__", "_")


def code(line):
    """The part of a line in front of its comment."""
    return re.split(r"(?:^|\s)--(?:\s|$)|(?:^|\s)//", line, maxsplit=1)[0]


def declared(path):
    names, fields = set(), set()
    for line in open(path, encoding="utf-8"):
        m = DECL.match(code(line))
        if m and not re.search(r":\s*(tie|goal)\.", line):
            names.update(w for w in m.group(1).split() if w not in ("abbrev", "pub", "unfoldable", "data", "record", "where", "module", "let"))
        m = FIELD.match(line)
        if m:
            fields.update(m.group(1).split())
    return names, fields


def foreign(text):
    """Names that a file brings in from other libraries, or from what the checker makes."""
    out = set()
    for m in re.finditer(r"use ([\w.'·\-]+)\.\{([^}]*)\}", text):
        path = m.group(1)
        own = path.startswith("Rattle.") and path.split(".")[1] in CRATES
        if not own or path.split(".")[-1] in MADE or ".declared" in path or ".contracts" in path:
            out.update(re.split(r"\s+as\s+", w.strip())[0] for w in m.group(2).split(",") if w.strip())
    return out


def own_aliases(text):
    return set(re.findall(r"use Rattle\.\w+\.(?:specs|proofs)\.[\w.]+ as (\w+)", text)) - {"tie", "goal", "lts", "reads"}


CRATES = set(os.listdir("crates"))


def main():
    for d in files("crates/*/specs/inner"):
        subprocess.run(["git", "mv", d, d[:-5] + "Inner"], check=True)
        subprocess.run(["git", "mv", d + ".antt", d[:-5] + "Inner.antt"], check=True)
    antt = files("crates/*/specs/**/*.antt") + files("crates/*/proofs/**/*.antt")
    sources = files("crates/*/src/**/*.rt")
    names, fields = set(), set()
    for f in antt:
        n, fs = declared(f)
        names |= n
        fields |= fs
    source_fns = set()
    for f in sources:
        source_fns.update(re.findall(r"\bfn (\w+)", open(f, encoding="utf-8").read()))
    turn = {n: snake(n) for n in names if snake(n) != n and n not in source_fns}
    texts = {f: open(f, encoding="utf-8").read() for f in antt + sources}
    tokens = {f: {m.group(1) for l in t.split("\n") for m in TOKEN.finditer(code(l)) if code(l)[m.start() - 1 : m.start()] != "."} for f, t in texts.items()}
    # names that would fall together with one that a file has already: the definition keeps the plain name, the lemma gets _lem
    plain = {n for n in names if snake(n) == n and "_" in n and n not in source_fns}
    definitions = set()
    for f in files("crates/*/specs/**/*.antt"):
        definitions |= declared(f)[0]
    for _ in range(4):
        clash = set()
        for f, toks in tokens.items():
            out = foreign(texts[f])
            seen = collections.defaultdict(set)
            for t in toks - out:
                if t in turn or t in plain:
                    seen[turn.get(t, t)].add(t)
            for new, olds in seen.items():
                if f.endswith(".rt"):
                    taken = any(o in turn and o not in fields for o in olds) and (re.search(r"(?<![\w.])" + re.escape(new) + r":\s", texts[f]) or re.search(r"let (mut )?" + re.escape(new) + r"\b", texts[f]))
                else:
                    taken = new in toks and new not in plain and any(o in turn for o in olds)
                if taken:
                    clash |= {o for o in olds if o in turn}
                elif len(olds) > 1:
                    best = sorted(olds, key=lambda o: (o not in definitions, "-" in o, o))[0]
                    clash |= olds - {best}
        clash = {c for c in clash if not turn.get(c, c).endswith("_lem")}
        if not clash:
            break
        for c in sorted(clash):
            turn[c] = turn.get(c, c) + "_lem"
            print(f"fell together: {c} is {turn[c]}")
    for f, t in texts.items():
        out = foreign(t)
        alias = own_aliases(t)

        def one(m):
            w = m.group(1)
            if w not in turn or w in out:
                return w
            before = t[: m.start()]
            if before.endswith("."):
                head = re.search(r"([\w'\-]+)\.$", before)
                if w in fields or (head and head.group(1) in alias):
                    return turn[w]
                return w
            return turn[w]

        lines, new = t.split("\n"), []
        at = 0
        text = t
        t2 = []
        for line in lines:
            head = code(line)
            t = line
            turned = TOKEN.sub(one, head) if head.strip() else head
            rest = line[len(head):]
            rest = re.sub(r"(?<![\w\-'.])([a-z]+[A-Z]\w*)(?![\w\-'])", lambda m: turn.get(m.group(1), m.group(1)), rest)
            rest = re.sub(r"`([\w'\-]+)`", lambda m: "`" + turn.get(m.group(1), m.group(1)) + "`", rest)
            t2.append(turned + rest)
        text2 = "\n".join(t2)
        text2 = re.sub(r"\.specs\.inner\b", ".specs.Inner", text2)
        if f.endswith("specs/Lib.antt"):
            text2 = re.sub(r"(?m)^pub mod inner$", "pub mod Inner", text2)
        if text2 != text:
            open(f, "w", encoding="utf-8").write(text2)
    with open("/tmp/respelled.tsv", "w", encoding="utf-8") as f:
        f.writelines(f"{a}\t{b}\n" for a, b in sorted(turn.items()))
    print(f"{len(turn)} names turned; /tmp/respelled.tsv lists them")


if __name__ == "__main__":
    main()
