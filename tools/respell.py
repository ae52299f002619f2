#!/usr/bin/env python3
"""Brings the repository's own definitions and lemmas to snake case: a dash in such a name becomes '_', and getD becomes get_or.

usage: python3 tools/respell.py      at the top, once, right after the kit's port.py

Names are read off the files below specs/ and proofs/: what stands before a ':' at the head of a line (definitions, lemmas,
fields, helpers), and constructors. Names that the check makes (after 'goal.', or after a dot, where they are no field of a
record of this repository) and names that a file takes from a library keep their spelling. It stops, and writes nothing,
where two names of one file would fall together. A lemma with its function's name gets '_lem'.
"""
import glob
import re
import sys

NAME = r"[A-Za-zα-ωΑ-Ω_][\w'\-]*"
TOKEN = re.compile(r"(?<![\w'\-])(" + NAME + r")(?![\w'\-])")
HEAD = re.compile(r"(?m)^( *)((?:abbrev |unfoldable |pub |data |record )*)(" + NAME + r")((?: *\([^\n]*?\)| *\{[^\n]*?\})*) *:(?![:=])")
FIELD = re.compile(r"(?m)^ +pub (" + NAME + r") :")


def files():
    for pattern in ("specs/**/*.antt", "proofs/**/*.antt", "src/**/*.rt", "must-fail/*.edit"):
        yield from sorted(glob.glob("crates/*/" + pattern, recursive=True))


# Comments and strings keep their words.
KEPT = re.compile(r'(?:--|//)[^\n]*|"(?:[^"\\\n]|\\.)*"')
# Lemmas that would have the name of the function whose clause they prove.
LEMMAS = ["runs-on-time", "never-later", "held-covered", "unheld-covered", "weights-covered", "largest-costs", "largest-weights"]
# Definitions that share a method's name; a method is called behind a dot.
METHODS = ["ready-card", "is-ahead"]


def respelled(name):
    if name in LEMMAS:
        return name.replace("-", "_") + "_lem"
    return name.replace("-", "_").replace("getD", "get_or")


def odd(name):
    return respelled(name) != name and not name.endswith("-")


def made(text):
    """The names that the check makes: goals and invariants that the file answers."""
    return set(re.findall(r"goal\.(" + NAME + ")", text))


def taken(text):
    """The names that a file takes from elsewhere than this repository's crates."""
    out = set()
    for head, names in re.findall(r"use ([\w.'\-+]+)\.\{([^}]*)\}", text):
        crate = re.match(r"Rattle\.(\w+)\.", head)
        if not (crate and crate.group(1) in CRATES):
            out |= {w.strip() for n in names.split(",") for w in n.split(" as ")}
    return out


CRATES = {p.split("/")[1] for p in glob.glob("crates/*/src")}
texts = {p: open(p, encoding="utf-8").read() for p in files()}
own, fields = set(), set()
for path, text in texts.items():
    if path.endswith(".antt"):
        answers = made(text)
        own |= {m[2] for m in HEAD.findall(text) if odd(m[2]) and m[2] not in answers}
        fields |= {f for f in FIELD.findall(text) if odd(f)}

out, bad = {}, []
for path, text in texts.items():
    keep = taken(text) | made(text)
    present = set(TOKEN.findall(KEPT.sub("", text)))
    for name in sorted(own & present - keep):
        if respelled(name) in present | keep and name not in METHODS:
            bad.append(f"{path}: {name} falls together with {respelled(name)}")

    spans = [m.span() for m in KEPT.finditer(text)]

    def turn(m, text=text, keep=keep, spans=spans):
        if any(a <= m.start() < b for a, b in spans):
            return m.group(1)
        name, before = m.group(1), text[max(0, m.start() - 1) : m.start()]
        if name not in own or name in keep:
            return name
        if before == "." and name not in fields:
            head = re.search(r"([\w'.\-]+)\.$", text[max(0, m.start() - 80) : m.start()])
            if not (head and head.group(1).split(".")[-1][:1].isupper()):
                return name
        return respelled(name)

    out[path] = TOKEN.sub(turn, text)

if bad:
    print("\n".join(bad))
    sys.exit(1)
n = 0
for path, text in out.items():
    if text != texts[path]:
        open(path, "w", encoding="utf-8").write(text)
        n += 1
print(f"respell: {len(own)} names, {n} files")
