#!/usr/bin/env python3
"""Brings the repository's own definitions, fields and lemmas to snake case, once, after the kit's port.py.

usage: python3 tools/respell.py            at the top of the repository

A name that a file of specs/ or proofs/ declares, in lower camel case, becomes snake case wherever it stands: `goodGeometry` is `good_geometry`. In a
lemma's name a dash stays where it joins two names of definitions and is an underscore before a plain word: `take-start` is `take_start`. A lemma
whose new name is a definition's gets `_lem`; a field of specs/ keeps its name. Names of src/, strings, inputs and outputs stay; so do the names of goals, in proofs/F/.
It stops, and writes nothing, where two names of one file would fall together.
"""

import collections
import os
import re
import sys

WORD = re.compile(r"[^\s(){}.;,@\"«»\[\]`|:=]+")
HEAD = re.compile(r"((?:abbrev |unfoldable |pub |opaque |private )*)(record |data |ruleset |syntax |infix\w* )?([^\s:({]+)[^:]*:")
FIELD = re.compile(r"  +(?:pub )?([A-Za-z][\w'-]*) :")
INNER = re.compile(r" +(?:(?:abbrev|unfoldable|pub) )*([a-z][\w'-]*-[\w'-]*)(?: \{[^{}]*\})* :")
SKIP = re.compile(r"(use|mod|pub use|pub mod|unfolding|--|\s|$|open)")
GOALS = re.compile(r"/proofs/\+?[a-z_0-9+/]+/[^/]+\.antt$")


def files(kinds):
    for folder, dirs, names in os.walk("crates"):
        dirs[:] = sorted(d for d in dirs if d != "out")
        for name in sorted(names):
            if name.endswith(kinds):
                yield os.path.join(folder, name)


def read(path):
    with open(path, encoding="utf-8") as f:
        return f.read()


def snake(name):
    return re.sub(r"(?<=[a-z0-9])([A-Z]+)", lambda m: "_" + m.group(1).lower(), name)


def code(path, text):
    return re.sub(r"--.*" if path.endswith(".antt") else r"//.*", "", text)


def main():
    definitions, lemmas, fields, told = set(), set(), set(), set()
    texts = {path: read(path) for path in files((".antt", ".rt"))}
    std = set()
    for path, text in texts.items():
        for m in re.finditer(r"use Rattle\.(?:std|core)[\w.]*\.\{([^}]*)\}", text):
            std |= set(re.findall(r"[^\s,]+", m.group(1)))
        if not path.endswith(".antt"):
            continue
        goals = GOALS.search(path)
        for line in text.split("\n"):
            m = None if SKIP.match(line) else HEAD.match(line)
            if m:
                name = m.group(3)
                (definitions if "/specs/" in path else lemmas).add((name, bool(goals)))
            m = FIELD.match(line)
            if m:
                fields.add(m.group(1))
                if "/specs/" in path:
                    told.add(m.group(1))
            m = INNER.match(line)
            if m:
                lemmas.add((m.group(1), bool(goals)))
    owned = {n for n, _ in definitions}
    words = {snake(n) for n in owned} | std
    turned = {}
    for name in sorted(owned | {n for n, _ in lemmas} | fields):
        if re.match(r"[a-z◌]", name) and re.search(r"[a-z0-9][A-Z]", name) and "-" not in name:
            turned[name] = snake(name)
    taken = {snake(n) for n in owned}
    dashed = {}
    for name in sorted({n for n, goals in lemmas if not goals} | owned):
        if "-" not in name or re.search(r"[◌⟦≤]", name):
            continue
        parts = [snake(p) for p in name.split("-")]
        new = parts[0]
        left = parts[0]
        for part in parts[1:]:
            joins = left in words and part in words
            new += ("-" if joins else "_") + part
            left = part if joins else left + "_" + part
        if re.match(r"[A-Z]", name):
            new = name.replace("-", "_")
        while name not in told and (new in taken or new in turned.values() or new in dashed.values()):
            new += "_lem"
        if new != name:
            dashed[name] = new
    # A lemma, of a file or within one, that had a definition's new name already.
    for path, text in texts.items():
        if path.endswith(".antt") and "/proofs/" in path and not GOALS.search(path):
            plain = code(path, text)
            here = {m.group(0) for m in WORD.finditer(plain) if plain[m.start() - 1 : m.start()] != "."}
            for name in here & (set(turned.values()) - owned):
                dashed[name] = name + "_lem"

    def turn(path, text):
        goals = GOALS.search(path)

        def word(m):
            w = m.group(0)
            behind = text[m.start() - 1 : m.start()] == "."
            if w in turned:
                return turned[w]
            core = w.strip("◌")
            if "◌" + core + "◌" in turned:
                return w.replace(core, snake(core))
            if w in dashed and not (behind and goals) and path.endswith((".antt", ".md", ".edit")):
                if goals and re.search(r"(?m)^(?:abbrev |pub )*" + re.escape(w) + r" :", text):
                    return w
                return dashed[w]
            return w

        if path.endswith(".rt"):
            return re.sub(r'"(?:\\.|[^"\\])*"|' + WORD.pattern, lambda m: m.group(0) if m.group(0)[0] == '"' else word(m), text)
        return WORD.sub(word, text)

    bad = 0
    new = {}
    for path, text in texts.items():
        new[path] = turn(path, text)
        plain = code(path, text)
        here = {m.group(0) for m in WORD.finditer(plain) if plain[m.start() - 1 : m.start()] != "."}
        for table in (turned, dashed):
            for w in here & table.keys():
                t = table[w]
                if t in here and dashed.get(t, t) == t and not path.endswith(".rt") and not GOALS.search(path):
                    print(f"{path}: {w} and {t} fall together", file=sys.stderr)
                    bad += 1
                if path.endswith(".rt") and re.search(r"[(,]\s*(?:mut )?" + re.escape(t) + r":", plain):
                    print(f"{path}: {w} and a parameter {t} fall together", file=sys.stderr)
                    bad += 1
    if bad:
        raise SystemExit(f"{bad} places; nothing was written")
    for path in files((".edit",)):
        texts[path] = read(path)
        new[path] = "\n".join(l if l.startswith(("file:", "#")) else turn(path, l) for l in texts[path].split("\n"))
    pages = ["README.md"] + sorted("docs/" + p for p in os.listdir("docs") if p.endswith(".md")) + sorted("docs/notes/" + p for p in os.listdir("docs/notes"))
    for path in pages:
        texts[path] = read(path)
        new[path] = re.sub(r"`[^`\n]+`", lambda m: turn(path, m.group(0)), texts[path])
    n = 0
    for path, text in new.items():
        if text != texts[path]:
            with open(path, "w", encoding="utf-8") as f:
                f.write(text)
            n += 1
    print(f"respell: {len(turned)} names in camel case, {len(dashed)} with dashes, {n} files")
    if "--table" in sys.argv:
        for a, b in sorted((turned | dashed).items()):
            print(a, b)


main()
