#!/usr/bin/env python3
"""Spells the definitions and lemmas of this repository's crates as today's Rattle does: words in snake case, types in camel case.

usage: tools/respell.py [--list]     at the top of the repository, once, right after the kit's port.py

    version-starts -> version_starts      questionOf -> question_of      Found-by -> FoundBy

A dash stays where it joins the names of two definitions, as in length-encode. Functions of src/, exported names, strings, inputs and
outputs keep their names, and so does what a file takes from a library of the kit. --list prints the table and writes nothing.
A name that would meet another one in some file stops the run before anything is written.
"""

import collections
import glob
import os
import re
import sys

WORD = re.compile(r'[^\s(){}.;,@"«»]+')
USE = re.compile(r"^[ \t]*(?:pub )?(?:ghost )?use ([^\s;{]+?)\.?(?:\{([^}]*)\})?(?: as ([^\s;]+))?;?[ \t]*$", re.M)
CLAUSE = re.compile(r"^\s*(?:requires|ensures|ghost)\b")
FRONT = ("unfoldable", "abbrev", "pub")
# words of the kit that stand in names of lemmas beside words of this repository
KIT = set("length drop take set append map replicate get_or div mod eqb leb cond refl sym ap".split())
# What a file names of a library by its path, as Memᴰ.not-nil.
OF_KIT = {"not-nil"}
# Names that would fall together with another one: what they are called instead.
APART = {
    "part-of": "question_part",
    "verdictOf": "declared_verdict",
    "row-of": "row_leaves",
    "nextWord": "scheduled_word",
    "merged-of": "merged_ensured",
    "getD-sums": "get_or-sums",
    "getD-column": "get_or-column",
}


def read(path):
    with open(path, encoding="utf-8", newline="") as f:
        return f.read()


def is_walk(path):
    return path.endswith("/Proof.antt")


def declared(text):
    """The names that a file of antt declares, each with whether it is a type."""
    for line in text.split("\n"):
        words = line.split()
        while words and words[0] in FRONT:
            words.pop(0)
        if not words or words[0].startswith("--"):
            continue
        if words[0] in ("data", "record", "ruleset"):
            kind = words.pop(0)
            while words and words[0] in FRONT:
                words.pop(0)
            if words:
                yield words[0], kind != "ruleset"
            continue
        head = re.match(r"^\s*(?:(?:unfoldable|abbrev|pub)\s+)*((?:[^\s(){}.;,@\"«»:]+,?\s+)+?)(?:\{[^{}]*\}\s+)*:(?=\s)", line)
        if head and "tie." not in line.split(":", 1)[1]:
            for it in head[1].replace(",", " ").split():
                yield it, False


def of_kit(text, crates):
    """What a file takes from libraries of the kit, under the name that it has in the file."""
    names = set()
    for m in USE.finditer(text):
        steps = m[1].split(".")
        if steps[0] == "Rattle" and len(steps) > 1 and steps[1] in crates:
            continue
        for it in (m[2] or "").split(","):
            if it.strip():
                names.add(it.split(" as ")[-1].strip())
    return names


def renamed(text, crates):
    """Names that a file gives to what it takes from a crate of this repository."""
    for m in USE.finditer(text):
        steps = m[1].split(".")
        if steps[0] == "Rattle" and len(steps) > 1 and steps[1] in crates:
            for it in (m[2] or "").split(","):
                if " as " in it:
                    yield it.split(" as ")[-1].strip()


def spelled(name, definitions, is_lemma):
    if name[0].isupper() and re.search(r"[a-z]", name.split("-")[0]):
        return "".join(it[:1].upper() + it[1:] for it in name.split("-"))
    words = re.sub(r"(?<=[a-z0-9])[A-Z](?=[a-z])", lambda m: "_" + m[0].lower(), name)
    words = re.sub(r"(?<=[a-z0-9])[A-Z]", lambda m: "_" + m[0], words)
    if is_lemma:
        for at in [m.start() for m in re.finditer("-", name)]:
            if name[:at] in definitions and name[at + 1 :] in definitions:
                return name[:at].replace("-", "_") + "-" + name[at + 1 :].replace("-", "_")
    return words.replace("-", "_")


def code_of(path, text):
    """The spans of a file that are code of antt, without comments."""
    comment = r"(?:(?<=\s)|^)--[^\n]*" if path.endswith(".antt") else r"//[^\n]*|b?\"(?:[^\"\\]|\\.)*\""
    at = 0
    for m in re.finditer(comment, text, re.M):
        yield at, m.start()
        at = m.end()
    yield at, len(text)


def main():
    crates = set(os.listdir("crates"))
    paths = sorted(glob.glob("crates/*/specs/**/*.antt", recursive=True) + glob.glob("crates/*/proofs/**/*.antt", recursive=True) + glob.glob("crates/*/src/**/*.rt", recursive=True))
    texts = {p: read(p) for p in paths}
    where = collections.defaultdict(set)
    types = set()
    definitions = set(KIT)
    for p, t in texts.items():
        if p.endswith(".rt"):
            continue
        for name, is_type in declared(t):
            where[name].add(p)
            if is_type:
                types.add(name)
            if "/specs/" in p:
                definitions.add(name)
        for name in renamed(t, crates):
            where[name].add(p)
    # words that a file binds, as 'λ (is-due : ..)'
    for p, t in texts.items():
        if p.endswith(".rt") or is_walk(p):
            continue
        kit = of_kit(t, crates)
        for a, b in code_of(p, t):
            for w in WORD.findall(t[a:b]):
                if re.search(r"[A-Za-z0-9]-[A-Za-z0-9]", w) and w not in where and w not in kit:
                    where[w].add(p)
    table = {}
    for name, files in where.items():
        if name in OF_KIT or not re.search(r"[A-Za-z0-9']-[A-Za-z0-9]|[a-z0-9][A-Z]", name) or name in types and "-" not in name:
            continue
        new = APART.get(name) or spelled(name, definitions, all("/proofs/" in p for p in files))
        if new != name and not (name[0].isupper() and "-" not in name):
            table[name] = new
    met, wrote = [], {}
    for p, t in texts.items():
        kit = of_kit(t, crates)
        here = collections.defaultdict(set)
        out, last = [], 0
        for a, b in code_of(p, t):
            out.append(t[last:a])

            def turn(m):
                w = m[0]
                new = table.get(w) if w not in kit else None
                if new is None:
                    here[w].add(w)
                    return w
                here[new].add(w)
                return new

            out.append(WORD.sub(turn, t[a:b]))
            last = b
        out.append(t[last:])
        both = {new: old for new, old in here.items() if len(old) > 1}
        for new, old in both.items():
            if is_walk(p):
                # its goals are named anew anyway
                continue
            if p.endswith(".rt"):
                # a function or a field may have a word's name, a parameter may not
                if not re.search(rf"[(,]\s*(?:mut )?{re.escape(new)}: ", t):
                    continue
            met.append(f"{p}: {' and '.join(sorted(old))} both become {new}")
        wrote[p] = "".join(out)
    if "--list" in sys.argv:
        for name in sorted(table):
            print(f"{name}\t{table[name]}")
    if met:
        print("\n".join(sorted(met)), file=sys.stderr)
        print(f"respell: {len(met)} places where two names meet", file=sys.stderr)
        return 1
    if "--list" not in sys.argv:
        for p, t in wrote.items():
            if t != texts[p]:
                with open(p, "w", encoding="utf-8", newline="") as f:
                    f.write(t)
    print(f"respell: {len(table)} names", file=sys.stderr)
    return 0


if __name__ == "__main__":
    raise SystemExit(main())
