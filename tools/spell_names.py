#!/usr/bin/env python3
"""Spells the repository's own definitions and lemmas in snake case, after the library's port.py has run.

usage: python3 tools/spell_names.py     at the top of the repository, once

A name that a file of specs/ or proofs/ declares and that has a dash or a capital within gets plain underscores; types, modules, Rust's names and
what a library gives stay. A lemma that would have its definition's name gets `_lem`. Names turn in .antt files, in the clauses of .rt files, in
must-fail edits and in code spans of pages. A line that begins 'look:' names what fell together and how it was kept apart.
"""

import collections
import glob
import os
import re

NAME = r"[^\s(){}.;,«»@\"`]+"
DECLARED = re.compile(r"^\s*((?:abbrev |unfoldable |pub |data |record |ruleset |\| )*)(" + NAME + r")((?:\s*[({][^:]*:[^)}]*[)}])*)\s*:\s(.*)$")
# a definition whose new name is a field of Rust's that clauses read
CHOSEN = {"appxTolerance": "appx_tolerance_of"}


def snake(name):
    if name[0].islower():
        name = re.sub(r"(?<=[a-z0-9])[A-Z]", lambda m: "_" + m[0].lower(), name)
    return re.sub(r"(?<=.)-(?=.)", "_", name)


def antt_files():
    return sorted(glob.glob("crates/*/specs/*.antt") + glob.glob("crates/*/proofs/**/*.antt", recursive=True))


def rt_files():
    return sorted(glob.glob("crates/*/src/**/*.rt", recursive=True))


def declared(files):
    names = collections.defaultdict(set)
    for path in files:
        for line in open(path, encoding="utf-8"):
            m = DECLARED.match(line)
            # what a function's proof answers has a name that the check makes
            if m and not line.lstrip().startswith("--") and not re.match(r"\s*(tie\.|.*\blts\.|.*-lts\.)", m[4]):
                names[m[2]].add(path)
    return names


def of_libraries(files, own):
    names = set()
    for path in files:
        for m in re.finditer(r"\buse ([^\s{;]+)\.\{([^}]*)\}", open(path, encoding="utf-8").read()):
            part = m[1].split(".")
            if not (part[0] == "Rattle" and len(part) > 2 and part[1] in own):
                names |= {it.split(" as ")[0].strip() for it in m[2].split(",")}
    return names


def table():
    own = {p.split("/")[1] for p in glob.glob("crates/*/src")}
    names = declared(antt_files())
    new = {}
    for n in names:
        if re.search(r".-.|[a-z0-9][A-Z]", n) and (n[0].islower() or "-" in n or not n[0].isalpha()):
            new[n] = CHOSEN.get(n, snake(n))
    met = collections.defaultdict(list)
    for old, n in new.items():
        if old != n:
            met[n].append(old)
    lemmas = {}
    for n, olds in sorted(met.items()):
        camel = [o for o in olds if "-" not in o]
        dashed = [o for o in olds if "-" in o]
        if (camel or n in names) and dashed:
            for o in dashed:
                new[o] = n + "_lem"
                print(f"look: {o} is {n}_lem")
        if camel and n in names:
            lemmas[n] = n + "_lem"
            print(f"look: {n} is {n}_lem where it is declared or brought in, beside {camel[0]}")
    return {o: n for o, n in new.items() if o != n}, lemmas, names, own


def turn(text, new, lemmas):
    def one(m):
        w = m[0]
        if w in new:
            return new[w]
        if w in lemmas and text[m.start() - 1 : m.start()] != ".":
            return lemmas[w]
        return w

    return re.sub(NAME, one, text)


def in_spans(text, new):
    return re.sub(r"`[^`\n]+`", lambda m: turn(m[0], new, {}), text)


def comment(text, new):
    camel = {o: n for o, n in new.items() if "-" not in o}
    return turn(in_spans(text, new), camel, {})


def antt(text, new, lemmas):
    out = []
    for line in text.split("\n"):
        m = re.match(r"(.*?(?:^|\s))(--(?:\s.*|$))", line)
        out.append(turn(m[1], new, lemmas) + comment(m[2], new) if m else turn(line, new, lemmas))
    return "\n".join(out)


def rt(text, new):
    camel = {o: n for o, n in new.items()}
    out = []
    for line in text.split("\n"):
        m = re.match(r"(.*?)(//.*)$", line)
        code, rest = (m[1], comment(m[2], new)) if m else (line, "")
        out.append(turn(code, camel, {}) + rest)
    return "\n".join(out)


def write(path, text):
    if open(path, encoding="utf-8").read() != text:
        open(path, "w", encoding="utf-8").write(text)


def main():
    new, lemmas, names, own = table()
    for path in antt_files():
        text = open(path, encoding="utf-8").read()
        library = of_libraries([path], own)
        here = {n: to for n, to in lemmas.items() if path in names[n] or re.search(r"\buse [^{\n]*\{[^}\n]*(?<![^\s{,])" + re.escape(n) + r"(?=[,} ])", text)}
        write(path, antt(text, {o: n for o, n in new.items() if o not in library}, here))
    for path in rt_files():
        write(path, rt(open(path, encoding="utf-8").read(), new))
    for path in sorted(glob.glob("crates/*/must-fail/*.edit") + glob.glob("tests/edits/**/*.edit", recursive=True)):
        write(path, turn(open(path, encoding="utf-8").read(), new, {}))
    for path in sorted(glob.glob("*.md") + glob.glob("docs/**/*.md", recursive=True)):
        write(path, in_spans(open(path, encoding="utf-8").read(), new))
    print(f"{len(new)} names have another spelling")


main()
