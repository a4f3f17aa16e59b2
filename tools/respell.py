#!/usr/bin/env python3
"""Spells the repository's own definitions and lemmas in snake case: `numberOf` becomes `number_of`, `digit-put` becomes `digit_put`.

usage: tools/respell.py [--check]        at the top of the repository, after the kit's port.py

What turns is each name that a file of specs/, or a lemma file right in proofs/, declares: definitions, lemmas, fields, constructors and
local helpers. Names of types and modules, functions of src/, exported names, strings, inputs and outputs stay. A name stays in a file that
imports it from a library, and where a proof file answers a goal by it. Turned too: clauses and comments in src/, must-fail edits, and code
spans of the pages. A lemma that would get the name of a definition gets `_lem` behind it, as the kit has it. --check writes nothing.
"""

import os
import re
import sys

NAME = r"[^\s(){}.;,@\"«»\[\]`|]+"
DECLARED = re.compile(
    r"^ *(?:(?:pub|abbrev|unfoldable|data|record|private|mutual) +)*"
    r"([^\s(){}.;,@\"«»:]+(?: +[^\s(){}.;,@\"«»:]+)*)"
    r"((?: \{[^{}\n]*\}| \((?:[^()\n]|\([^()\n]*\))*\))*) :(?: |$)"
)
USE = re.compile(r"\buse ([^\s;{]+)(\{[^;{}]*\})?")
GOAL = re.compile(r"(?m)^ *(?:abbrev )?(?:pub )?(%s) : (?:tie\.Need-|tie\.|goal\.)" % NAME)
TOKEN = re.compile(NAME)
QUIET = re.compile(r'b?"(?:[^"\\\n]|\\.)*"')
SPAN = re.compile(r"`[^`\n]+`")


def in_snake_case(name):
    name = re.sub(r"(?<=[a-z0-9'])[A-Z]+(?=[A-Z][a-z])|(?<=[a-z0-9'])[A-Z](?=[a-z])", lambda m: "_" + m[0].lower(), name)
    name = re.sub(r"(?<=[a-z0-9'])[A-Z]+", lambda m: "_" + m[0].lower(), name)
    return re.sub(r"-", "_", name)


def is_own(path):
    return path.startswith("Rattle.") and os.path.isdir(os.path.join("crates", path.split(".")[1]))


def texts():
    for top in ("crates", "docs", "rust", "include", "c"):
        for folder, dirs, files in os.walk(top):
            dirs[:] = sorted(d for d in dirs if d not in ("out", "target"))
            for name in sorted(files):
                if name.endswith((".antt", ".rt", ".edit", ".md")):
                    yield os.path.join(folder, name)
    yield "README.md"


def read(path):
    with open(path, encoding="utf-8") as f:
        return f.read()


def is_lemma_file(path):
    steps = path.split("/")
    return path.endswith(".antt") and (steps[2] == "specs" or steps[2] == "proofs" and len(steps) == 4)


def turns(name):
    return re.match(r"[a-z]", name) and (re.search(r"[a-z0-9']-[a-z0-9A-Z]", name) or re.search(r"[a-z0-9'][A-Z]", name))


def declared(path):
    for line in read(path).splitlines():
        m = None if line.lstrip().startswith("--") else DECLARED.match(line)
        if m:
            yield from m[1].split()


def from_libraries(text):
    names = set()
    for path, items in USE.findall(text):
        if not is_own(path) and items:
            names.update(TOKEN.findall(items))
    return names


def replaced(text, table):
    return TOKEN.sub(lambda m: table.get(m[0], m[0]), text)


def outside_strings(text, table):
    out, at = [], 0
    for m in QUIET.finditer(text):
        out += [replaced(text[at : m.start()], table), m[0]]
        at = m.end()
    return "".join(out) + replaced(text[at:], table)


def main(argv):
    every = sorted(texts())
    names = {n for path in every if path.startswith("crates/") and is_lemma_file(path) for n in declared(path)}
    definitions = {in_snake_case(n) for n in names if "-" not in n}
    table = {n: in_snake_case(n) for n in sorted(names) if turns(n)}
    table = {old: new + "_lem" if "-" in old and new in definitions else new for old, new in table.items()}
    # port.py spelled some lemmas already.
    camel = {in_snake_case(n) for n in table if "-" not in n}
    table.update({n: n + "_lem" for n in sorted(names & camel)})
    meets, count = [], 0
    back = {}
    for old, new in table.items():
        back.setdefault(new, []).append(old)
    meets += [f"{' and '.join(olds)} are both {new}" for new, olds in back.items() if len(olds) > 1]
    for path in every:
        text = read(path)
        here = dict(table)
        if path.endswith((".rt", ".edit")):
            here = {old: new for old, new in here.items() if turns(old)}
        if path.endswith((".antt", ".rt", ".edit")):
            for n in from_libraries(text):
                here.pop(n, None)
            if path.endswith(".antt") and not is_lemma_file(path):
                for n in GOAL.findall(text):
                    here.pop(n, None)
            tokens = set(TOKEN.findall(text))
            for old in sorted(tokens & set(here)):
                if here[old] in tokens:
                    meets.append(f"{path}: {old} meets {here[old]}")
        if path.endswith(".md"):
            new = SPAN.sub(lambda m: replaced(m[0], here), text)
        elif path.endswith(".antt"):
            new = replaced(text, here)
        else:
            new = outside_strings(text, here)
        if new != text:
            count += 1
            if "--check" not in argv:
                with open(path, "w", encoding="utf-8") as f:
                    f.write(new)
    print("\n".join(meets))
    print(f"respell: {len(table)} names, {count} files, {len(meets)} meet another")


main(sys.argv[1:])
