#!/usr/bin/env python3
"""Moves modules of theorems from specs/ to proofs/, so that a must-fail edit of a definition is refused by a theorem.

usage: tools/move_theorems.py        at the top of the repository; a second run only turns what still names the old place

Today's kit calls an edit of specs/ a BAD EDIT where a theorem of specs/ that others of specs/ rest on no longer holds. A module of MOVED goes
whole; of one of SPLIT the definitions that are named stay in specs/, since contracts lean on them, and the rest goes to a module of the same
name. All statements stay word for word; the paths that name them turn.
"""

import os
import re
import subprocess

MOVED = {
    "bits": "Pack",
    "record": "Forward NextTo Backward Demand2 Demand2Read Entered Newest Rising",
    "rooms": "Demand3 GridLabels LabelFacts LabelsBaxter M106 OutlineSides PartnerRooms PartnerSegments RelationFacts RoomOrders"
    " SameLabels SameSegment SegmentFacts SegmentOfEdge Stands Steps Worked",
    "contacts": "DirectFacts GridDirect GridSegments GridTouches InnerFacts M101 M102 TouchFacts",
    "slicing": "HasTree LineSearch Lines M103 OnlyTree Order SameTree Size TreeOfRooms TreeSlicing",
    "sizes": "Lines LowestLaws M108 OfRooms OneWay Turned",
    "groups": "ByExtremes Demand1 M109 OfRooms StandingFacts",
    "baxter": "Computed M112",
    "counting": "Begun Figures M112 Mirror Positions Reported Sequences",
    "traces": "Adding Demand1 M111",
    "patterns": "FromPosition M105 Worked",
}

SPLIT = {
    ("drawing", "SideFacts"): "converse_back number numbered numbered_back dec_side",
    ("rooms", "Ranks"): "OneToN",
    ("slicing", "Blocks"): "Whole FirstBlock",
    ("slicing", "Split"): "Distinct",
    ("slicing", "Interval"): "Interval place_of lowest_of_first lowest_of_rest",
    ("groups", "Pairs"): "SomePair SomeBefore Ahead side_before other_way",
    ("counting", "AllWays"): "all_ways",
    ("counting", "Sizes"): "CountFits",
    ("traces", "Row"): "Leads NoneRefused Stops",
    ("traces", "Sizes"): "TraceFits",
    ("traces", "Still"): "Built",
    ("patterns", "Sides"): "condition_of NextTo Beyond BySides",
    ("patterns", "Scope"): "FirstIn NoneIn StartsBy StartsAt StartsBefore",
    ("patterns", "Completion"): "Place Started",
}


def read(path):
    with open(path, encoding="utf-8") as f:
        return f.read()


def write(path, text):
    with open(path, "w", encoding="utf-8") as f:
        f.write(text)


def move(crate, module):
    old, new = f"crates/{crate}/specs/{module}.antt", f"crates/{crate}/proofs/{module}.antt"
    if not os.path.exists(old):
        return
    os.makedirs(os.path.dirname(new), exist_ok=True)
    subprocess.run(["git", "mv", old, new], check=True)
    lib = f"crates/{crate}/specs/Lib.antt"
    write(lib, re.sub(rf"(?m)^(?:pub )?mod {module}\n", "", read(lib)))
    lib = f"crates/{crate}/proofs/Lib.antt"
    text = read(lib) if os.path.exists(lib) else ""
    write(lib, text + f"pub mod {module}\n")


def blocks(text):
    """The head of a module, and its declarations with the comments above them."""
    out, now = [], []
    for line in text.rstrip("\n").split("\n"):
        if now and not now[-1].strip() and line.strip() and not line.startswith(" "):
            out.append("\n".join(now).rstrip())
            now = []
        now.append(line)
    return out + ["\n".join(now).rstrip()]


def name_of(block):
    for line in block.split("\n"):
        m = None if line.startswith("--") else re.match(r"(?:(?:pub|abbrev|unfoldable|record|data) )*(\S+)", line)
        if m:
            return m[1]
    return ""


def made_by(block):
    """The names that a declaration brings: its own and, of a data type, its constructors."""
    inside = re.findall(r"(?m)^  (\S+) :", block) if re.search(r"(?m)^(?:pub )?data ", block) else []
    return {name_of(block), *inside}


def split(crate, module, names):
    old, new = f"crates/{crate}/specs/{module}.antt", f"crates/{crate}/proofs/{module}.antt"
    if os.path.exists(new):
        return
    head, *rest = blocks(read(old))
    stay = [b for b in rest if name_of(b) in names.split()]
    go = [b for b in rest if b not in stay]
    brought = sorted(set().union(*map(made_by, stay)))
    write(old, "\n\n".join([head, *stay]) + "\n")
    os.makedirs(os.path.dirname(new), exist_ok=True)
    write(new, "\n\n".join([head + f"\nuse Rattle.{crate}.specs.{module}.{{{', '.join(brought)}}}", *go]) + "\n")
    lib = f"crates/{crate}/proofs/Lib.antt"
    write(lib, (read(lib) if os.path.exists(lib) else "") + f"pub mod {module}\n")


def turn_imports(text, crate, module, brought):
    """Of what an import names, what went is imported from proofs/."""

    def one(m):
        items = [i.strip() for i in m[2].split(",")]
        stay = [i for i in items if i.split(" as ")[0] in brought]
        go = [i for i in items if i not in stay]
        lines = [f"{m[1]}Rattle.{crate}.{part}.{module}.{{{', '.join(some)}}}{m[3]}" for part, some in (("specs", stay), ("proofs", go)) if some]
        return "\n".join(lines)

    return re.sub(rf"(?m)^( *(?:ghost )?use )Rattle\.{crate}\.specs\.{module}\.\{{([^}}]*)\}}(;?)", one, text)


def texts():
    for top in ("crates", "docs"):
        for folder, dirs, files in os.walk(top):
            dirs[:] = [d for d in dirs if d not in ("out", "target")]
            yield from (os.path.join(folder, f) for f in files if f.endswith((".antt", ".rt", ".edit", ".md")))
    yield "README.md"


def turn(path):
    text = was = read(path)
    for crate, modules in MOVED.items():
        names = "|".join(modules.split())
        text = re.sub(rf"Rattle\.{crate}\.specs\.({names})(?![\w'])", rf"Rattle.{crate}.proofs.\1", text)
        text = re.sub(rf"crates/{crate}/specs/({names})\.antt", rf"crates/{crate}/proofs/\1.antt", text)
        if path.startswith(f"crates/{crate}/must-fail/"):
            text = re.sub(rf"(?m)^file: specs/({names})\.antt", r"file: proofs/\1.antt", text)
    for (crate, module), brought in BROUGHT.items():
        if path != f"crates/{crate}/proofs/{module}.antt":
            text = turn_imports(text, crate, module, brought)
    if text != was and path != "docs/PORT.md":
        write(path, text)


for crate, modules in MOVED.items():
    for module in modules.split():
        move(crate, module)
BROUGHT = {}
for (crate, module), names in SPLIT.items():
    split(crate, module, names)
    BROUGHT[crate, module] = set().union(*map(made_by, blocks(read(f"crates/{crate}/specs/{module}.antt"))[1:]))
for path in list(texts()):
    turn(path)
# What stayed rests on nothing that went.
for crate, module in SPLIT:
    path = f"crates/{crate}/specs/{module}.antt"
    write(path, re.sub(rf"(?m)^use Rattle\.{crate}\.proofs\..*\n", "", read(path)))
