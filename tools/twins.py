#!/usr/bin/env python3
"""Finds functions of src/ whose bodies are the same but for types, numbers and the names in them.

usage: python3 tools/twins.py [ROOT]    ROOT is the top of a checkout, by default the current folder
"""
import collections
import glob
import re
import sys

KEPT = set("let mut if else while for in return match T N true false self as len".split())


def body_at(text, start):
    """The text from the brace at `start` to the one that closes it."""
    depth = 0
    for end in range(start, len(text)):
        if text[end] == "{":
            depth += 1
        elif text[end] == "}":
            depth -= 1
            if depth == 0:
                return text[start : end + 1]
    return text[start:]


def functions(root):
    """Crate, name and body of each function: the body's brace stands at the beginning of a line."""
    for path in sorted(glob.glob(root + "/crates/*/src/*.rt")):
        text = re.sub(r"//.*", "", open(path, encoding="utf-8").read())
        for found in re.finditer(r"\bfn (\w+)", text):
            brace = re.compile(r"\n {0,4}\{\n").search(text, found.end())
            if brace:
                yield path.split("/")[-3], found.group(1), body_at(text, text.index("{", brace.start()))


def plain(body):
    """The body with each type as T, each number as N, and its names numbered in the order in which they occur."""
    body = re.sub(r"\b[ui](8|16|32|64|size)\b", "T", body)
    body = re.sub(r"\b\d\w*\b", "N", body)
    names = {}

    def numbered(found):
        word = found.group(0)
        return word if word in KEPT else names.setdefault(word, "v%d" % len(names))

    return " ".join(re.sub(r"\b[A-Za-z_]\w*\b", numbered, body).split())


def main():
    groups = collections.defaultdict(list)
    count = 0
    for crate, name, body in functions(sys.argv[1] if len(sys.argv) > 1 else "."):
        groups[plain(body)].append("%s::%s" % (crate, name))
        count += 1
    twins = [group for group in groups.values() if len(group) > 1]
    for group in twins:
        print(len(group), " ".join(group))
    print("functions %d, of them in groups of two and more %d" % (count, sum(map(len, twins))))


main()
