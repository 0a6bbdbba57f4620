#!/usr/bin/env python3
"""Brings the repository's own definitions and lemmas to one spelling: words in snake case, types and facts in upper camel case.

usage: respell.py [--list]    at the top of a checkout, once, behind the toolchain's own script.

It goes by text. What is respelled is what specs/ and proofs/ define: definitions, lemmas, fields and constructors whose name has a
capital inside or a hyphen. Answers to goals keep the names that the check gives them. In a .rt file clauses, ghost items and their
imports follow; code, strings and comments stay. It says where a new name was there before. Where a lemma and a definition fall
together, the lemma's name gets the ending `_is`.
"""
import collections
import glob
import re
import sys

TOKEN = r"[^\s(){}\[\];,.|:\"`]+"
HEAD = re.compile(r"^\s*(?:(?:abbrev|pub|unfoldable|data|record)\s+)*(" + TOKEN + r")\s+(?:[({].*[)}]\s*)?:\s(.*)$")
GHOST = re.compile(r"\b(?:ghost|requires|ensures)\b")


def respelled(name):
    """The name in today's spelling."""
    if name[0].isupper():
        if "-" not in name:
            return name
        return "".join(part[:1].upper() + part[1:] for part in name.split("-"))
    words = name.replace("getD", "get_or")
    words = re.sub(r"(?<=[a-z0-9])([A-Z])", lambda m: "_" + m[1].lower(), words)
    return words.replace("-", "_")


def own_names():
    """Old name to new name, for all that specs/ and proofs/ define."""
    names = {}
    for path in sorted(glob.glob("crates/*/specs/**/*.antt", recursive=True) + glob.glob("crates/*/proofs/**/*.antt", recursive=True)):
        for line in open(path, encoding="utf-8"):
            m = HEAD.match(line.split("--")[0] if line.lstrip().startswith("--") else line)
            if not m or m[2].startswith("goal.") or m[1] in ("use", "module", "let", "in") or line.lstrip().startswith("let "):
                continue
            new = respelled(m[1])
            if new != m[1] and re.fullmatch(r"[A-Za-z][A-Za-z0-9_'-]*", m[1]):
                names[m[1]] = new
    taken = {new for old, new in names.items() if "-" not in old}
    return {old: new + "_is" if "-" in old and new in taken else new for old, new in names.items()}


def in_antt(text, names):
    """The text of an .antt file, respelled outside comments."""
    out = []
    for line in text.split("\n"):
        cut = re.search(r"(^|\s)--(\s|$)", line)
        code, rest = (line[: cut.start()], line[cut.start():]) if cut else (line, "")
        pieces = re.split(r'("(?:[^"\\]|\\.)*")', code)
        for k in range(0, len(pieces), 2):
            pieces[k] = re.sub(TOKEN, lambda m: names.get(m[0], m[0]), pieces[k])
        out.append("".join(pieces) + rest)
    return "\n".join(out)


def in_rt(text, names):
    """The text of a .rt file, with its ghost parts respelled."""
    out, i = [], 0
    while True:
        m = GHOST.search(text, i)
        if not m:
            return "".join(out) + text[i:]
        line = text[text.rfind("\n", 0, m.start()) + 1: m.start()]
        out.append(text[i: m.start()])
        if "//" in line or line.count('"') % 2:
            out.append(m[0])
            i = m.end()
            continue
        j, deep = m.end(), 0
        while j < len(text):
            c = text[j]
            deep += c == "{"
            deep -= c == "}"
            if (c == ";" and deep == 0) or (c == "}" and deep == 0) or (c == "," and deep == 0):
                break
            j += 1
        out.append(in_antt(text[m.start(): j + 1], names))
        i = j + 1


def main():
    names = own_names()
    if "--list" in sys.argv:
        for old, new in sorted(names.items()):
            print(old, new)
        return
    by_new = collections.defaultdict(list)
    for old, new in names.items():
        by_new[new].append(old)
    for new, olds in sorted(by_new.items()):
        if len(olds) > 1:
            print("together:", ", ".join(olds), "->", new)
    paths = glob.glob("crates/*/specs/**/*.antt", recursive=True) + glob.glob("crates/*/proofs/**/*.antt", recursive=True) + glob.glob("crates/*/src/**/*.rt", recursive=True)
    crates = [folder.split("/")[1] for folder in glob.glob("crates/*")]
    texts = {path: open(path, encoding="utf-8").read() for path in sorted(paths)}
    for path, text in texts.items():
        there = set(re.findall(TOKEN, text))
        for old, new in names.items():
            if old in there and new in there:
                print("there before:", path, new, "beside", old)
        for imports in re.findall(r"use (\S+)\.\{([^}]*)\}", text):
            for word in re.findall(TOKEN, imports[1]):
                if word in names and not any(imports[0].startswith(f"Rattle.{c}.") for c in crates):
                    print("library's:", path, imports[0], word)
    for path, text in texts.items():
        new = in_antt(text, names) if path.endswith(".antt") else in_rt(text, names)
        if new != text:
            open(path, "w", encoding="utf-8").write(new)
    print(len(names), "names")


if __name__ == "__main__":
    main()
