#!/usr/bin/env python3
"""Respells the definitions and lemmas of this repository in snake case, after the toolchain's own porting script.

usage: python3 tools/respell.py        at the top of the repository, once
       python3 tools/respell.py -n     only tells what it would write, and which names would fall together

What is respelled: each name that a file of specs/ or proofs/ declares (definitions, lemmas and the fields of their
records), each name that an import gives by `as`, and the ghost members of traits. `startUpAt` becomes `start_up_at`.
A dash stays only between two names of functions, as in `length-bytes_of`; between words it becomes a `_`, as in
`exactly_then`. A lemma that would fall together with a definition gets `_lem` after its name. Types and modules keep
their capitals, but std's `AllByRecursion` goes by its own name, and not as `All`. Functions of src/, strings, inputs and outputs are not touched.
"""

import os
import re
import sys

TOKEN = re.compile(r"[A-Za-z_][A-Za-z0-9_'₀-₉]*(?:-[A-Za-z0-9_'₀-₉]+)*")
CAMEL = re.compile(r"[a-z][a-z0-9_]*[A-Z]")
DECLARED = re.compile(r"^\s*((?:(?:abbrev|unfoldable|pub|data|record)\s+)*)([^\s:(){}]+)\s*(?:\{[^}]*\}|\([^)]*\))*\s*:")
AS_NAME = re.compile(r"\bas ([A-Za-z_][A-Za-z0-9_'-]*)")
GHOST_MEMBER = re.compile(r"^\s*ghost ([A-Za-z_]\w*)\b")
# the toolchain's own names that look like ours
NOT_OURS = {"cases_Bool", "return_branch"}
# variables that are in camel case, which no declaration names
VARIABLES = {"checksOf", "nonSpins", "putFirst", "putSecond"}
# names of std's functions and facts, beside which a dash joins
STD_NAMES = {"length", "take", "drop", "set", "cond", "map", "get_or"}
ANSWERS = {"Answers.antt", "Invariants.antt"}


def files(root):
    for folder, dirs, names in os.walk(os.path.join(root, "crates")):
        dirs[:] = sorted(d for d in dirs if d not in ("out", "must-fail"))
        for name in sorted(names):
            if name.endswith((".rt", ".antt")):
                yield os.path.join(folder, name)


def snake(part):
    if not CAMEL.match(part):
        return part
    return re.sub(r"(?<=[a-z0-9])([A-Z])", lambda m: "_" + m.group(1).lower(), part)


def declared(root):
    """The names that are respelled, and those among them that are functions or facts."""
    names, functions = set(VARIABLES), set(STD_NAMES)
    for path in files(root):
        with open(path, encoding="utf-8") as f:
            text = f.read()
        for line in text.split("\n"):
            if path.endswith(".antt") and not ("/proofs/" in path and os.path.basename(path) in ANSWERS):
                m = DECLARED.match(line)
                if m:
                    names.add(m.group(2))
                    if "abbrev" in m.group(1) or "unfoldable" in m.group(1):
                        functions.add(snake(m.group(2)))
            if path.endswith(".rt"):
                m = GHOST_MEMBER.match(line)
                if m:
                    names.add(m.group(1))
            if line.startswith(("use ", "ghost use ")) and not line.startswith("use crate"):
                names.update(AS_NAME.findall(line))
    return names - NOT_OURS, functions


def respelled(name, functions):
    parts = [snake(p) for p in name.split("-")]
    out = parts[0]
    for i, part in enumerate(parts[1:]):
        joins = parts[i] in functions and part in functions
        out += ("-" if joins else "_") + part
    return out


def table(root):
    names, functions = declared(root)
    ours = [n for n in sorted(names) if not n[0].isupper() and TOKEN.fullmatch(n)]
    turned = {n: respelled(n, functions) for n in ours}
    # a definition is written in camel case still; a lemma has dashes, or `_` since the toolchain's script
    definitions = {turned[n] for n in ours if CAMEL.search(n) and "-" not in n}
    for n in ours:
        if turned[n] in definitions and ("-" in n or not CAMEL.search(n)):
            turned[n] += "_lem"
    return {n: new for n, new in turned.items() if n != new}


def outside_strings(line, turn):
    """Turns what stands outside of string literals."""
    pieces = re.split(r'("(?:[^"\\]|\\.)*")', line)
    return "".join(p if i % 2 else turn(p) for i, p in enumerate(pieces))


def respell(path, text, turned):
    source = path.endswith(".rt")

    def one(m):
        name, before = m.group(0), m.string[m.start() - 1] if m.start() else ""
        if not CAMEL.search(name) and (source and "-" not in name or before == "."):
            # a function of src/, or a step or a field that the toolchain names
            return name
        return turned.get(name, name)

    def turn(piece):
        if piece.startswith("use "):
            # the path of an import names modules and functions alone
            path, braces, rest = piece.partition(".{")
            return path + braces + TOKEN.sub(one, rest)
        return TOKEN.sub(one, piece)

    if "AllByRecursion as All" in text:
        # `All` is a word of the library for something else
        text = "\n".join(
            line.replace("AllByRecursion as All", "AllByRecursion") if line.startswith("use ") else re.sub(r"\bAll\b", "AllByRecursion", line)
            for line in text.split("\n")
        )
    out = []
    for line in text.split("\n"):
        if source and line.lstrip().startswith("//"):
            out.append(line)
        else:
            out.append(outside_strings(line, turn))
    return "\n".join(out)


def together(root, turned):
    """Names that would fall together with one that stands in the same file already."""
    for path in files(root):
        with open(path, encoding="utf-8") as f:
            text = f.read()
        code = "\n".join(re.sub(r'"(?:[^"\\]|\\.)*"', "", re.sub(r"(//|-- ).*", "", l)) for l in text.split("\n"))
        tokens = set(TOKEN.findall(code))
        news = {}
        for t in sorted(tokens):
            if t in turned:
                new = turned[t]
                if new in tokens:
                    print(f"together: {os.path.relpath(path, root)}: {t} becomes {new}, which stands there")
                if new in news:
                    print(f"together: {os.path.relpath(path, root)}: {t} and {news[new]} become {new}")
                news[new] = t
    back = {}
    for name, new in turned.items():
        back.setdefault(new, []).append(name)
    for new, names in sorted(back.items()):
        if len(names) > 1:
            print(f"together: {', '.join(names)} become {new}")


def main():
    root = os.getcwd()
    turned = table(root)
    together(root, turned)
    if "-n" in sys.argv[1:]:
        for name, new in turned.items():
            print(f"{name} -> {new}")
        return
    changed = 0
    for path in list(files(root)):
        with open(path, encoding="utf-8") as f:
            text = f.read()
        new = respell(path, text, turned)
        if new != text:
            with open(path, "w", encoding="utf-8") as f:
                f.write(new)
            changed += 1
    print(f"respell: {len(turned)} names, {changed} files")


if __name__ == "__main__":
    main()
