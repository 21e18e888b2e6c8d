#!/usr/bin/env python3
"""Brings the definitions and lemmas of the repository to one spelling: words in snake case, types in camel case.

Run it once, at the top: `tools/spelling.py`. A name is turned where it is declared in specs/ or proofs/ of a crate
(a definition, a lemma, a field or a constructor) and has a dash, a prime or a letter of another alphabet in it.
Goals keep their names, and so do functions of src/, strings, comments, inputs and outputs. `--list` prints the pairs
and the names that would fall together, and changes nothing.
"""
import collections
import glob
import re
import sys

WORD = r"[^\s(){}\[\].,;:λ\"`|=]+"
DECLARED = re.compile(
    r"\s*(?:(?:abbrev|unfoldable|abstract)\s+)?(?:pub\s+)?(?:(record|data|ruleset|abbrev|unfoldable)\s+)?(?:pub\s+)?(" + WORD + r")"
    r"((?:\s*(?:\{[^}]*\}|\((?:[^()]|\((?:[^()]|\([^()]*\))*\))*\)))*)\s*:(?=\s)(.*)", re.S)


def files(pattern):
    return sorted(glob.glob("crates/*/" + pattern, recursive=True))


def without_comments(text):
    return re.sub(r"--[^\n]*", "", text)


def items(text):
    """Each line with the lines below it that stand further in: a declaration and its type, at any depth."""
    lines = [line for line in text.split("\n") if line.strip()]
    depth = [len(line) - len(line.lstrip()) for line in lines]
    for i, line in enumerate(lines):
        end = i + 1
        while end < len(lines) and depth[end] > depth[i]:
            end += 1
        yield "\n".join(lines[i:end])


def declared():
    """Each declared name, and whether it is a type."""
    names = {}
    for path in files("specs/**/*.antt") + files("proofs/**/*.antt"):
        for item in items(without_comments(open(path, encoding="utf-8").read())):
            if re.match(r"\s*((pub )?(use|mod)|unfolding|open|let|module)\b", item):
                continue
            m = DECLARED.match(item)
            if not m or m.group(4).strip().startswith(("goal.", "given.")):
                continue
            kind, name, body = m.group(1), m.group(2), m.group(4)
            is_type = kind in ("record", "data") or re.match(r"Type\b", body.split("→")[-1].strip()) is not None
            names[name] = names.get(name, False) or is_type
    return names


def respelled(name, is_type):
    name = name.replace("′", "'").replace("ℤ", "_int").replace("getD", "get_or")
    if is_type and name[0].isupper():
        return "".join(part[0].upper() + part[1:] for part in name.split("-"))
    name = re.sub(r"([a-z])([A-Z])", lambda m: m.group(1) + "_" + m.group(2).lower(), name)
    return name.replace("-", "_")


def pairs():
    return {n: respelled(n, t) for n, t in declared().items() if re.match(r"^[A-Za-z0-9_'′ℤ-]+$", n) and respelled(n, t) != n}


def turned(text, names):
    return re.sub(WORD, lambda m: names.get(m.group(0), m.group(0)), text)


def outside(text, names, quiet):
    """Turned but for what matches `quiet`: comments and strings."""
    out, at = [], 0
    for m in re.finditer(quiet, text):
        out += [turned(text[at:m.start()], names), m.group(0)]
        at = m.end()
    return "".join(out + [turned(text[at:], names)])


def in_backticks(text, names):
    return re.sub(r"`[^`\n]*`", lambda m: turned(m.group(0), names), text)


def report(names):
    back = collections.defaultdict(set)
    for old, new in names.items():
        back[new].add(old)
    known = set(declared())
    for old, new in sorted(names.items()):
        print(f"{old} -> {new}")
    for new, olds in sorted(back.items()):
        if len(olds) > 1 or new in known:
            print(f"FALLS TOGETHER: {new} <- {' '.join(sorted(olds))}{' and a name of today' if new in known else ''}")
    for path in files("src/**/*.rt"):
        text = re.sub(r"//[^\n]*", "", open(path, encoding="utf-8").read())
        ghosts = set(re.findall(WORD, " ".join(re.findall(r"ghost use [^;]*;", text))))
        rust = set(re.findall(r"[A-Za-z_][A-Za-z0-9_]*", re.sub(r"ghost use [^;]*;", "", text)))
        for old in sorted(ghosts & set(names)):
            if names[old] in rust:
                print(f"MEETS RUST: {path}: {old} -> {names[old]}")
    for path in files("specs/**/*.antt") + files("proofs/**/*.antt"):
        words = set(re.findall(WORD, without_comments(open(path, encoding="utf-8").read())))
        for old in sorted(words & set(names)):
            if names[old] in words:
                print(f"MEETS A WORD: {path}: {old} -> {names[old]}")


def main():
    names = pairs()
    if "--list" in sys.argv:
        report(names)
        return
    jobs = [(p, lambda t: outside(t, names, r"--[^\n]*")) for p in files("specs/**/*.antt") + files("proofs/**/*.antt")]
    jobs += [(p, lambda t: outside(t, names, r"//[^\n]*|\"(?:\\.|[^\"\\])*\"")) for p in files("src/**/*.rt")]
    jobs += [(p, lambda t: turned(t, names)) for p in files("must-fail/*.edit")]
    jobs += [(p, lambda t: in_backticks(t, names)) for p in ["README.md"] + sorted(glob.glob("docs/*.md"))]
    for path, turn in jobs:
        text = open(path, encoding="utf-8").read()
        new = turn(text)
        if new != text:
            open(path, "w", encoding="utf-8").write(new)


main()
