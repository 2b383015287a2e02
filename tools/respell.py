#!/usr/bin/env python3
"""Brings this repository's own names to the spelling of today's Rattle: words in snake case, types in upper camel case; and the crate `check`,
whose name the kit's library now has, to `trace_check`. Run once, at the top, after the kit's port.py and before any edit by hand.

A name is the repository's own if a file of specs/ or proofs/ declares it: a definition, a lemma, a constructor or a field. Names that the kit
makes for goals, names of its library, functions of src/ and all strings stay.
"""

import os
import re
import subprocess

WORD = re.compile(r"(?<![\w'-])[^\W\d_][\w'₀-₉]*(?:-[\w'₀-₉]+)+(?![\w'-])")
DECLARED = re.compile(r"^\s*(?:(?:pattern|unfoldable|abbrev|pub|axiom|data|record)\s+)*([^\W\d_][\w'₀-₉-]*)\s*(?:\{[^}]*\}|\([^)]*\)|\s)*:(?![:=])")
LOCAL = ["record-number"]  # a parameter in specs/
ALIAS = re.compile(r"([\w'-]+) as ([\w'-]+)")


def files(*endings):
    for folder, dirs, names in os.walk("crates"):
        dirs[:] = sorted(d for d in dirs if d != "out")
        for name in sorted(names):
            if name.endswith(endings):
                yield os.path.join(folder, name)


def read(path):
    with open(path, encoding="utf-8") as file:
        return file.read()


def write(path, text):
    with open(path, "w", encoding="utf-8") as file:
        file.write(text)


def comment_start(line, path):
    if path.endswith(".antt"):
        return 0 if line.lstrip().startswith("--") else (line.find(" -- ") if " -- " in line else len(line))
    return line.find("//") if "//" in line else len(line)


def spelled(name):
    if name[0].isupper():
        return "".join(part[:1].upper() + part[1:] for part in name.split("-"))
    return name.replace("-", "_")


def snake(name):
    return re.sub(r"(?<=[a-z0-9])([A-Z])", lambda m: "_" + m.group(1).lower(), name)


def own_names():
    own, kits = set(LOCAL), set()
    for path in files(".antt"):
        for line in read(path).splitlines():
            line = line[: comment_start(line, path)]
            if line.startswith("use "):
                own.update(alias for _, alias in ALIAS.findall(line))
            if line.startswith("use Rattle.std.") or line.startswith("use native."):
                kits.update(word for word in WORD.findall(ALIAS.sub(r"\1", line)))
                continue
            found = DECLARED.match(line)
            if found and "goal." not in line and "the-" not in found.group(1):
                own.add(found.group(1))
    return {name for name in own if "-" in name and name not in kits}


def respell(own):
    for path in files(".antt", ".rt"):
        text = "".join(
            WORD.sub(lambda m: spelled(m.group(0)) if m.group(0) in own else m.group(0), line[: comment_start(line, path)]) + line[comment_start(line, path) :]
            for line in read(path).splitlines(keepends=True)
        )
        write(path, text)


def drop_aliases():
    """An alias that a clause needed because of a dash, or of an upper case letter in a word, takes the name itself or snake case."""
    for path in files(".rt"):
        text = read(path)
        uses = [line for line in text.splitlines() if line.startswith("ghost use")]
        other = {}
        for name, alias in (pair for line in uses for pair in ALIAS.findall(line)):
            new = snake(alias) if alias[0].islower() else alias
            if new != alias:
                other[alias] = new
        for alias, new in other.items():
            text = re.sub(rf"(?<![\w'.-]){re.escape(alias)}(?![\w'-])", new, text)
        lines = []
        for line in text.splitlines(keepends=True):
            if line.startswith("ghost use"):
                line = ALIAS.sub(lambda m: m.group(1) if m.group(1) == m.group(2) else m.group(0), line)
            lines.append(line)
        write(path, "".join(lines))


def rename_check():
    subprocess.run(["git", "mv", "crates/check", "crates/trace_check"], check=True)
    for path in files(".antt", ".rt"):
        text = read(path)
        text = text.replace("Rattle.check.", "Rattle.trace_check.")
        if path.endswith(".rt"):
            text = re.sub(r"(?<![\w:])check::(?=[A-Z{])", "trace_check::", text)
        write(path, text)
    write("crates.txt", re.sub(r"\bcheck\b", "trace_check", read("crates.txt")))


if __name__ == "__main__":
    names = own_names()
    spellings = {}
    for name in sorted(names):
        spellings.setdefault(spelled(name), []).append(name)
    for new, olds in spellings.items():
        if len(olds) > 1:
            print("fall together:", new, olds)
    respell(names)
    drop_aliases()
    rename_check()
    print(f"{len(names)} names respelled")
