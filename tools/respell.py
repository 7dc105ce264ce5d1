#!/usr/bin/env python3
"""Brings this repository's own names to one spelling: words in snake case, facts and types in camel case, a prime as an apostrophe.

usage: python3 tools/respell.py [TOP]      once, right after the kit's port.py, at the top of the repository

An own name is one that a line of specs/ or proofs/ declares. Names that the checker makes (goals, the steps of a proof's context), names of the library
and names of the code stay as they are; so do comments and strings. The crate `log` becomes `recovery_log`, since the kit has a library named log.
"""
import glob
import os
import re
import sys

IDENT = r"[A-Za-zℕ_][A-Za-z0-9ℕ_'′]*(?:-[A-Za-z0-9ℕ_'′]+)*"
MODIFIERS = r"(?:(?:abbrev|opaque|unfoldable|pub|instance)\s+)*"
DECLARED = re.compile(r"\s*" + MODIFIERS + r"(?:(?:data|record)\s+)?(" + IDENT + r")(?:\s+[({].*?)?\s*:(?:\s|$)")
TYPE = re.compile(r"\s*" + MODIFIERS + r"(?:data|record)\s+(" + IDENT + r")(?:\s|$)")
IMPORT = re.compile(r"^\s*(?:pub )?(?:ghost )?use (Rattle\.(\w+)\.[\w.+'-]*|[\w.]+)\.\{([^}]*)\}")
PATH = re.compile(r"(?<![\w'′-])" + IDENT + r"(?:\." + IDENT + r")*")
GENERATED = ("c", "l", "w", "goal", "v")  # what a proof file's generated steps and goals are read from
OLD_CRATE, NEW_CRATE = "log", "recovery_log"


def proof_file(path):
    return os.path.basename(path) in ("Answers.antt", "Choices.antt", "Invariants.antt", "Proof.antt")


def respelled(name):
    name = name.replace("′", "'")
    if name[0].isupper():
        return "".join(part[0].upper() + part[1:] for part in name.split("-"))
    return name.replace("getD", "get_or").replace("-", "_")


def code(line):
    """A line of antt without its comment."""
    m = re.search(r"(?:^|\s)--(?:\s|$)", line)
    return (line[: m.start()], line[m.start() :]) if m else (line, "")


def antt_files(top):
    for folder in ("specs", "proofs"):
        yield from sorted(glob.glob(os.path.join(top, "crates", "*", folder, "**", "*.antt"), recursive=True))


def own_names(top):
    own, crates = set(), {os.path.basename(os.path.dirname(c)) for c in glob.glob(os.path.join(top, "crates", "*", "src"))}
    foreign = set()
    for path in antt_files(top):
        for line in open(path, encoding="utf-8"):
            text, _ = code(line.rstrip("\n"))
            if m := IMPORT.match(text):
                if (m[2] or "") not in crates or re.search(r"\.(?:Goals|Given|contracts)(?:\.|$)", m[1]):
                    foreign.update(n.strip().split(" as ")[0] for n in m[3].split(","))
                continue
            m = TYPE.match(text) or DECLARED.match(text)
            if not m:
                continue
            if proof_file(path) and re.search(re.escape(m[1]) + r"\s*:\s*(?:goal|need)s?\.", text):
                continue
            if proof_file(path) and not re.search(r"\s:(?:\s|$)", text):
                continue
            own.add(m[1])
    return {n: respelled(n) for n in own if respelled(n) != n and n not in foreign}


def in_proof(path_text, names, local_foreign):
    parts = path_text.split(".")
    out = []
    for i, part in enumerate(parts):
        keep = part in local_foreign if i == 0 else (i == 1 and parts[0] in GENERATED)
        out.append(part if keep else names.get(part, part))
    return ".".join(out)


def antt(path, names):
    lines, foreign = open(path, encoding="utf-8").read().split("\n"), set()
    if proof_file(path):
        for line in lines:
            if (m := IMPORT.match(line)) and re.search(r"\.(?:Goals|Given)(?:\.|$)", m[1]):
                foreign.update(n.strip() for n in m[3].split(","))
        for line in lines:
            if m := re.match(r"\s*(?:abbrev )?(?:pub )?(" + IDENT + r")\s*:\s*goal\.", line):
                foreign.add(m[1])
    out = []
    for line in lines:
        text, comment = code(line)
        if proof_file(path):
            text = PATH.sub(lambda m: in_proof(m[0], names, foreign), text)
        else:
            text = PATH.sub(lambda m: ".".join(names.get(p, p) for p in m[0].split(".")), text)
        out.append(text + comment)
    return "\n".join(out)


def rust(path, names):
    """Only the ghost parts have names with a dash: code is laid out with spaces around a minus. Strings and comments stay."""
    out = []
    for line in open(path, encoding="utf-8").read().split("\n"):
        pieces = re.split(r'("(?:[^"\\]|\\.)*"|//.*$)', line)
        out.append("".join(p if i % 2 else PATH.sub(lambda m: ".".join(names.get(q, q) if re.search(r"[-′]", q) or q[0].isupper() else q for q in m[0].split(".")), p) for i, p in enumerate(pieces)))
    return "\n".join(out)


def write(path, text):
    if open(path, encoding="utf-8").read() != text:
        with open(path, "w", encoding="utf-8") as f:
            f.write(text)


def move_crate(top):
    old, new = (os.path.join(top, "crates", c) for c in (OLD_CRATE, NEW_CRATE))
    if not os.path.isdir(old):
        return
    os.rename(old, new)
    for path in [*antt_files(top), *glob.glob(os.path.join(top, "crates", "*", "src", "**", "*.rt"), recursive=True)]:
        text = open(path, encoding="utf-8").read()
        text = re.sub(rf"\bRattle\.{OLD_CRATE}\.", f"Rattle.{NEW_CRATE}.", text)
        if path.endswith(".rt"):
            text = re.sub(rf"(?m)^(\s*(?:pub )?use ){OLD_CRATE}::", rf"\1{NEW_CRATE}::", text)
        write(path, text)
    listed = os.path.join(top, "crates.txt")
    write(listed, re.sub(rf"\b{OLD_CRATE}\b", NEW_CRATE, open(listed, encoding="utf-8").read()))


def main(top):
    names = own_names(top)
    met = {}
    for old, new in sorted(names.items()):
        met.setdefault(new, []).append(old)
    for new, olds in met.items():
        if len(olds) > 1:
            print(f"fall together: {', '.join(olds)} as {new}")
    for path in antt_files(top):
        write(path, antt(path, names))
    for path in glob.glob(os.path.join(top, "crates", "*", "src", "**", "*.rt"), recursive=True):
        write(path, rust(path, names))
    move_crate(top)
    print(f"{len(names)} names respelled")


if __name__ == "__main__":
    main(sys.argv[1] if len(sys.argv) > 1 else ".")
