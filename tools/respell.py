#!/usr/bin/env python3
"""Spells this repository's own names as today's Rattle does: words and lemmas in snake case, types and facts in camel case.
Renames the crate bytes, whose name a library of the kit has, to buffers.

usage: python3 tools/respell.py [--check]     at the top of the repository, once, after port.py

A name is the repository's own if a file of specs/ or proofs/ declares it, or a clause's label or a name of Rust has it with
underscores. Names that Rattle makes for goals and steps (behind goal., c., l., w. and g., and imported from Goals and Given)
keep their dashes, and so do names of the kit's libraries in the files that import them. Each pair of names that fall together
in a file is shown on a line that begins 'meets:'. With --check nothing is written.
"""

import os
import re
import sys

TOKEN = re.compile(r"[^\s(){}.;,@\"«»]+")
DASHED = re.compile(r"[A-Za-z][\w']*(-[\w']+)+$")
SKIP = re.compile(r"\"(?:[^\"\\\n]|\\.)*\"|(?<![^\s(){}.;,@])--[^\n]*|//[^\n]*")
DECL = re.compile(r"(?m)^( *)((?:abbrev |unfoldable |pub )*)([^\s(){}.;,@\"«»:]+)((?: \{[^{}\n]*\})*) :(?= |\n)([^\n]*(?:\n\1 +[^\n]*)*)")
LABEL = re.compile(r"\b(?:requires\*?|ensures\*?|ghost) +(\w+) *[{=:]")
RUSTNAME = re.compile(r"\b(?:let(?: mut)?|fn|struct|enum|const|static) +(\w+)|\b(\w+):")
USE = re.compile(r"\buse ([^\s;{]+)\.\{([^{}]*)\}")
KIT = re.compile(r"Rattle\.(std|core|std_\w+)\.|mathlib|lib\.|native|Prim|borrow|seplogic|antt")
HEADS = {"c", "l", "w", "goal", "given", "need", "g", "v"}
HOLDERS = {"args", "old", "new", "initial", "fn", "auto", "now", "ranges"}
OLD_CRATE, NEW_CRATE = "bytes", "buffers"


def texts(ends):
    for folder, dirs, files in os.walk("crates"):
        dirs[:] = sorted(d for d in dirs if d != "out")
        for f in sorted(files):
            if f.endswith(ends):
                yield os.path.join(folder, f)


def read(path):
    with open(path, encoding="utf-8") as f:
        return f.read()


def bare(text):
    return SKIP.sub("", text)


def camel(name):
    return "".join(part[:1].upper() + part[1:] for part in re.split("[-_]", name))


def is_type(signature):
    return re.search(r"(^|→ |\s)Type (\d+|\{[^{}]*\})\s*$", " " + signature.strip()) is not None


def own_names():
    """Dashed names declared in this repository, each with its new spelling; and the labels and names of its Rust."""
    new, rust = {}, set()
    for path in texts(".antt"):
        text = bare(read(path))
        for m in DECL.finditer(text):
            name = m[3]
            if "goal." in m[5] or "given." in m[5] or "need." in m[5] or not re.match(r"[A-Za-z]", name):
                continue
            if is_type(m[5]) and (DASHED.match(name) or name[0].isupper()):
                spelled = camel(name) if "-" in name or "_" in name else name
            elif DASHED.match(name):
                spelled = camel(name) if name[0].isupper() else name.replace("-", "_")
            else:
                continue
            if spelled != name:
                new[name] = spelled
        for m in re.finditer(r"(?m)^ *(?:pub )?(?:unfoldable |abbrev )?(?:record|data) ([^\s(){}:]+)", text):
            if "-" in m[1]:
                new[m[1]] = camel(m[1])
        for m in re.finditer(r"\bas ([^\s(){}.;,]+)", text):
            if DASHED.match(m[1]):
                new[m[1]] = m[1].replace("-", "_")
        # what a let, a lambda or a pattern binds
        for m in re.finditer(r"\blet ([^\s(){}.;,:=]+)|λ ([^.]*)\.|\(((?:[^\s(){}.;,:=]+ )+): ", text):
            for name in (m[1] or m[2] or m[3]).replace("(", " ").split():
                if DASHED.match(name) and name not in new:
                    new[name] = name.replace("-", "_")
    for path in texts(".rt"):
        text = bare(read(path))
        for m in re.finditer(r"\bas ([^\s(){}.;,]+)", text):
            if DASHED.match(m[1]):
                new[m[1]] = m[1].replace("-", "_")
        for m in LABEL.finditer(text):
            rust.add(m[1])
        for m in RUSTNAME.finditer(text):
            rust.add(m[1] or m[2])
    for name in rust:
        if name and DASHED.match(name.replace("_", "-")):
            new.setdefault(name.replace("_", "-"), name)
    return new


def kept(path, text):
    """Names that stay in this file: imported from the kit or from what Rattle makes, or declared as a goal's answer."""
    stay = set()
    for m in USE.finditer(text):
        made = ".proofs." in m[1] and m[1].endswith((".Goals", ".Given", ".Needs"))
        if KIT.match(m[1]) or made:
            for item in m[2].split(","):
                stay.update(item.split(" as ")[0].split())
    for m in re.finditer(r"(?m)^(?:abbrev )?(?:pub )?([^\s:]+) : (?:goal|given|need)\.", text):
        stay.add(m[1])
    return stay


def respell(path, text, new, meets):
    antt = path.endswith(".antt")
    answers = re.search(r"/proofs/.*(Answers|Invariants|Choices)\.antt$", path) is not None
    stay = kept(path, text)
    out, at, seen = [], 0, {}
    skips = [m.span() for m in SKIP.finditer(text)]
    k = 0
    behind = []
    for m in TOKEN.finditer(text):
        while k < len(skips) and skips[k][1] <= m.start():
            k += 1
        if k < len(skips) and skips[k][0] <= m.start() < skips[k][1]:
            continue
        name = m[0]
        dotted = m.start() > 0 and text[m.start() - 1] == "."
        behind = behind + [name] if dotted else [name]
        if name not in new:
            seen.setdefault(name, set()).add(name)
            continue
        if name in stay and not dotted:
            continue
        # what Rattle names: right behind the head of an answer, and what it holds there
        if answers and dotted and len(behind) == 2 and behind[0] in HEADS:
            continue
        if answers and dotted and name in stay:
            continue
        spelled = new[name]
        seen.setdefault(spelled, set()).add(name)
        out += [text[at:m.start()], spelled]
        at = m.end()
    for spelled, olds in seen.items():
        if len(olds) > 1:
            meets.append((path, spelled, sorted(olds)))
    return "".join(out) + text[at:]


def crate_renamed(text, antt):
    text = re.sub(rf"\bRattle\.{OLD_CRATE}\.", f"Rattle.{NEW_CRATE}.", text)
    return text if antt else re.sub(rf"\buse {OLD_CRATE}::", f"use {NEW_CRATE}::", text)


def main(check):
    new = own_names()
    meets, turned = [], 0
    for path in list(texts((".antt", ".rt", ".edit"))):
        text = read(path)
        fresh = crate_renamed(respell(path, text, new, meets), path.endswith(".antt"))
        if fresh != text:
            turned += 1
            if not check:
                with open(path, "w", encoding="utf-8") as f:
                    f.write(fresh)
    if not check and os.path.isdir(f"crates/{OLD_CRATE}"):
        os.rename(f"crates/{OLD_CRATE}", f"crates/{NEW_CRATE}")
        text = read("crates.txt")
        with open("crates.txt", "w", encoding="utf-8") as f:
            f.write("\n".join(re.sub(rf"(?<![\w]){OLD_CRATE}(?!\w)", NEW_CRATE, l) if not l.startswith("#") else l for l in text.split("\n")))
    for path, spelled, olds in meets:
        print(f"meets: {path}: {spelled} of {', '.join(olds)}")
    print(f"respell: {len(new)} names, {turned} files")


if __name__ == "__main__":
    main("--check" in sys.argv[1:])
