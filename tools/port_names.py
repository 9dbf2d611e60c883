#!/usr/bin/env python3
"""port_names: turns the names of this repository's definitions and lemmas to snake case, its facts to camel case.

Run once, at the top, on what the kit's port.py left. It renames what specs/ and proofs/ declare with a dash, the
fields and constructors among them, and leaves the names of goals, of the library and of src/. It also gives the crate
`hex` another name, since a library of the kit has that one. With --list it writes nothing, and prints what it would.
"""

import os
import re
import subprocess
import sys

CRATES = {"hex": "hex_text"}
HEAD = re.compile(r"^\s*(?:(?:abbrev|unfoldable|pub|data|record|ruleset|instance|module)\s+)*")
# a token of antt: names hold dashes, primes and signs
TOKEN = re.compile(r"[^\s(){}\[\],;.«»\"`]+")
# names that the library, or a goal, gives
KEPT = {"the-impl"}


def texts():
    for crate in sorted(os.listdir("crates")):
        for folder in ("specs", "proofs", "src"):
            for where, dirs, files in os.walk(os.path.join("crates", crate, folder)):
                dirs.sort()
                for f in sorted(files):
                    if f.endswith((".antt", ".rt")):
                        yield os.path.join(where, f)


def declared(path, text):
    """The names with a dash that a file declares: what stands in front of a lone colon, and behind data and record."""
    for line in text.split("\n"):
        line = line.split(" -- ")[0]
        if line.lstrip().startswith(("--", "use ")):
            continue
        m = HEAD.match(line)
        rest = line[m.end():]
        names = re.match(r"((?:[^\s(){}\[\],;.:=]+\s+)*?[^\s(){}\[\],;.:=]+)\s*(?:\(.*?)?(?::|where\b|=)", rest)
        if not names:
            continue
        goal = re.search(r":\s*goal\.", line)
        if goal:
            continue
        colon = re.match(r"((?:[^\s(){}\[\],;.:=]+\s+)*[^\s(){}\[\],;.:=]+)\s+:(?:\s|$)", rest)
        if colon:
            for n in colon[1].split():
                if "-" in n.strip("-"):
                    yield n
        elif m.group(0).strip():
            n = rest.split()[0]
            if "-" in n.strip("-"):
                yield n


def turned(name):
    if name[0].isupper():
        head, *more = name.split("-")
        return head + "".join(w[:1].upper() + w[1:] for w in more)
    return name.replace("-", "_")


def main(listing):
    ours, goals, library = {}, set(KEPT), set()
    read = {p: open(p, encoding="utf-8").read() for p in texts()}
    for p, t in read.items():
        for m in re.finditer(r"^\s*(?:abbrev pub|pub|abbrev|)\s*(\S+) : goal\.(\S+)", t, re.M):
            goals |= {m[1], m[2]}
        for m in re.finditer(r"(?:^|ghost )use ((?:Rattle\.std|Rattle\.core|[a-z]\w*(?<!Rattle))\S*?)\.\{([^}]*)\}", t, re.M):
            if not m[1].startswith("Rattle.") or m[1].startswith(("Rattle.std", "Rattle.core")):
                library |= {n.strip().split(" as ")[0] for n in m[2].split(",")}
        if p.endswith(".antt"):
            for n in declared(p, t):
                ours.setdefault(n, set()).add(p)
    both = sorted(n for n in ours if n in library)
    names = {n: turned(n) for n in ours if n not in goals and n not in library and re.match(r"[A-Za-z_]", n)}
    tokens = {}
    for p, t in read.items():
        for w in set(TOKEN.findall(t)):
            tokens.setdefault(w, set()).add(p)
    for n, new in sorted(names.items()):
        shared = tokens.get(n, set()) & tokens.get(new, set())
        if shared:
            print(f"falls together: {n} with {new} in {', '.join(sorted(shared))}")
    for n in both:
        print(f"kept, a library's name too: {n} in {', '.join(sorted(ours[n]))}")
    for n in sorted(n for n in ours if n in goals):
        print(f"kept, a goal's name: {n}")
    if listing:
        for n, new in sorted(names.items()):
            print(f"{n} -> {new}  ({len(tokens.get(n, ()))} files)")
        return
    functions = {n for p, t in read.items() if p.endswith(".rt") for n in re.findall(r"\bfn (\w+)", t)}

    def renamed(m):
        new = names.get(m[0], m[0])
        # behind `c.` stand steps of the code: only those that are called as a function is have its name
        step = re.search(r"\bc\.(?:[\w'-]+\.)*$", m.string[max(0, m.start() - 200):m.start()])
        return m[0] if step and new not in functions else new

    for p, t in read.items():
        new = TOKEN.sub(renamed, t)
        for old, other in CRATES.items():
            new = new.replace(f"Rattle.{old}.", f"Rattle.{other}.")
            new = re.sub(rf"\buse {old}::", f"use {other}::", new)
        if new != t:
            with open(p, "w", encoding="utf-8") as f:
                f.write(new)
    with open("crates.txt", encoding="utf-8") as f:
        lines = f.read()
    for old, other in CRATES.items():
        if os.path.isdir(f"crates/{old}"):
            subprocess.run(["git", "mv", f"crates/{old}", f"crates/{other}"], check=True)
        lines = re.sub(rf"\b{old}\b", other, lines)
    with open("crates.txt", "w", encoding="utf-8") as f:
        f.write(lines)


main("--list" in sys.argv[1:])
