#!/usr/bin/env python3
"""Spells this repository's own definitions, lemmas and fields of specs/ and proofs/ in snake case.

usage: tools/port/respell.py [--make]        at the top, once, after /opt/rattle/port/port.py

A name in camel case (`wrongAt`), or of plain words joined by dashes (`rows-same`), that a file of specs/ or of lemmas declares
gets underscores in every .antt, .rt and .edit file. Names of src/, of the libraries and of what Rattle makes stay. A lemma that would
get the name of a definition, a function or a word in a file where both stand gets `_lem` after it. `Rattle.core`, which no crate here lists, becomes `Rattle.std`.
The names are in names.tsv beside this file; --make writes that file from the tree, and changes nothing else.
"""
import collections
import os
import re
import sys

TOKEN = re.compile(r'[^\s(){}.;,@"«»]+')
DECLARED = re.compile(r"(?m)^( *)(?:(?:abbrev|pub|unfoldable|data|record|ruleset|module) +)*([^\s(){}.;,@\"«»:]+)(?: *[({][^\n]*)? :(?= |$)")
USE = re.compile(r"(?m)^ *(?:ghost )?(?:pub )?use ([^\s;{]+?)(?:\.\{([^}]*)\})?(?: as ([^\s;]+))?;?$")
MADE = re.compile(r"\.(Tie|Goals|Given|Statement|Lts|Met|Code|Proof|TheVariants|TheConstants)$|\.declared\.|\.contracts\.|\.+\w+\.(Goals|Given)$")


def files(root, ends):
    for top in ("crates", "tools/edits"):
        for folder, dirs, names in os.walk(os.path.join(root, top)):
            dirs[:] = sorted(d for d in dirs if d != "out")
            for n in sorted(names):
                if n.endswith(ends):
                    yield os.path.join(folder, n)


def is_function_proof(path):
    return re.search(r"/proofs/.+/(Proof|Answers|Invariants)\.antt$", path) is not None


def snake(name):
    name = re.sub(r"(?<=[a-z0-9₀-₉])([A-Z])", lambda m: "_" + m[1].lower(), name)
    return name.replace("-", "_")


def wants(name):
    if not re.match(r"[a-z]", name):
        return False
    if re.search(r"[^\w'′₀-₉-]", name):
        return False
    return "-" in name.strip("-") or re.search(r"[a-z0-9][A-Z]", name) is not None


def main():
    root = os.getcwd()
    table = os.path.join(os.path.dirname(os.path.abspath(__file__)), "names.tsv")
    crates = set(os.listdir(os.path.join(root, "crates")))
    texts = {p: open(p, encoding="utf-8").read() for p in files(root, (".antt", ".rt", ".edit"))}
    declared, fields, in_specs = collections.Counter(), set(), set()
    for p, t in texts.items():
        if not p.endswith(".antt"):
            continue
        for m in DECLARED.finditer(t):
            if not is_function_proof(p):
                declared[m[2]] += 1
                if m[1]:
                    fields.add(m[2])
                if "/specs/" in p:
                    in_specs.add(m[2])
    # imported from elsewhere than the repository's own specs and lemmas
    foreign = set()
    for p, t in texts.items():
        for m in USE.finditer(t):
            path = m[1]
            if m[2] is None:
                continue
            own = path.startswith("Rattle.") and path.split(".")[1] in crates and not MADE.search(path)
            if not own:
                foreign.update(w.split(" as ")[0].strip() for w in m[2].split(","))
                foreign.update(w.split(" as ")[-1].strip() for w in m[2].split(","))
    rust = set()
    for p, t in texts.items():
        if p.endswith(".rt"):
            rust.update(re.findall(r"\b(?:const|static|struct|enum|type|trait|fn|mod) (\w+)", t))
    chosen = {n for n in declared if wants(n) and n not in foreign}
    used = {p: set(TOKEN.findall(t)) for p, t in texts.items()}
    where = collections.defaultdict(list)
    for p, u in used.items():
        for n in u & chosen:
            where[n].append(p)
    new, kinds = {}, {}
    if os.path.exists(table):
        for line in open(table, encoding="utf-8"):
            n, to, kind = line.rstrip("\n").split("\t")
            new[n], kinds[n] = to, kind
    if "--make" in sys.argv:
        new = {}
        taken = set()
        lemmas = {n for n in declared if n not in in_specs and n not in foreign and n not in rust}

        def clash(n, s):
            return s in declared or s in foreign or s in taken or (s not in rust and any(s in used[p] for p in where[n]))

        # definitions in camel case first, then lemmas
        for n in sorted(chosen, key=lambda n: ("-" in n, n)):
            s = snake(n)
            if "-" not in n and s in lemmas and s not in taken and s + "_lem" not in declared:
                new[s] = s + "_lem"
                taken.add(s + "_lem")
            elif clash(n, s) or ("-" in n and s in rust):
                s = s + "_lem" if "-" in n else s + "_of"
                if clash(n, s):
                    print(f"stays: {n}")
                    continue
            new[n] = s
            taken.add(s)
        with open(table, "w", encoding="utf-8") as f:
            for n, s in sorted(new.items()):
                f.write(f"{n}\t{s}\t{'field' if n in fields else '-'}\n")
        return
    fields = {n for n in new if kinds[n] == "field"}
    keep_field = set(new) - fields
    count = 0
    for p, t in texts.items():
        was, t = t, t.replace("Rattle.core.", "Rattle.std.")
        modules = {"tie", "goal"}
        aliases = {m[3] for m in USE.finditer(t) if m[3] and not MADE.search(m[1]) and "-" not in m[3]}
        made = {m[3] for m in USE.finditer(t) if m[3] and MADE.search(m[1])}
        def turn(m):
            w = m[0]
            s = new.get(w)
            if s is None or (not p.endswith(".antt") and w == w.lower() and "-" not in w):
                return w
            before = t[: m.start()]
            if before.endswith("."):
                head = re.search(r'([^\s(){};,@"«»]*)\.$', before)
                h = head[1].split(".")[-1] if head else ""
                if h in made or h in modules:
                    return w
                if w in keep_field and not (h in aliases or h[:1].isupper()):
                    return w
            return s
        out = TOKEN.sub(turn, t)
        if out != was:
            with open(p, "w", encoding="utf-8") as f:
                f.write(out)
            count += 1
    print(f"{len(new)} names, {count} files")


main()
