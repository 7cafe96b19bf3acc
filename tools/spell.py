#!/usr/bin/env python3
"""Brings this repository's own names to today's spelling, once, on the tree that port.py left.

usage: python3 tools/spell.py, at the top of the repository.

- The crate log becomes definition_log, since Rattle has a library of the old name.
- Definitions, lemmas, constructors and fields of specs/ and proofs/ go from firstFrom and first-from to first_from.
  Types and modules keep their capitals, generated names (goals, labels) their dashes, and names from src/ their spelling.

A name is respelled in a file where the file defines it, or imports it from a module of the repository, or reads it as a field.
Must-fail edits get the same names. It prints what falls together, and writes nothing then, but with --anyway.
"""

import os
import re
import sys

TOKEN = re.compile(r"[A-Za-z_λκΔΓ₀-₉][A-Za-z0-9_'₀-₉→≤<≡∷+*%^·κ-]*")
NAME = r"[A-Za-z_][A-Za-z0-9_'₀-₉→≤<≡-]*"
DEFINES = re.compile(r"^(?P<in>[ ]*)(?:pub |abbrev |unfoldable |axiom )*(?P<name>" + NAME + r")(?P<more>(?: " + NAME + r")*) :(?: |$)", re.M)
USE = re.compile(r"^(?P<head>(?:pub )?(?:ghost )?use )(?P<path>[^\s{;]+?)(?:\.\{(?P<items>[^}]*)\})?(?: as (?P<as>\S+))?;?$", re.M)
STRING = re.compile(r"b?\"(?:\\.|[^\"\\])*\"")


def snake(name):
    """first-from and firstFrom as first_from; a capital behind a dash or at the start stays."""
    name = re.sub(r"(?<=[a-z0-9'])([A-Z])", lambda m: "_" + m.group(1).lower(), name)
    return re.sub(r"-(?=[A-Za-z0-9])", "_", name)


LEMMA = set()  # (module, name) of lemmas that would have a definition's name


DASHED = set()  # constructors that keep their dash


def respelled(name, where=None):
    if name in DASHED or not name or not (name[0].islower() or name[0] == "_"):
        return name
    return snake(name) + ("_lem" if (where, name) in LEMMA else "")


def files(root, ends):
    for folder, dirs, names in os.walk(os.path.join(root, "crates")):
        dirs[:] = sorted(d for d in dirs if d != "out")
        for n in sorted(names):
            if n.endswith(ends):
                yield os.path.join(folder, n)


def module(root, path):
    """The module path of an own .antt file, as Rattle.c.specs.meaning.Slash."""
    parts = os.path.relpath(path, os.path.join(root, "crates")).split(os.sep)
    parts[-1] = parts[-1][: -len(".antt")]
    return "Rattle." + ".".join(parts)


WALKS = ("Proof.antt", "Answers.antt", "Invariants.antt")


def is_walk(root, path):
    rel = os.path.relpath(path, os.path.join(root, "crates")).split(os.sep)
    return os.path.basename(path) in WALKS and len(rel) > 3


def uncommented(text):
    return re.sub(r"--(?: |$).*", "", text)


def items(text):
    """(name, alias) of the items of a use line."""
    for it in text.split(","):
        it = it.strip()
        if it:
            m = re.match(r"(\S+)(?: as (\S+))?$", it)
            if m:
                yield m.group(1), m.group(2)


def defined(text):
    """Names that a file of specs/ or proofs/ defines: with the depth of their indent."""
    for m in DEFINES.finditer(uncommented(text)):
        names = [m.group("name")] + m.group("more").split()
        if names[0] in ("use", "module", "record", "data", "let", "where", "in", "mod", "open"):
            continue
        for n in names:
            yield n, len(m.group("in"))


def gather(root):
    top, inner, fields = {}, {}, set()
    for p in files(root, ".antt"):
        with open(p, encoding="utf-8") as f:
            text = f.read()
        names = list(defined(text))
        if not is_walk(root, p):
            top[module(root, p)] = {n for n, d in names}
            inside = None
            for line in uncommented(text).splitlines():
                if re.match(r"(?:pub )?(?:data|record)\b", line):
                    inside = True
                elif line and not line.startswith((" ", "|", ")", "}")):
                    inside = False
                m = DEFINES.match(line)
                if inside and m:
                    fields |= {m.group("name"), *m.group("more").split()}
    return top, fields


def fall_together(top, fields):
    """A lemma that would have a definition's name gets _lem; the definition keeps the plain one. A constructor keeps its dash then."""
    camel = {snake(n) for t in top.values() for n in t if n[:1].islower() and "-" not in n and snake(n) != n}
    plain = {n for t in top.values() for n in t if n[:1].islower() and snake(n) == n}
    taken = camel | plain | {snake(n) for n in fields if "-" not in n}
    for n in sorted(n for n in fields if "-" in n and snake(n) in taken):
        print(f"{n} keeps its dash, since {snake(n)} is there")
        fields.discard(n)
        DASHED.add(n)
    for m, t in top.items():
        for n in t:
            if not n[:1].islower():
                continue
            if (snake(n) == n and n in camel) or ("-" in n and snake(n) in camel | plain):
                LEMMA.add((m, n))


def mapping(root, path, text, top, fields):
    """What is respelled in this file."""
    table, foreign = {}, set()
    walk = path.endswith(".rt") or is_walk(root, path)
    if not walk:
        here = module(root, path)
        table.update({n: respelled(n, here) for n in top[here]})
    for m in USE.finditer(text):
        where = m.group("path")
        for n, alias in items(m.group("items") or ""):
            if where in top:
                table[n] = respelled(n, where)
                if alias:
                    table[alias] = respelled(alias)
            else:
                foreign.add(alias or n)
    clash = {n for n in foreign if n in table}
    for n in fields:
        if not ("-" in n and walk):
            table.setdefault(n, respelled(n))
    return {n: to for n, to in table.items() if to != n and n not in clash}, clash


def turn(text, table, code):
    """The text with the names of the table respelled; in code a string stays."""
    whole = re.compile(r"(?<![A-Za-z0-9_'\u2080-\u2089-])" + NAME)

    def part(t):
        return whole.sub(lambda m: table.get(m.group(0), m.group(0)), t)

    if not code:
        return part(text)
    out, at = [], 0
    for m in STRING.finditer(text):
        out += [part(text[at : m.start()]), m.group(0)]
        at = m.end()
    return "".join(out + [part(text[at:])])


def rename_crate(root, old, new):
    """Every path, use line and line of crates.txt that names the crate."""
    os.rename(os.path.join(root, "crates", old), os.path.join(root, "crates", new))
    for p in files(root, (".antt", ".rt", ".edit")):
        with open(p, encoding="utf-8") as f:
            text = f.read()
        to = re.sub(r"\bRattle([.·])" + old + r"(?=[.·])", r"Rattle\g<1>" + new, text)
        to = re.sub(r"\buse " + old + r"(?=::)", "use " + new, to)
        to = re.sub(r"(?<![A-Za-z0-9_:.])" + old + r"::", new + "::", to) if p.endswith((".rt", ".edit")) else to
        if to != text:
            with open(p, "w", encoding="utf-8") as f:
                f.write(to)
    listed = os.path.join(root, "crates.txt")
    with open(listed, encoding="utf-8") as f:
        lines = f.read().splitlines()
    lines = [l if l.startswith("#") else re.sub(r"(?<![\w])" + old + r"(?![\w])", new, l) for l in lines]
    with open(listed, "w", encoding="utf-8") as f:
        f.write("\n".join(lines) + "\n")


def main(argv):
    root = os.getcwd()
    if os.path.isdir(os.path.join(root, "crates", "log")):
        rename_crate(root, "log", "definition_log")
    top, fields = gather(root)
    fall_together(top, fields)
    todo, told = [], []
    everywhere = {}
    for p in files(root, (".antt", ".rt")):
        with open(p, encoding="utf-8") as f:
            text = f.read()
        table, clash = mapping(root, p, text, top, fields)
        for n in sorted(clash):
            told.append(f"{p}: {n} is imported twice")
        here = set(re.findall(NAME, uncommented(STRING.sub("", USE.sub("", text))))) - set(table)
        sources = {}
        for o, n in table.items():
            sources.setdefault(n, []).append(o)
            if n in here and not p.endswith(".rt"):
                told.append(f"{p}: {o} and {n} fall together")
            everywhere[o] = n
        for n, os_ in sources.items():
            if len(os_) > 1:
                told.append(f"{p}: {', '.join(os_)} fall together as {n}")
        to = turn(text, table, p.endswith(".rt"))
        if to != text:
            todo.append((p, to))
    for p in files(root, ".edit"):
        with open(p, encoding="utf-8") as f:
            text = f.read()
        to = turn(text, everywhere, True)
        if to != text:
            todo.append((p, to))
    print("\n".join(told))
    print(f"{len(todo)} files, {len(everywhere)} names, {len(told)} places to look at")
    if told and "--anyway" not in argv:
        return 1
    for p, to in todo:
        with open(p, "w", encoding="utf-8") as f:
            f.write(to)
    return 0


if __name__ == "__main__":
    raise SystemExit(main(sys.argv[1:]))
