#!/usr/bin/env python3
"""Spells the names of this repository's own definitions and lemmas in snake case, and those of its facts and types in
camel case, as the library's are: is-text becomes is_text, Meets-dep becomes MeetsDep.

usage: python3 tools/respell.py [--dry]      at the top of the repository, after the port to a newer Rattle, once

A name keeps its spelling where another library declares it, where it stands for a step or a goal that the check makes of
the code, in comments, and in strings. It prints each name that it turned, and names that would fall together.
"""

import os
import re
import sys

DRY = "--dry" in sys.argv
IDENT = r"[^\s(){}\[\];,.|`\"]+"
HYPHENED = re.compile(r"^[^\W\d_](?:[\w'₀-₉]|-(?=[\w]))*-[\w'₀-₉]+$")
# garbled by an earlier script, which took them for the library's names
GARBLED = {"put-Meets": "put_meets", "at_least_lem": "at_least", "step_of_lem": "step_of", "has_get_d": "has_get_or", "kind-getD": "kind_get_or"}
MADE = re.compile(r"\.(Goals|Given)(\.|$)|\.specs\.(declared|contracts)\.")


def crates():
    with open("crates.txt", encoding="utf-8") as f:
        return [line.split(":")[0].split()[0] for line in f if ":" in line and not line.startswith("#")]


def files(own):
    for c in own:
        for folder, dirs, names in os.walk(os.path.join("crates", c)):
            dirs[:] = sorted(d for d in dirs if d not in ("out", "must-fail", "target"))
            for n in sorted(names):
                if n.endswith((".antt", ".rt")):
                    yield os.path.join(folder, n)


# types whose names began with a small letter
TYPES = {"some-code", "ok-code", "rows_code", "none-code", "lt-code"}


def turned(name):
    if name in GARBLED:
        return GARBLED[name]
    if name in TYPES:
        return "".join(p[:1].upper() + p[1:] for p in re.split("[-_]", name))
    first = name.split("-")[0]
    if name[0].isupper() and len(first) > 1:
        return "".join(p[:1].upper() + p[1:] for p in name.split("-"))
    return name.replace("-", "_")


def code(path, text):
    """The text, with comments and strings blanked out, character for character."""
    if path.endswith(".rt"):
        pat = r"//[^\n]*|b?\"(?:\\.|[^\"\\])*\"|b?'(?:\\.|[^'\\\n])'"
    else:
        pat = r"(?m)(?:(?<=\s)|^)--(?=[\s-])[^\n]*|\"(?:\\.|[^\"\\])*\""
    return re.sub(pat, lambda m: re.sub(r"[^\n]", " ", m.group(0)), text)


def imports(shown):
    """(module, [names as imported, and as named here]) of each use line."""
    for m in re.finditer(r"(?:ghost |pub )*\buse ([^\s{};]+?)\.?(?:\{([^}]*)\})?(?: as (\S+?))?(?:;|\n|$)", shown):
        module, listed, alias = m.group(1), m.group(2), m.group(3)
        names = []
        for it in (listed or "").split(","):
            w = it.split()
            if w:
                names.append((w[0], w[2] if len(w) == 3 else w[0]))
        yield module, names, alias


def is_own(module, own):
    w = module.split(".")
    return len(w) > 2 and w[0] == "Rattle" and w[1] in own and not MADE.search(module + ".")


def main():
    own = crates()
    texts = {}
    for p in files(own):
        with open(p, encoding="utf-8") as f:
            texts[p] = f.read()
    fields = set()
    for p, t in texts.items():
        if not p.endswith(".antt") or "/proofs/" in p and "/" in p.split("/proofs/")[1]:
            continue
        shown = code(p, t)
        for m in re.finditer(r"(?m)^ +(?:pub )?((?:" + IDENT + r" )+): ", shown):
            fields.update(m.group(1).split())
    declared = set(fields)
    for p, t in texts.items():
        if p.endswith(".antt"):
            for m in re.finditer(r"(?m)^ *(?:abbrev |pub |data |record |module )*(" + IDENT + r")(?= [^\n]*:)", code(p, t)):
                declared.add(m.group(1))
    fields = {n for n in fields if HYPHENED.match(n)}
    changed, odd, clash, dots = {}, {}, {}, {}
    for p, t in texts.items():
        shown = code(p, t)
        foreign, mine, aliases = set(), set(), set()
        for module, names, alias in imports(shown):
            if alias and is_own(module, own):
                aliases.add(alias)
            for there, here in names:
                (mine if is_own(module, own) else foreign).update((there, here))
        inside = p.endswith(".antt") and "/proofs/" in p and "/" in p.split("/proofs/")[1]
        if inside:
            for m in re.finditer(r"(?m)^(?:abbrev |pub )*(" + IDENT + r") : goal\.", shown):
                foreign.add(m.group(1))
        present = set(re.findall(IDENT, shown))

        def one(m):
            name = m.group(0)
            if name not in GARBLED and name not in TYPES and not HYPHENED.match(name):
                return None
            before = shown[m.start() - 1] if m.start() else " "
            if before == "." and m.start() > 1 and not shown[m.start() - 2].isspace():
                root = re.search(IDENT + r"$", shown[:m.start() - 1])
                if name in GARBLED or name in fields or root and root.group(0) in aliases:
                    dots.setdefault(name, set()).add(p)
                    return turned(name)
                return None
            if name in foreign and name not in mine:
                return None
            if p.endswith(".rt") and name not in mine:
                odd.setdefault(name, set()).add(p)
                return None
            if name not in declared:
                odd.setdefault(name, set()).add(p)
            return turned(name)

        out, at = [], 0
        for m in re.finditer(IDENT, shown):
            new = one(m)
            if new is None or new == m.group(0):
                continue
            if new in present:
                clash.setdefault((m.group(0), new), set()).add(p)
            changed[m.group(0)] = new
            out += [t[at:m.start()], new]
            at = m.end()
        out.append(t[at:])
        if at and not DRY:
            with open(p, "w", encoding="utf-8") as f:
                f.write("".join(out))
    for old, new in sorted(changed.items()):
        print(f"{old} -> {new}")
    back = {}
    for old, new in changed.items():
        back.setdefault(new, set()).add(old)
    for new, olds in sorted(back.items()):
        if len(olds) > 1:
            print(f"together: {', '.join(sorted(olds))} -> {new}")
    for (old, new), where in sorted(clash.items()):
        print(f"beside: {old} -> {new} in {', '.join(sorted(where))}")
    for name, where in sorted(odd.items()):
        print(f"look: {name} in {', '.join(sorted(where))}")
    for name, where in sorted(dots.items()):
        w = [x for x in where if "/proofs/" in x and "/" in x.split("/proofs/")[1]]
        if w:
            print(f"field: {name} in {', '.join(sorted(w))}")


main()
