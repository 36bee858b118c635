#!/usr/bin/env python3
"""Brings the repository's own names of specs/ and proofs/ to today's spelling: words in snake case, types in camel case.

usage: python3 tools/respell.py        once, at the top of the repository, after the kit's port.py

Functions of src/, exported C names, strings, inputs and outputs keep their names. A name is the repository's own where a file of
crates/*/specs or crates/*/proofs declares or binds it and imports it from no library. Names that would fall together in one file
are printed as 'clash:' and kept. The library's older words of tests and tables (eqb, ltb, leb, get_or) take the names that clauses
use (nat_eq, nat_lt, nat_le, slice_index_or) in specs/ and in the clauses of src/.
"""

import os
import re
import sys

WORD = r"[^\W\d][\w'₀-₉]*"
NAME = re.compile(rf"(?<![\w'₀-₉→≢◌-])({WORD}(?:-[\w'₀-₉→≢]+)*)(?![\w'₀-₉→≢◌])")
USE = re.compile(r"(?m)^((?:ghost |pub )*use )([^\s{;]+?)(?:\.\{([^}]*)\})?( as [\w-]+)?(;?)$")
ALIAS = {"eqb": "nat_eq", "ltb": "nat_lt", "leb": "nat_le", "get_or": "slice_index_or"}
PRELUDE = "Rattle.std.specs.Prelude"
# a bound name that port.py capitalised, since `new` is a name of its own elsewhere
BOUND = {"New-is": "new_is"}


def own_crates():
    return sorted(c for c in os.listdir("crates") if os.path.isdir(os.path.join("crates", c, "src")))


def files(ending):
    for folder, dirs, names in os.walk("crates"):
        dirs[:] = sorted(d for d in dirs if d != "out")
        for n in sorted(names):
            if n.endswith(ending):
                yield os.path.join(folder, n)


def read(p):
    with open(p, encoding="utf-8") as f:
        return f.read()


def kind(p):
    """specs and lemma files are wholly the repository's own; a Proof.antt names goals that the check makes."""
    return "proof" if os.path.basename(p) == "Proof.antt" else "own"


def split_comment(line, mark):
    i = line.find(mark)
    return (line, "") if i < 0 else (line[:i], line[i:])


def imports(text, crates):
    """The names that a file imports from a library of the kit, and those that it imports from the repository."""
    lib, own = set(), set()
    for m in USE.finditer(text):
        parts = m[2].split(".")
        mine = len(parts) > 1 and parts[0] == "Rattle" and parts[1] in crates
        names = [n.strip() for n in (m[3] or "").split(",") if n.strip()]
        for n in names:
            (own if mine else lib).add(n.split(" as ")[0].strip())
            if " as " in n:
                own.add(n.split(" as ")[1].strip())
    return lib, own


SIGNATURE = re.compile(rf"(?m)^\s*(?:(?:pub|abbrev|unfoldable|record|data|module|ruleset)\s+)*({WORD}(?:-[\w'₀-₉→≢]+)+)\s*(?=[:({{])")
GOAL = re.compile(r"(?m)^(?:abbrev )?([^\s:]+) : tie\.")


def gather(crates):
    """All own hyphenated names: what lemma and specs files use and import from no library, and what a Proof.antt declares and is no goal."""
    own = set()
    for p in files(".antt"):
        text = read(p)
        lib, mine = imports(text, crates)
        body = "\n".join(split_comment(l, "--")[0] for l in text.split("\n"))
        if kind(p) == "own":
            named = {m[1] for m in NAME.finditer(USE.sub("", body)) if "-" in m[1]}
            own |= {n for n in named if n not in lib} | {n for n in mine if "-" in n}
        else:
            goals = {m[1] for m in GOAL.finditer(text)}
            own |= {m[1] for m in SIGNATURE.finditer(body)} - goals - lib
            own |= {n for n in mine if "-" in n and n != "declared"}
    return own


def respell(name):
    parts = re.split(r"-", name)
    if name in BOUND:
        return BOUND[name]
    # a type; a set or a number that goes by one capital keeps it
    if name[0].isupper() and len(parts[0]) > 1:
        return "".join(p[0].upper() + p[1:] for p in parts)
    return "_".join(parts)


def turn_names(text, names, lib):
    def one(m):
        n = m[1]
        if n in names and n not in lib:
            return names[n]
        return n
    return NAME.sub(one, text)


def turn_file(p, names, crates, goals=()):
    text = read(p)
    lib, _ = imports(text, crates)
    mark = "--" if p.endswith(".antt") else "//"
    skip = lib | set(goals)
    out = []
    for line in text.split("\n"):
        code, comment = split_comment(line, mark)
        if p.endswith(".rt"):
            # strings keep their text
            code = re.sub(r'("(?:[^"\\]|\\.)*")|([^"]+)', lambda m: m[1] or turn_names(m[2], names, skip), code)
        else:
            code = turn_names(code, names, skip)
        comment = re.sub(r"`([^`]*)`", lambda m: "`" + turn_names(m[1], names, skip) + "`", comment)
        out.append(code + comment)
    return "\n".join(out)


def clashes(p, text, names, lib):
    body = "\n".join(split_comment(l, "--" if p.endswith(".antt") else "//")[0] for l in text.split("\n"))
    # a part of a path is a module or a field of its own; a function of src/ beside a definition of its name is no clash either
    used = {m[1] for m in re.finditer(r"(?<!\.)" + NAME.pattern, body)}
    return sorted(n for n in used if n in names and n not in lib and names[n] in used)


def turn_words(text, clause_only):
    """eqb and the like by the names that clauses use, and their import from the Prelude."""
    lines = text.split("\n")
    found = set()
    # an option's get_or is another word, and keeps its name
    kept_word = {"get_or"} if re.search(r"Math\.Option\.\{[^}]*\bget_or\b", text) else set()

    def words(t):
        def one(m):
            if m[1] in kept_word:
                return m[1]
            found.add(ALIAS[m[1]])
            return ALIAS[m[1]]
        return re.sub(r"(?<![\w'.-])(eqb|ltb|leb|get_or)(?![\w'→≢-])", one, t)

    ghost = "ghost " if clause_only else ""
    end = ";" if clause_only else ""
    out, at = [], None
    for line in lines:
        m = USE.match(line)
        if m and (not clause_only or m[1].startswith("ghost")):
            if m[3] is not None:
                names = [n.strip() for n in m[3].split(",") if n.strip()]
                kept = [n for n in names if n not in ALIAS or n in kept_word]
                if len(kept) != len(names):
                    if not kept:
                        if at is None:
                            at = len(out)
                        continue
                    line = f"{m[1]}{m[2]}.{{{', '.join(kept)}}}{m[4] or ''}{m[5]}"
            if at is None:
                at = len(out)
            out.append(line)
            continue
        code, comment = split_comment(line, "//" if clause_only else "--")
        if not clause_only or re.search(r"\b(requires|ensures)\b", code):
            code = words(code)
        out.append(code + comment)
    if not found:
        return text
    for i, line in enumerate(out):
        m = USE.match(line)
        if m and m[2] == PRELUDE and m[3] is not None and line.startswith(ghost + "use"):
            out[i] = f"{m[1]}{m[2]}.{{{', '.join([n.strip() for n in m[3].split(',') if n.strip()] + sorted(found))}}}{m[5]}"
            break
    else:
        out.insert(at or 0, f"{ghost}use {PRELUDE}.{{{', '.join(sorted(found))}}}{end}")
    return "\n".join(out)


def main():
    crates = set(own_crates())
    own = gather(crates)
    names = {n: respell(n) for n in own}
    kept = set()
    for p in files(".antt"):
        text = read(p)
        lib, _ = imports(text, crates)
        if kind(p) == "proof":
            lib |= {m[1] for m in GOAL.finditer(text)}
        for n in clashes(p, text, names, lib):
            print(f"clash: {p}: {n} and {names[n]}")
            kept.add(n)
    if "--look" in sys.argv:
        print(len(names), "names")
        print(" ".join(sorted(names)))
        return 0
    for n in kept:
        names.pop(n)
    for p in list(files(".antt")) + list(files(".rt")):
        text = read(p)
        goals = {m[1] for m in GOAL.finditer(text)} if kind(p) == "proof" else ()
        new = turn_file(p, names, crates, goals)
        if p.endswith(".rt"):
            new = turn_words(new, True)
        elif "/specs/" in p:
            new = turn_words(new, False)
        if new != text:
            with open(p, "w", encoding="utf-8") as f:
                f.write(new)
    return 0


if __name__ == "__main__":
    raise SystemExit(main())
