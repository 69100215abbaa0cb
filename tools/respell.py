#!/usr/bin/env python3
"""Brings the names of definitions, lemmas and fields to snake case: `isNameByte` to `is_name_byte`, `none-digits` to `none_digits`.

usage: tools/respell.py [FOLDER]     the repository, after Rattle's port.py ran in it; the current folder by default

What turns: each name that a file of crates/*/specs or crates/*/proofs declares, wherever it is used in .antt and .rt files, in must-fail
edits and in the code spans of pages and comments. Names of functions, quoted text and what Rattle generates stay. A lemma or a field that
would fall together with the definition that it speaks of gets `_lem`. A second run changes nothing.
"""
import collections
import os
import re
import sys

root = sys.argv[1] if len(sys.argv) > 1 else "."
WORD = r'[^\s(){}.;,@"«»`]+'
TYPED = re.compile(r'^\s*(?:(?:unfoldable|abbrev|pub|record|data|let) )*(%s)(?: \([^)]*\)| \{[^}]*\})* : (.*)' % WORD)
HEADED = re.compile(r"^\s*(?:(?:unfoldable|abbrev|pub|record|data) )+(%s)" % WORD)
IMPORT = re.compile(r"use ([^\s;{]+?)\.\{([^}]*)\}")
GIVEN = re.compile(r"(?:invariant|decreases|loop|returns)(?:-.*)?$")
# names that would fall together with another name where both are used, and what they become
APART = {
    "no-core": "no_core",
    "core-rows": "core_rows",
    "process-rows": "process_rows",
    "names-size": "names_sized",
    "nums-size": "nums_sized",
    "ticks-size": "ticks_sized",
    "core-lines": "core_lines_told",
    "process-lines": "process_lines_told",
    "first-number": "first_number_stands",
    "held-ticks": "held_ticks_shown",
    "idle-ticks": "idle_ticks_shown",
    "unknown-ticks": "unknown_ticks_shown",
    "instance-rows": "instance_rows_shown",
}
# and in single files
APART_IN = {
    "crates/promises/proofs/PrintedBills.antt": {"core-rows": "core_rows_lem", "process-rows": "process_rows_lem"},
    "crates/promises/proofs/Unlisted.antt": {"no-core": "no_core_lem"},
    "crates/promises/proofs/SheetRows.antt": {"core-rows": "core_rows_lem", "process-rows": "process_rows_lem"},
}


def snake(name):
    m = re.fullmatch(r"([a-z][A-Za-z0-9]*(?:[-_][A-Za-z0-9]+)*)('*)", name)
    if not m:
        return name
    flat = re.sub(r"([a-z0-9])([A-Z])", r"\1_\2", m.group(1).replace("-", "_"))
    return flat.lower() + m.group(2)


def read_all(ends):
    found = {}
    for folder, dirs, files in os.walk(root):
        dirs[:] = sorted(d for d in dirs if d not in ("out", "target", ".git"))
        for f in sorted(files):
            path = os.path.relpath(os.path.join(folder, f), root)
            if f.endswith(ends):
                with open(os.path.join(root, path), encoding="utf-8") as it:
                    found[path] = it.read()
    return found


def code_only(text):
    return re.sub(r'"(?:[^"\\\n]|\\.)*"', '""', re.sub(r"(?m)(?:(?<=\s)|^)--.*$|//.*$", "", text))


def declared(files):
    names = collections.defaultdict(set)
    for path, text in files.items():
        if not path.endswith(".antt"):
            continue
        for line in text.split("\n"):
            m = TYPED.match(line)
            if m and re.match(r"(?:tie|goal)\.", m.group(2)):
                continue
            m = m or HEADED.match(line)
            if m:
                names[m.group(1)].add(path)
    return names


def imported_from_elsewhere(text, own):
    out = set()
    for m in IMPORT.finditer(text):
        parts = m.group(1).split(".")
        if parts[0] != "Rattle" or len(parts) < 2 or parts[1] not in own:
            out |= {i.strip().split(" as ")[0] for i in m.group(2).split(",")}
    return out


def table(files, names):
    """old name -> new name"""
    words = {p: set(re.findall(WORD, code_only(t))) for p, t in files.items()}
    turned = {n: snake(n) for n in names if snake(n) != n and not GIVEN.match(n)}
    taken = collections.defaultdict(set)  # new name -> names that have or get it, but for names with dashes
    for n in names:
        if "-" not in n:
            taken[turned.get(n, n)].add(n)
    for old in sorted(turned):
        if "-" not in old:
            continue
        new = turned[old]
        for other in taken.get(new, ()):
            if any(old in w and (other in w) for w in words.values()):
                turned[old] = new + "_lem"
    for old, new in APART.items():
        turned[old] = new
    return turned


def turn_code(text, rows):
    """whole words outside quoted text and comments; in comments, code spans"""

    def words(part):
        return re.sub(WORD, lambda m: rows.get(m.group(0), m.group(0)), part)

    def spans(part):
        return re.sub(r"`[^`\n]*`", lambda m: words(m.group(0)), part)

    out, at = [], 0
    for m in re.finditer(r'"(?:[^"\\\n]|\\.)*"|(?:(?<=\s)|^)--[^\n]*|//[^\n]*', text, re.M):
        out.append(words(text[at : m.start()]))
        out.append(m.group(0) if m.group(0).startswith('"') else spans(m.group(0)))
        at = m.end()
    out.append(words(text[at:]))
    return "".join(out)


def turn_page(text, rows):
    def word(m):
        return rows.get(m.group(0), m.group(0))

    def span(m):
        return re.sub(WORD, word, m.group(0))

    text = re.sub(r"(?m)^    .*$", lambda m: turn_code(m.group(0), rows), text)
    return re.sub(r"`[^`\n]+`", span, text)


def main():
    files = read_all((".antt", ".rt"))
    own = {d for d in os.listdir(os.path.join(root, "crates"))}
    names = declared(files)
    rows = table(files, names)
    changed = 0
    for path, text in files.items():
        away = imported_from_elsewhere(text, own)
        here = {o: n for o, n in rows.items() if o not in away} | APART_IN.get(path, {})
        new = turn_code(text, here)
        if new != text:
            changed += 1
            with open(os.path.join(root, path), "w", encoding="utf-8") as f:
                f.write(new)
    pages = {p: t for p, t in read_all((".md", ".edit")).items()}
    after = set(declared(read_all((".antt",))))
    for path, text in pages.items():
        old = {w for w in re.findall(WORD, text) if snake(w) != w}
        here = {w: rows.get(w, snake(w)) for w in old if rows.get(w, snake(w)) in after}
        new = turn_page(text, here) if path.endswith(".md") else turn_code(text, here)
        if new != text:
            changed += 1
            with open(os.path.join(root, path), "w", encoding="utf-8") as f:
                f.write(new)
    print(f"respell: {len(rows)} names, {changed} files changed")
    together = collections.defaultdict(set)
    for o, n in rows.items():
        together[n].add(o)
    for n, olds in sorted(together.items()):
        if len(olds) > 1:
            print(f"look: {n}: {', '.join(sorted(olds))}, never in one file")


if __name__ == "__main__":
    main()
