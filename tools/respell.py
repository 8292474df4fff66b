#!/usr/bin/env python3
"""Brings the names of this repository's definitions and lemmas to today's spelling: words in snake case.

usage: python3 tools/respell.py [--dry]      at the top of the repository, after port.py

A name is one that an .antt file of the repository declares (at the top, in a module, a record or a `where`) and that begins with a
small letter: `setOf` becomes `set_of`, `mem-keep` `mem_keep`. Types and modules keep theirs. A name that is also imported from a
library keeps the library's spelling. In comments only what stands in backticks is turned. Names that would fall together with another
are listed and get the spelling of TOGETHER.
It is run once: a second run turns nothing.
"""
import collections
import os
import re
import sys

WORDS = r"(?:abbrev|unfoldable|pub|private|opaque)"
DECLARED = re.compile(r"^(\s*)((?:%s )*)([^\s(){}:;.,]+)\s*:(?!:)" % WORDS)
TOKEN = re.compile(r"[^\s(){}\[\].,;:`\"⟨⟩]+")
# Old names whose snake case another name has already.
TOGETHER = {
    "accepted-in": "accepted_in_law",
    "atom-holds": "atom_holds_law",
    "bit-and": "bit_of_and",
    "bit-or": "bit_of_or",
    "bit-xor": "bit_of_xor",
    "branch-nodes": "branch_nodes_example",
    "checked-number": "checked_number_law",
    "epistemic-node": "epistemic_node_law",
    "fact-in": "fact_in_law",
    "figures-line": "figures_line_law",
    "first-set": "first_set_law",
    "goal-nodes": "goal_nodes_law",
    "goes_on": "goes_on_law",
    "has-start": "has_start_law",
    "headerRead": "header_is_read",
    "held-replies": "held_replies_law",
    "held-sheet": "held_sheet_law",
    "is-padded": "is_padded_law",
    "judged-by": "judged_by_law",
    "known-after": "known_after_law",
    "least-run": "least_run_law",
    "least_on": "least_on_law",
    "memo-left": "memo_stays",
    "next-on": "next_on_law",
    "node-cells": "node_cells_law",
    "numbers-line": "numbers_line_law",
    "of-sheet": "action_of_sheet",
    "on-accepted": "on_accepted_law",
    "parts-to": "parts_to_law",
    "program-node": "program_node_law",
    "program-nodes": "program_nodes_law",
    "replies-over": "replies_over_law",
    "report-in": "report_in_law",
    "report-on": "report_on_law",
    "same-states": "same_states_law",
    "secondBehind": "second_behind_law",
    "set-of": "set_of_law",
    "sheet-kept": "sheet_kept_law",
    "stands_by": "stands_by_law",
    "start-states": "start_states_law",
    "told-by": "told_by_law",
    "told-lent": "told_lent_law",
    "told-numbers": "told_numbers_law",
    "told_in": "told_in_law",
    "verdict-numbers": "verdict_numbers_law",
    "with-cut": "with_cut_law",
    "zero-tables": "zero_tables_law",
}
# A name that a library has too, where it is the crate's own.
IN_CRATE = {"verifier": {"not-not": "not_either"}}
# Of these, fields of records of the repository's own; the others behind a dot are names that the check makes.
FIELDS = {"of-sheet", "memo-left"}


def snake(name):
    out = re.sub(r"([a-z0-9₀-₉'])([A-Z])", r"\1_\2", name)
    out = re.sub(r"([A-Z])([A-Z][a-z])", r"\1_\2", out)
    return out.lower().replace("-", "_")


def files(root, ends):
    for folder, dirs, names in os.walk(os.path.join(root, "crates")):
        dirs[:] = sorted(d for d in dirs if d != "out")
        for n in sorted(names):
            if n.endswith(ends):
                yield os.path.join(folder, n)


def own_crates(root):
    return set(os.listdir(os.path.join(root, "crates")))


def declared(root):
    names = collections.defaultdict(set)
    for p in files(root, (".antt",)):
        for line in open(p, encoding="utf-8"):
            if line.lstrip().startswith("--"):
                continue
            m = DECLARED.match(line)
            if m and re.match(r"[a-z]", m.group(3)) and re.search(r"[A-Z]|-", m.group(3)) and "◌" not in m.group(3):
                names[m.group(3)].add(p)
    return names


def imported_from_libraries(root):
    own = own_crates(root)
    got = collections.defaultdict(set)
    for p in files(root, (".antt", ".rt")):
        text = open(p, encoding="utf-8").read()
        for m in re.finditer(r"(?m)^\s*(?:ghost )?(?:pub )?use ([\w.'-]+)\.\{([^}]*)\}", text):
            path = m.group(1).split(".")
            if path[0] == "Rattle" and len(path) > 1 and path[1] in own:
                continue
            for item in m.group(2).split(","):
                w = item.split()
                if w:
                    got[w[0]].add(p)
                    if len(w) == 3:
                        got[w[2]].add(p)
    return got


def code_and_comment(line, mark):
    """A line in parts: (is code, text). Strings of .rt files are no code."""
    parts, i, start = [], 0, 0
    while i < len(line):
        if line.startswith(mark, i) and (i == 0 or line[i - 1].isspace()):
            parts.append((True, line[start:i]))
            parts.append((False, line[i:]))
            return parts
        if line[i] == '"' and mark == "//":
            parts.append((True, line[start:i]))
            j = i + 1
            while j < len(line) and line[j] != '"':
                j += 2 if line[j] == "\\" else 1
            parts.append((None, line[i:j + 1]))
            i = start = j + 1
            continue
        i += 1
    parts.append((True, line[start:]))
    return parts


def turn(text, mark, table):
    def word(m):
        w = m.group(0)
        dotted = m.start() > 0 and m.string[m.start() - 1] == "."
        if dotted and w in TOGETHER and w not in FIELDS:
            return snake(w) if "-" in w else w
        return table.get(w, w)

    out = []
    for line in text.splitlines(keepends=True):
        for kind, part in code_and_comment(line, mark):
            if kind is True:
                out.append(TOKEN.sub(word, part))
            elif kind is False:
                out.append(re.sub(r"`[^`\n]*`", lambda m: TOKEN.sub(word, m.group(0)), part))
            else:
                out.append(part)
    return "".join(out)


def tokens(text, mark):
    found = set()
    for line in text.splitlines():
        for kind, part in code_and_comment(line, mark):
            if kind is True:
                found.update(TOKEN.findall(part))
    return found


def mark_of(p):
    return "//" if p.endswith(".rt") else "--"


def main(argv):
    root = "."
    names = declared(root)
    library = imported_from_libraries(root)
    if len(names) < 100:
        print("the names are respelled already")
        return
    table = {}
    for n in sorted(names):
        if n in library:
            print(f"kept, a library's: {n}: declared in {sorted(names[n])[:2]}, imported in {sorted(library[n])[:2]}")
            continue
        table[n] = TOGETHER.get(n, snake(n))
    for w in TOGETHER:
        if "-" not in w and not re.search("[A-Z]", w):
            table[w] = TOGETHER[w]
    # Names that fall together: with one another, or with a word of a file that has the old name.
    by_new = collections.defaultdict(set)
    for n, new in table.items():
        by_new[new].add(n)
    for new, olds in sorted(by_new.items()):
        if len(olds) > 1:
            print(f"fall together: {sorted(olds)} as {new}: {[sorted(names[o])[:3] for o in sorted(olds)]}")
    seen = {p: tokens(open(p, encoding="utf-8").read(), mark_of(p)) for p in files(root, (".antt", ".rt"))}
    clash = collections.defaultdict(set)
    for p, words in seen.items():
        for w in words:
            if w in table and table[w] in words:
                clash[w].add(p)
    for w, ps in sorted(clash.items()):
        print(f"the word is there: {w} as {table[w]} in {len(ps)}: {sorted(ps)[:4]}")
    if "--dry" in argv:
        print(f"{len(table)} names")
        return
    changed = 0
    for p in files(root, (".antt", ".rt")):
        text = open(p, encoding="utf-8").read()
        new = turn(text, mark_of(p), table | IN_CRATE.get(p.split(os.sep)[2], {}))
        if new != text:
            changed += 1
            with open(p, "w", encoding="utf-8") as f:
                f.write(new)
    print(f"{len(table)} names, {changed} files")


if __name__ == "__main__":
    main(sys.argv[1:])
