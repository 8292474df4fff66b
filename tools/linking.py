#!/usr/bin/env python3
"""Writes crates/NAME/proofs/Linking.antt: the crate's table of compiled functions, and that a program with this table, and with those
below it, has the code of each function that other crates can call. The closed theorem of claims rests on it.

    cd crates/NAME && rt check --generated FOLDER && python3 ../../tools/linking.py FOLDER NAME

Run it again where a function comes, goes, or calls others than before: lowest crates first. proofs/Lib.antt needs the line `pub mod Linking`."""
import os
import re
import sys

folder, crate = sys.argv[1], sys.argv[2]
here = os.path.dirname(os.path.dirname(os.path.abspath(__file__)))
own = os.path.join(folder, f"Rattle-{crate}-proofs")
facade = os.path.join(folder, f"Rattle-{crate}", "proofs")


def read(path):
    with open(path, encoding="utf-8") as f:
        return f.read()


def names(public):
    """Short names for functions, given by their paths: the last word, or the last two where that is not enough."""
    short = {}
    for path in public:
        same = [p for p in public if p[-1] == path[-1]]
        short[path] = path[-1] if len(same) == 1 else "_".join(path[-2:])
    assert len(set(short.values())) == len(short), short
    return short


def symbol_of(crate_proofs, specs, path):
    """The symbol of the function whose module in the crate's proofs is `path`."""
    text = read(os.path.join(crate_proofs, *path, "Symbol.antt"))
    m = re.search(r"^pub use (\S+)\.\{symbol, name\}$", text, re.M)
    if m is None:
        m = re.search(r"^pub use Rattle\.\S+?\.proofs\.(\S+)\.Symbol\.\{code, symbol, name\}$", text, re.M)
        return symbol_of(crate_proofs, specs, m.group(1).split("."))
    key = m.group(1).split(".specs.")[1].split(".")
    return re.search(r'^symbol = "([^"]*)"$', read(os.path.join(specs, *key[:-1], "Key.antt")), re.M).group(1)


link = read(os.path.join(own, "TheLink.antt"))

# The functions that other crates can name.
public = sorted(
    tuple(os.path.relpath(root, facade).split(os.sep))
    for root, _, files in os.walk(facade)
    if "Symbol.antt" in files
)
symbols = {p: symbol_of(own, os.path.join(folder, f"Rattle-{crate}-specs"), list(p)) for p in public}
short = names(public)

# The functions of other crates that they call.
aliases = {}
for m in re.finditer(r"^use (\S+)(?: as (\S+))?$", link, re.M):
    aliases[m.group(2) or m.group(1).split(".")[-1]] = m.group(1)
below = re.search(r"^Below =(.*\n(?:    .*\n)*)", link, re.M)
called = [aliases[a] for a in re.findall(r"Bool\.true (\S+)\.code", below.group(1))] if below else []

lower = []
has = []
for module in called:
    m = re.fullmatch(r"Rattle\.(\w+)\.proofs\.(\S+)\.Symbol", module)
    assert m and m.group(1) != "std", f"{crate} calls {module}, which has no Linking.antt"
    if m.group(1) not in lower:
        lower.append(m.group(1))
    path = m.group(2).split(".")
    text = read(os.path.join(here, "crates", m.group(1), "proofs", "Linking.antt"))
    given = re.search(rf"^use {re.escape(module)} as (\S+)$", text, re.M)
    assert given, f"{m.group(1)}'s Linking.antt does not have {module}"
    has.append((m.group(1), given.group(1)[: -len("-symbol")] + "_has"))
lower.sort()

parts = [f'Holds W "{crate}" table'] + [f"{c}.Needs W" for c in lower]


def part(c):
    return f"needs.{lower.index(c) + 1}"


holds = "needs.0" if lower else "needs"
pieces = [f"{c}.{h} W {part(c)}" for c, h in has]
value = "".join(f"({p}, " for p in pieces) + "tt" + ")" * len(pieces)

out = [
    f"-- How the compiled functions are linked: a program with the crate's table, and with the tables that it needs, has the code of each",
    f"-- function that other crates can call. Written by tools/linking.py. Assumes nothing.",
    "use mathlib.Core.Bool.{true}",
    "use prog.Linked.{World, Tree, Holds, in_world}",
    "use prog.LinkedThreads.{HasT}",
]
out += [f"use Rattle.{c}.proofs.Linking as {c}" for c in lower]
out += [f"use Rattle.{crate}.proofs.TheLink as link"]
out += [f"use Rattle.{crate}.proofs.{'.'.join(p)}.Symbol as {short[p]}-symbol" for p in public]
out += [
    "",
    "abbrev pub table : Tree",
    "table = link.table",
    "",
    "-- The tables that a program needs.",
    "abbrev pub Needs : World → Type 0",
    "Needs W = " + " × ".join(parts),
    "",
    "module _ (W : World) (needs : Needs W) where",
    "  below : link.Below W",
    f"  below = {value}",
]
for p in public:
    out += [
        "",
        f"  pub {short[p]}_has : HasT (in_world W) true {short[p]}-symbol.code",
        f"  {short[p]}_has = link.linked-{symbols[p]} W {holds} below",
    ]
with open(os.path.join(here, "crates", crate, "proofs", "Linking.antt"), "w", encoding="utf-8") as f:
    f.write("\n".join(out) + "\n")
print(f"{crate}: {len(public)} functions, below it {', '.join(lower) or 'none'}")
