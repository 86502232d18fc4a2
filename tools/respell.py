#!/usr/bin/env python3
"""Respells the repository's own definitions, lemmas and record fields: words in snake case, a dash only between the names that a lemma joins.

usage: python3 tools/respell.py            at the top, once, after the toolchain's port.py
       python3 tools/respell.py --list     prints the names that it turns, and the new names that stand already

It goes by text, over the .antt files and the ghost text of the .rt files. Functions of src/, exported names, strings and files keep their names.
"""
import glob
import re
import sys

NAME = re.compile(r"(?<![\w'◌-])[A-Za-z_◌][\w'◌-]*")
DEFINED = re.compile(r"\s*(?:abbrev |unfoldable )?(?:pub )?(?:abbrev |unfoldable )?([^\s:(){}]+) (?:[({].*)?:")
RECORD = re.compile(r"(\s*)(?:pub )?record .*where$")
# Names that no rule turns: a symbol that is a function, an alias, and fields that would have the name of the definition that they speak of.
OWN = {
    "W": "w_of",
    "same-W": "same-w_of",
    "needsTold": "needs_told",
    "is-solid": "solid_found",
    "buffers-right": "right_buffers",
    "batch-right": "right_batch",
    "length-right": "right_length",
    "header-right": "right_header",
    "file-right": "right_file",
}
# Lemmas that would have the name of a definition once that is turned.
LEMMAS = {
    "rules_laws/proofs/Index.antt": ["same_bytes"],
    "rules_laws/proofs/Told.antt": ["same_bytes"],
    "check_index/proofs/": ["same_bytes"],
    "rules_laws/proofs/Keys.antt": ["key_right"],
    "rules_laws/proofs/Kmer.antt": ["all_known"],
    "rules_laws/proofs/Scan.antt": ["all_known"],
    "rules_laws/proofs/SetBlocks.antt": ["set_words"],
    "write_set/proofs/Writes.antt": ["set_words"],
    "successors/proofs/": ["place_at"],
    "turn/proofs/": ["no_room"],
    "program/proofs/Files.antt": ["Kept"],
}
SPELLED = {"Kept": "kept_if"}


def snake(word):
    """orElse -> or_else, part by part between dashes; words with a capital at their head are types or samples and stay."""
    parts = word.split("-")
    turned = []
    for part in parts:
        if re.match(r"◌?[a-z]", part) and re.search(r"[A-Z]", part):
            part = re.sub(r"([a-z0-9])([A-Z])", lambda m: m.group(1) + "_" + m.group(2).lower(), part).lower()
        turned.append(part)
    return "-".join(turned)


def sources():
    found = glob.glob("crates/*/specs/**/*.antt", recursive=True) + glob.glob("crates/*/proofs/**/*.antt", recursive=True)
    return sorted(found), sorted(glob.glob("crates/*/src/**/*.rt", recursive=True))


def names():
    """The map of names to be turned."""
    turned = dict(OWN)
    proofs, _ = sources()
    for path in proofs:
        depth = None
        for line in open(path, encoding="utf-8"):
            line = line.rstrip("\n")
            m = DEFINED.match(line)
            if m:
                word = m.group(1)
                if snake(word) != word:
                    turned.setdefault(word, snake(word))
            m = RECORD.match(line)
            if m:
                depth = len(m.group(1))
                continue
            if depth is not None:
                if not line.strip() or len(line) - len(line.lstrip()) <= depth:
                    depth = None
                    continue
                m = re.match(r"\s+(?:pub )?([a-z][\w'-]*) :", line)
                if m and "-" in m.group(1):
                    turned.setdefault(m.group(1), snake(m.group(1)).replace("-", "_"))
    return turned


def lemmas(path):
    """The lemmas of this file that give way to a definition."""
    words = [w for part, ws in LEMMAS.items() if part in path for w in ws]
    return {w: SPELLED.get(w, w + "_lem") for w in words}


def turn(text, turned):
    return NAME.sub(lambda m: turned.get(m.group(0), m.group(0)), text)


def turn_source(text, turned):
    """A .rt file: only its `ghost use` lines, its clauses and the names with a capital inside in comments."""
    out, depth = [], 0
    inner = {old: new for old, new in turned.items() if re.match(r"[a-z◌]", old) and re.search(r"[A-Z]", old)}
    for line in text.split("\n"):
        head = line.strip()
        if head.startswith("//"):
            out.append(turn(line, inner))
            continue
        clause = re.match(r"(requires|ensures|ghost)\b", head)
        if depth or clause:
            code = turn(line, turned)
            depth += code.count("{") - code.count("}")
            if depth < 0:
                depth = 0
            out.append(code)
            continue
        out.append(line)
    return "\n".join(out)


def main():
    turned = names()
    proofs, code = sources()
    if "--list" in sys.argv:
        seen = {}
        for path in proofs + code:
            for m in NAME.finditer(open(path, encoding="utf-8").read()):
                seen.setdefault(m.group(0), set()).add(path)
        for old, new in sorted(turned.items()):
            there = seen.get(new, set())
            print(old, new, ("stands in %d: %s" % (len(there), " ".join(sorted(there)[:3]))) if there else "")
        return
    for path in proofs + code:
        text = open(path, encoding="utf-8").read()
        if path.endswith(".rt"):
            new = turn_source(text, turned)
        else:
            here = {**turned, **lemmas(path)}
            if not path.startswith("crates/rules"):
                # There these are lemmas of other crates, or the names of a function's calls.
                here = {old: new for old, new in here.items() if not re.match(r"(buffers|batch|length|header|file)-right$", old)}
            new = turn(text, here)
        if new != text:
            open(path, "w", encoding="utf-8").write(new)


main()
