#!/usr/bin/env python3
"""Spells the words of this repository's specs/ and lemma files in snake case: `runTime` and `run-time` become `run_time`.

usage: python3 tools/rename_words.py [--list]     once, at the top, after the toolchain's port.py

Types, modules and facts keep their capitals, and so do Rattle's own names and what stands in quotes. In each .antt and .rt file, in the
edits and in the pages a word is turned where it stands alone; a word that a file takes from a library is left there. FALLING has the lemmas
that would fall together with a definition: they end in `_lem`. Five fields of records fall together with a definition and stay."""
import os
import re
import sys

WORD = re.compile(r"""(?<![^\s(){}\[\].,;:@`'"/|])[^\s(){}\[\].,;:@`"/|]+(?![^\s(){}\[\].,;:@`'"/|])""")
DECLARED = re.compile(r"^ *(?:(?:abbrev|unfoldable|opaque|pub|private|data|record|ruleset) )*([a-z][A-Za-z0-9_'-]*)(?: [^=:]*)? :(?= |$)")
MADE = re.compile(r"^(returns|loop|invariant-loop|decreases-loop)(-|$)")
FALLING = {w: w + "_lem" for w in "after_last edge_order edges_fit free_in is_digit not_after row_from".split()} | {
    w: w.replace("-", "_") + "_lem"
    for w in (
        "bottom-levels cell-time delay-at doubled-in edge-astray edge-cell field-length first-ready free-tasks from-delays from-edges from-head "
        "has-line head-numbers in-range job-from job-in lane-most level-most line-cell line-count line-in line-ticks link-in message-most "
        "to-signed to-unsigned on-processor placed-after placed-in placements-in plan-head-rule plan-length plan-line-rule plan-lines plan-printed plan-text "
        "processor-at replay-both replay-printed replay-text replica-on row-replicas run-time same-numbers same-times scaled-most stop-rule "
        "task-line tasks-in time-at time-of top-most verdict-both waiting-from waiting-tasks"
    ).split()
}


def snake(word):
    if word in FALLING:
        return FALLING[word]
    word = word.replace("getD", "get_or")
    return re.sub(r"(?<=[a-z0-9])([A-Z])", lambda m: "_" + m.group(1).lower(), word).replace("-", "_")


def files(ends, below="."):
    for folder, inner, names in os.walk(below):
        inner[:] = sorted(n for n in inner if n not in (".git", "out", "target"))
        for name in sorted(names):
            if name.endswith(ends):
                yield os.path.join(folder, name)


def lemma_file(path):
    parts = path.split(os.sep)
    return "specs" in parts or ("proofs" in parts and parts.index("proofs") == len(parts) - 2)


def declared():
    found = {}
    for path in files(".antt", "crates"):
        if lemma_file(path):
            for line in open(path, encoding="utf-8"):
                m = DECLARED.match(line)
                if m and not MADE.match(m.group(1)):
                    found.setdefault(m.group(1), set()).add(path)
    return found


def of_library(text):
    taken = set()
    for path, names in re.findall(r"use ([A-Za-z][^\s{;]*?)\.?\{([^}]*)\}", text):
        if not path.startswith("Rattle.") or path.startswith("Rattle.std"):
            taken |= {w for n in names.split(",") for w in n.strip().split(" as ")[:1]}
    return taken


def main():
    own = declared()
    new = {w: snake(w) for w in own if snake(w) != w}
    if "--list" in sys.argv:
        by = {}
        for w in own:
            by.setdefault(snake(w), []).append(w)
        for s, ws in sorted(by.items()):
            if len(ws) > 1:
                print(s, {w: sorted(own[w]) for w in ws})
        for path in files(".antt", "crates"):
            both = of_library(open(path, encoding="utf-8").read()) & set(own)
            if both:
                print("library's:", path, sorted(both))
        return
    for path in files((".antt", ".rt", ".edit", ".md")):
        text = open(path, encoding="utf-8").read()
        keep = of_library(text) if path.endswith((".antt", ".rt")) else set()
        page = path.endswith(".md")
        spelled = set(new.values()) | set(own)

        def turned(m):
            w = m.group(0)
            if w in keep:
                return w
            if page and not re.search(r"[a-z][A-Z]", w):
                return w
            if w in new:
                return new[w]
            if path.endswith((".edit", ".md")) and re.fullmatch(r"[a-z][A-Za-z0-9-]*", w) and w not in own and snake(w) in spelled and (re.search("[A-Z]", w) or not page and "-" in w):
                return snake(w)
            return w

        after = re.sub(r"\"[^\"\n]*\"|" + WORD.pattern, lambda m: m.group(0) if m.group(0).startswith('"') else turned(m), text)
        if after != text:
            open(path, "w", encoding="utf-8").write(after)


main()
