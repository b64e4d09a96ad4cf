#!/usr/bin/env python3
"""Spells the repository's own definitions and lemmas as today's Rattle does: facts in camel case, everything else with underscores.

usage: python3 tools/snake.py     at the top, once, right after the toolchain's port.py

It reads which names specs/ and proofs/ declare (a function's Proof.antt declares answers and no names), and rewrites them in each
.rt, .antt and .edit file below crates/, and in README.md and docs/. It stops, and writes nothing, where two names would fall together.
"""
import os
import re
import sys

NAME = r"[^\s(){}.;,@\"«»`]+"
DECLARED = re.compile(r"^ *((?:(?:pub|abbrev|unfoldable|data|record|mutual|ruleset) +)*)(" + NAME + r")((?: +[({].*?[)}])* +:|(?: +" + NAME + r")* +=)")
# Where the rule's name is taken: each with the name that it gets.
CHOSEN = {"Column-read": "FillThenChoose"}
# Declared several on a line, or bound in a term.
MORE = "small-write raw-store not-not no-k counts-by not-lost kit-digits off-f off-g comes-back₅ is-left is-second is-walk where-e solve-first solve-second solve-first-kinds solve-second-kinds solve-first-lts solve-second-lts place-reads own-reads above-reads below-reads".split()


def texts(*tails):
    for folder, dirs, files in os.walk("crates"):
        dirs[:] = sorted(d for d in dirs if d != "out")
        for f in sorted(files):
            if f.endswith(tails):
                yield os.path.join(folder, f)


def spelled(name):
    if name in CHOSEN:
        return CHOSEN[name]
    name = name.replace("getD", "get_or")
    if name[0].isupper() and len(name) > 1:
        parts = re.split(r"[-_]", name)
        return "".join(p[:1].upper() + p[1:] for p in parts)
    return name.replace("-", "_")


def declared():
    found = {}
    for path in texts(".antt"):
        if path.endswith("/Proof.antt"):
            continue
        with open(path, encoding="utf-8") as f:
            for line in f:
                it = DECLARED.match(line)
                if it and not line.lstrip().startswith("--"):
                    found.setdefault(it[2], set()).add(path)
    return found


def main():
    found = declared()
    for name in MORE:
        found.setdefault(name, set())
    table = {n: spelled(n) for n in found if spelled(n) != n}
    stay = set(found) - set(table)
    meets = {}
    for old, new in table.items():
        meets.setdefault(new, []).append(old)
    bad = [(new, olds) for new, olds in meets.items() if len(olds) > 1 or new in stay]
    for new, olds in bad:
        print(f"would fall together: {', '.join(olds)} and {new}", file=sys.stderr)
    if bad:
        return 1
    token = re.compile(r"(?<![^\s(){}.;,@\"«»`])(" + "|".join(re.escape(n) for n in sorted(table, key=len, reverse=True)) + r")(?![^\s(){}.;,@\"«»`])")
    pages = ["README.md"] + sorted(os.path.join("docs", f) for f in os.listdir("docs") if f.endswith(".md"))
    # What port.py has respelled already still stands with dashes in the edits and pages.
    early = {n.replace("_", "-"): n for n in stay if "_" in n and not n[0].isupper()}
    early.update({n.replace("_", "-"): table[n] for n in table if "_" in n})
    early = {old: new for old, new in early.items() if old not in table}
    beyond = re.compile(r"(?<![^\s(){}.;,@\"«»`])(" + "|".join(re.escape(n) for n in sorted(early, key=len, reverse=True)) + r")(?![^\s(){}.;,@\"«»`])")
    turned = 0
    for path in list(texts(".antt", ".rt", ".edit")) + pages:
        with open(path, encoding="utf-8") as f:
            text = f.read()
        new = token.sub(lambda m: table[m[1]], text)
        if path.endswith(".edit"):
            new = beyond.sub(lambda m: early[m[1]], new)
        if path.endswith(".md"):
            new = re.sub(r"`[^`\n]*`", lambda m: beyond.sub(lambda n: early[n[1]], m[0]), new)
        if new != text:
            turned += 1
            with open(path, "w", encoding="utf-8") as f:
                f.write(new)
    print(f"snake: {len(table)} names in {turned} files")
    return 0


if __name__ == "__main__":
    raise SystemExit(main())
