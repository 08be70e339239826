#!/usr/bin/env python3
"""Gives the repository's own definitions, lemmas, fields and constructors the spelling of today's Rattle: snake case.

usage: python3 tools/spelling.py          at the top of the repository, once, after the kit's port.py

The kit's script respells the library's names and some of ours. This one does the rest: `volumeOf` becomes `volume_of`, `lane-next`
becomes `lane_next`. Types, modules, names of src/ and of C, strings, inputs and outputs keep theirs. In a .rt file only contracts and
comments are touched, in a page only words in backquotes. It stops, and writes nothing, if two names would fall together.
"""

import os
import re
import subprocess
import sys

WORD = re.compile(r"[^\W\d][\w'₀-₉-]*", re.UNICODE)
DECLARED = re.compile(r"^\s*(?:(?:abbrev|unfoldable|ruleset|pub|record|data)\s+)*([^\W\d][\w'-]*)\s*:(?!=)", re.UNICODE)
IMPORTED = re.compile(r"^(?:pub )?(?:ghost )?use ([\w.'+-]+)\.\{([^}]*)\}", re.UNICODE)
PLAIN = re.compile(r"^[a-z][\w'-]*$")
TEXTS = (".antt", ".rt", ".edit")

# Where two names would fall together: a lemma that would have its function's name gets `_lem`, the others other words.
LEMMAS = "all-below answer-by counts-rule duration-from edge-rule first-from first-road of-road pair-fault pass-over piece-fits point-rule road-rule roads-of span-rule"
SPECIAL = {n: n.replace("-", "_") + "_lem" for n in LEMMAS.split()}
SPECIAL.update({"is-pair": "is_a_pair", "no-slower": "never_slower", "path-of": "path_along", "view-of": "view_from", "cameFrom": "came_from_in"})
# a lemma that the kit's script gave the name of a function
SPECIAL_IN = {"crates/full/specs/FaultMeans.antt": {"of_pair": "of_pair_lem"}}


def files(top, endings):
    said = subprocess.run(["git", "ls-files", "crates", "docs", "README.md", "host"], cwd=top, capture_output=True, text=True, check=True)
    return [f for f in said.stdout.split("\n") if f.endswith(endings)]


def spelled(name):
    """The name in snake case."""
    parts = re.sub(r"(?<=[a-z0-9])(?=[A-Z])", "_", name)
    return parts.replace("-", "_").lower()


def read(path):
    with open(path, encoding="utf-8") as f:
        return f.read()


def own_crates(top):
    return {d for d in os.listdir(os.path.join(top, "crates"))}


def collect(top):
    """Our names to respell, and the names that come from the library."""
    own, theirs, crates = set(), set(), own_crates(top)
    for f in files(top, (".antt", ".rt")):
        for line in read(f).split("\n"):
            used = IMPORTED.match(line)
            if used:
                parts = used.group(1).split(".")
                ours = parts[0] == "Rattle" and parts[1] in crates
                generated = ours and len(parts) > 4 and parts[2] == "proofs"
                if not ours or generated:
                    theirs.update(n.strip().split(" as ")[0] for n in used.group(2).split(","))
                continue
            if f.endswith(".antt") and os.path.basename(f) != "Proof.antt":
                made = DECLARED.match(line)
                if made:
                    own.add(made.group(1))
    renamed = {n for n in own if PLAIN.match(n) and spelled(n) != n}
    return renamed - theirs, own, theirs


def contract_parts(text):
    """Cuts a .rt file into pieces: (is it a contract, an import of a contract or a comment, the piece)."""
    pieces, inside, depth = [], False, 0
    for line in text.split("\n"):
        bare = line.strip()
        if not inside and re.match(r"(requires|ensures|ghost|invariant)\b", bare):
            inside, depth = True, 0
        if inside:
            pieces.append((True, line))
            depth += line.count("{") - line.count("}")
            inside = depth > 0
        elif bare.startswith("//"):
            pieces.append((True, line))
        else:
            pieces.append((False, line))
    return pieces


def turned(line, names):
    return WORD.sub(lambda m: names.get(m.group(0), m.group(0)), line)


def turned_late(line, names, ours):
    """For pages and edits, which the kit's script leaves alone: also the names of ours that it respelled."""

    def new(m):
        word = m.group(0)
        if word in names or word in ours or not PLAIN.match(word):
            return names.get(word, word)
        return spelled(word) if spelled(word) in ours else word

    return WORD.sub(new, line)


def turn_comment(line, names):
    """In prose a name with a hyphen may be English, so only a name in capitals inside or in backquotes is turned."""
    camel = {o: n for o, n in names.items() if re.search("[A-Z]", o)}
    return re.sub(r"`[^`]*`", lambda m: turned(m.group(0), names), turned(line, camel))


def turn(f, text, names, ours):
    if f.endswith(".antt"):
        out = []
        for line in text.split("\n"):
            code, dash, said = (line, "", "") if "--" not in line else re.match(r"^(.*?)(--)(.*)$", line).groups()
            out.append(turned(code, names) + dash + turn_comment(said, names))
        return "\n".join(out)
    if f.endswith(".rt"):
        return "\n".join((turn_comment if l.strip().startswith("//") else turned)(l, names) if c else l for c, l in contract_parts(text))
    if f.endswith(".edit"):
        about_code = re.search(r"^file: src/", text, re.M)
        return text if about_code else turned_late(text, names, ours)
    return re.sub(r"`[^`]*`", lambda m: turned_late(m.group(0), names, ours), text)


def clashes(top, names, own, theirs):
    """Two old names with one new spelling, or a new spelling that a file already has for something else."""
    bad, by_new = [], {}
    for o in sorted(names):
        by_new.setdefault(names[o], []).append(o)
    bad += [f"{', '.join(olds)} -> {new}" for new, olds in by_new.items() if len(olds) > 1]
    bad += [f"{o} -> {n}, which we have" for o, n in names.items() if n in own and o != "ofPair"]
    bad += [f"{o} -> {n}, which the library has" for o, n in names.items() if n in theirs]
    for f in files(top, (".antt",)):
        words = set(WORD.findall(re.sub(r"--.*", "", read(f))))
        if os.path.basename(f) != "Proof.antt":
            bad += [f"{f}: {o} -> {n}, which stands there" for o, n in names.items() if o in words and n in words and n not in own | theirs]
    return bad


def main():
    top = os.getcwd()
    renamed, own, theirs = collect(top)
    names = {n: spelled(n) for n in renamed}
    names.update(SPECIAL)
    bad = clashes(top, names, own, theirs)
    if bad:
        print("\n".join(bad), file=sys.stderr)
        return 1
    if "--list" in sys.argv:
        print("\n".join(f"{o} {names[o]}" for o in sorted(names)))
        return 0
    for f in files(top, TEXTS + (".md",)):
        text = read(f)
        new = turn(f, text, {**names, **SPECIAL_IN.get(f, {})}, own)
        if new != text:
            with open(f, "w", encoding="utf-8") as it:
                it.write(new)
    return 0



if __name__ == "__main__":
    raise SystemExit(main())
