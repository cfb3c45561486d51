#!/usr/bin/env python3
"""Brings the names of this repository's own definitions and lemmas to snake case, and its folders specs/steps to specs/Steps.

usage: tools/respell.py            at the top of the checkout, once, right after the toolchain's port.py and before any edit by hand

A name is turned where a file of specs/ or proofs/ defines it (a definition, a lemma, a field, a constructor) and it has a capital or a dash inside:
childrenAt -> children_at, root-inside -> root_inside. Functions of src/, types, modules, strings and what the toolchain names stay; the goals that a
Proof.antt answers keep theirs. A file that imports a library's name of the same spelling keeps it.
It stops, and writes nothing, where two names would fall together.
"""
import collections
import os
import re
import subprocess
import sys

WORD = r"[^\s(){}.;,@\"«»\[\]\\]+"
TOKEN = re.compile(r"--[^\n]*|\"(?:[^\"\\]|\\.)*\"|«[^»]*»|" + WORD)
RUST = re.compile(r"//[^\n]*|\"(?:[^\"\\]|\\.)*\"|[A-Za-z_][\w'-]*")
PARAMETER = re.compile(r"\b(\w+)\s*:(?!:)")
DEFINES = re.compile(r"^(\s*)((?:(?:abbrev|unfoldable|pub|data|record|ruleset|opaque)\s+)*)([^\s:(){}=,;.\[\]\"«]+)((?:\s*[({][^)}]*[)}])*)\s*(:|where|=)")
WORDS_OF_ANTT = ("use", "mod", "where", "unfolding", "let", "in", "open", "elim", "module")
OF_A_GOAL = re.compile(r"tie\.(Need|invariant|decreases)|: *(\{[^}]*\} *→ *)?statement")
# A lemma about a definition whose name it would have gets _lem; of two definitions that would fall together, one gets another name.
LEMMAS = (
    "answer-from answer-of bit-and bit-or bit-xor byte-of chain-of chain_by check-of child-at complete-by condition-of delete-in exchange-in extra-due "
    "first-in first-of insert-in kind-for lead-by lowest-of map_of mark-in marks-by mend-by mend-within misnamed-of outcome-by own-due own-row policy-by "
    "propose-by replace-in root-rows spot_in star-by steps-by take_by tally-by verdict-by way_by"
).split()
OTHER = {"goOn": "go_on_to", "countBy": "how_many_by", "takeAt": "taken_at", "wordMore": "word_more_of"}
# a field of one record that is named after a field of another: they stand side by side
SIDE_BY_SIDE = {"insert_delete"}


def files(ending):
    for folder, below, names in os.walk("crates"):
        below[:] = sorted(d for d in below if d != "out")
        for name in sorted(names):
            if name.endswith(ending):
                yield os.path.join(folder, name)


def read(path):
    with open(path, encoding="utf-8", newline="") as f:
        return f.read()


def is_old(name):
    return bool(re.match(r"[a-z]", name) and (re.search(r"[a-z0-9'][A-Z]", name.split("-")[0]) or re.search(r"[\w']-[A-Za-z0-9]", name)))


def snake(name):
    if name in OTHER:
        return OTHER[name]
    if name in LEMMAS:
        return name.replace("-", "_") + "_lem"
    parts = []
    for part in name.split("-"):
        if re.match(r"[a-z]", part):
            part = re.sub(r"([a-z0-9'])([A-Z])", lambda m: m.group(1) + "_" + m.group(2).lower(), part)
        parts.append(part)
    return "_".join(parts)


def alone(text):
    """The words of a file of antt that stand behind no dot and before none."""
    text = re.sub(r"--[^\n]*", "", text)
    return {m.group(0) for m in re.finditer(WORD, text) if text[m.start() - 1 : m.start()] != "." and not re.match(r"\.[A-Za-z]", text[m.end() : m.end() + 2])}


def defined():
    found, every = collections.defaultdict(set), set()
    for path in files(".antt"):
        for line in read(path).split("\n"):
            m = DEFINES.match(line)
            if not m:
                continue
            _, kinds, name, _, end = m.groups()
            if name in WORDS_OF_ANTT or name.startswith("--") or (end == "=" and "ruleset" not in kinds):
                continue
            if path.endswith("/Proof.antt") and OF_A_GOAL.search(line):
                continue
            every.add(name)
            if is_old(name) or name in LEMMAS:
                found[name].add(path)
    return found, every


def from_libraries(text, own):
    """The names that a file imports from a library that is not this repository's."""
    names = set()
    for m in re.finditer(r"^(?:ghost )?(?:pub )?use ([^\s{;]+?)\.\{([^}]*)\}", text, re.M):
        parts = m.group(1).split(".")
        if not (parts[0] == "Rattle" and len(parts) > 1 and parts[1] in own):
            names |= {n.strip().split(" as ")[0].strip() for n in m.group(2).split(",")}
    return names


def main():
    own = {c for c in os.listdir("crates") if os.path.isdir(os.path.join("crates", c, "src"))}
    found, every = defined()
    to = {name: snake(name) for name in found}
    texts = {p: read(p) for p in list(files(".antt")) + list(files(".rt"))}
    bad = []
    by_new = collections.defaultdict(set)
    for old, new in to.items():
        by_new[new].add(old)
    for path, text in texts.items():
        tokens = alone(text) if path.endswith(".antt") else set(PARAMETER.findall(text))
        kept = from_libraries(text, own)
        used = set((TOKEN if path.endswith(".antt") else RUST).findall(text))
        for old in used & set(to) - kept:
            if to[old] not in SIDE_BY_SIDE and to[old] in tokens - set(to) or len(by_new[to[old]] & used) > 1:
                bad.append(f"{old} -> {to[old]}: both stand in {path}")
    if bad:
        print("\n".join(bad))
        return 1

    for path, text in texts.items():
        kept = from_libraries(text, own)

        def turn(m, kept=kept):
            it = m.group(0)
            if it.startswith(("--", "//")):
                return re.sub(r"[a-z]+[a-z0-9]*[A-Z]\w*", lambda w: to.get(w.group(0), w.group(0)), it)
            return to[it] if it in to and it not in kept else it

        new = (TOKEN if path.endswith(".antt") else RUST).sub(turn, text)
        new = re.sub(r"(?<=specs\.)steps(?=[.\s;])", "Steps", new)
        if path.endswith("specs/Lib.antt"):
            new = re.sub(r"^(pub )?mod steps$", r"\1mod Steps", new, flags=re.M)
        if new != text:
            with open(path, "w", encoding="utf-8", newline="") as f:
                f.write(new)
    for crate in sorted(own):
        for name in ("steps.antt", "steps"):
            old = os.path.join("crates", crate, "specs", name)
            if os.path.exists(old):
                subprocess.run(["git", "mv", old, old[: -len(name)] + "S" + name[1:]], check=True)
    print(f"{len(to)} names")
    return 0


if __name__ == "__main__":
    sys.exit(main())
