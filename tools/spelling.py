#!/usr/bin/env python3
"""Brings this repository's own definitions and lemmas to one spelling.

usage: tools/spelling.py [--check]      at the top of the repository, once

Words are in snake case. A dash stays where it joins two names that are definitions themselves (`length-filter`), or a sign.
Names that a library declares, modules, types, functions of src/ and generated names keep theirs. --check writes nothing.
A name that would fall together with another of the same file is told on a line that begins 'apart:'; SPECIAL has what to write for it.
"""

import collections
import glob
import re
import sys

WORD = re.compile(r'[^\s(){}.;,@"«»\[\]|]+')
QUIET = re.compile(r'"(?:[^"\\\n]|\\.)*"|(?<![^\s(){}.;,@"«»])--[^\n]*|\{-.*?-\}', re.S)
USE = re.compile(r"^\s*(?:pub )?use ([^\s{;]+?)(?:\.\{([^}]*)\})?(?: as \S+)?\s*$", re.M)
GHOST = re.compile(r"ghost\s+use\s+([^\s{;]+?)(?:\.\{([^}]*)\})?\s*;")
CLAUSE = re.compile(r"(?:requires|ensures)\s*\*?\s*(?:\w+\s*)?\{|ghost\s*(?:\w+\s*(?::\s*)?)?\{")
DECLARED = re.compile(r"^\s*(?:(?:abbrev|unfoldable|pub) )*([^\s(){}.;,@\"]+)(?: [^:\n]*)? : ", re.M)

# names that the rule below would make equal to another in their file, or that name what is called otherwise now
SPECIAL = {
    "twoIn": "two_in",
    "two_in": "two_in_lem",
    "all-rows": "all_rows_lem",
    "part-of": "part_of_lem",
    "keptBack": "kept_back_most",
    "get_d_map": "get_or-map",
    "get_d_reverse": "get_or-reverse",
    "◌orElse◌": "◌or_else◌",
}


def crates():
    return {l.split(":")[0].split()[0] for l in open("crates.txt") if l.strip() and not l.startswith("#")}


def own(path, names):
    head = path.replace("·", ".").split(".")
    return len(head) > 1 and head[0] == "Rattle" and head[1] in names


def files():
    a = sorted(glob.glob("crates/*/specs/**/*.antt", recursive=True) + glob.glob("crates/*/proofs/**/*.antt", recursive=True))
    r = sorted(glob.glob("crates/*/src/**/*.rt", recursive=True))
    return [f for f in a if "/out/" not in f], r


def code(t):
    return QUIET.sub(lambda m: " " * len(m.group()), t)


def hump(word):
    """complementOf as complement_of; a run of capitals is one word."""
    word = re.sub(r"(?<=[a-z0-9])([A-Z]+)(?![a-z])", lambda m: "_" + m.group(1).lower(), word)
    return re.sub(r"(?<=[a-z0-9])([A-Z])", lambda m: "_" + m.group(1).lower(), word)


def spell(word, known):
    """The word as it is to be spelled."""
    if word in SPECIAL:
        return SPECIAL[word]
    prime = re.search(r"['′]*$", word).group()
    body = word[: len(word) - len(prime)] if prime else word
    parts = ["get_or" if p == "getD" else p for p in body.split("-")]
    parts = [hump(p) if p and p[0].islower() else p for p in parts]
    out = parts[0]
    for i in range(1, len(parts)):
        left, right = out.split("-")[-1], "_".join(parts[i:])
        sign = not re.fullmatch(r"\w+", parts[i - 1]) or not re.fullmatch(r"\w+", parts[i])
        sign = sign or parts[i - 1][0].isupper() or parts[i][0].isupper()
        out += ("-" if sign or (left in known and right in known) else "_") + parts[i]
    return out + prime.replace("′", "'")


def main():
    check = "--check" in sys.argv
    names = crates()
    antt, rt = files()
    text = {f: open(f).read() for f in antt + rt}
    library, declared, fields, definitions = set(), set(), set(), set()
    for f in antt:
        t = code(text[f])
        for m in USE.finditer(t):
            if m.group(2) and not own(m.group(1), names):
                library |= {w.strip().split(" as ")[-1] for w in m.group(2).split(",")} | {w.strip().split(" as ")[0] for w in m.group(2).split(",")}
        walked = f.endswith("/Proof.antt")
        if not walked:
            declared |= {w for w in WORD.findall(t)}
        else:
            declared |= {m.group(1) for m in DECLARED.finditer(t) if "tie.Need-" not in t[m.start(): t.find("\n", m.end())]}
        if "/specs/" in f:
            definitions |= {m.group(1) for m in re.finditer(r"^(?:(?:abbrev|unfoldable|pub) )+([a-z][^\s(){}.;,@\"]*) : ", t, re.M)}
    for f in rt:
        for m in GHOST.finditer(text[f]):
            if m.group(2) and not own(m.group(1), names):
                library |= {w.strip() for w in m.group(2).split(",")}
    for w in list(library):
        if w.startswith("◌") or w.endswith("◌"):
            library.add(w.strip("◌"))
    declared -= library
    known = {hump(w) for w in definitions} | {w for w in library if re.fullmatch(r"[a-z]\w*", w)}
    table = {}
    for w in declared:
        if "◌" in w:
            inner = w.strip("◌")
            if re.fullmatch(r"[a-z]\w*", inner) and hump(inner) != inner:
                table[w] = "◌" + hump(inner) + "◌"
                table[inner] = hump(inner)
            continue
        if w in SPECIAL:
            continue
        if not re.match(r"[a-z∈⊎]", w) or not re.search(r"[A-Z]|-|′", w) or re.fullmatch(r"[a-z]*-\d+", w) or w.startswith("--"):
            continue
        if re.search(r"[+*/=<>≡≤∷]|::", w):
            continue
        s = spell(w, known)
        if s != w:
            table[w] = s
    table.update({w: s for w, s in SPECIAL.items() if w != s})
    # a lemma that would have its definition's name gets _lem
    for f in antt:
        if f.endswith("/Proof.antt"):
            continue
        words = set(WORD.findall(code(text[f])))
        humps = {table[w] for w in words if w in table and "-" not in w and re.search("[A-Z]", w)}
        for w in words:
            if w in table and w not in SPECIAL and "-" in w and table[w] in humps and not re.search("[A-Z]", w):
                table[w] += "_lem"
    # what falls together in a file
    for f in antt:
        seen = collections.defaultdict(set)
        for w in WORD.findall(code(text[f])):
            seen[table.get(w, w)].add(w)
        for s, ws in sorted(seen.items()):
            if len(ws) > 1:
                print("apart:", f, s, sorted(ws))
    changed = 0

    def turn(t, antt=True):
        def words(s):
            return WORD.sub(lambda m: table.get(m.group(), m.group()), s)

        out, at = [], 0
        for m in QUIET.finditer(t):
            out.append(words(t[at : m.start()]))
            q = m.group()
            out.append(re.sub(r"`([^`]+)`", lambda k: "`" + words(k.group(1)) + "`", q) if not q.startswith('"') else q)
            at = m.end()
        out.append(words(t[at:]))
        return "".join(out)

    def clause_spans(t):
        at = 0
        while True:
            m = CLAUSE.search(t, at)
            if not m:
                return
            depth, i = 1, m.end()
            while depth and i < len(t):
                depth += {"{": 1, "}": -1}.get(t[i], 0)
                i += 1
            yield m.end(), i - 1
            at = i

    for f in antt + rt:
        t = text[f]
        if f.endswith(".antt"):
            new = turn(t)
        else:
            spans = [(m.start(), m.end()) for m in GHOST.finditer(t)] + list(clause_spans(t))
            new, at = "", 0
            for a, b in sorted(spans):
                if a < at:
                    continue
                new += t[at:a] + turn(t[a:b])
                at = b
            new += t[at:]
            new = re.sub(r"(//[^\n]*)", lambda m: re.sub(r"`([^`]+)`", lambda k: "`" + WORD.sub(lambda x: table.get(x.group(), x.group()), k.group(1)) + "`", m.group()), new)
        if new != t:
            changed += 1
            if not check:
                open(f, "w").write(new)
    if "--table" in sys.argv:
        for w in sorted(table):
            print(w, table[w], sep="\t")
    print(len(table), "spellings,", changed, "files")


main()
