#!/usr/bin/env python3
"""Turns the words `old s` and `new s` of promises into the fields of a reference: `s.now` of a `&`, `s.old` and `s.new` of a `&mut`.
Plain types are copied, and each root file asks for the tactics.

usage: tools/lent.py      at the top of the repository, once, after spelling.py

A definition that took what is known of a slice (`lent_catalogue`) takes its list. `left_counters` and its like are given the lists at the return.
"""

import glob
import os
import re

FN = re.compile(r"\bfn\s+(\w+)\s*(?:<[^>(]*>)?\(")
CLAUSE = re.compile(r"\b(requires|ensures)\s*\*?\s*(?:\w+\s*)?\{")
WORD = re.compile(r"(?<![\w.'◌-])[A-Za-z_]\w*(?![\w'◌-])")


def close(t, i, a="{", b="}"):
    depth = 1
    while depth:
        depth += {a: 1, b: -1}.get(t[i], 0)
        i += 1
    return i


def parameters(text):
    out = {}
    depth, part, parts = 0, "", []
    for ch in text:
        if ch in "(<[":
            depth += 1
        elif ch in ")>]":
            depth -= 1
        if ch == "," and depth == 0:
            parts.append(part)
            part = ""
        else:
            part += ch
    for p in parts + [part]:
        m = re.match(r"\s*(?:mut )?(\w+)\s*:\s*(&(?:'\w+ )?(mut )?)?", p)
        if m and m.group(2):
            out[m.group(1)] = "mut" if m.group(3) else "shr"
    return out


def turn(body, ps, kind):
    def field(p, when):
        return f"{p}." + ("now" if ps[p] == "shr" else when)

    body = re.sub(r"\((old|new) (\w+)\)", lambda m: field(m.group(2), m.group(1)) if m.group(2) in ps else m.group(), body)
    body = re.sub(r"(?<![\w.'-])(old|new) (\w+)(?![\w.'])", lambda m: field(m.group(2), m.group(1)) if m.group(2) in ps else m.group(), body)
    # a bare reference is an argument of a definition over what is lent, or left
    out, at, heads = "", 0, ["" ]
    for m in re.finditer(r"[()]|(?<![\w.'◌-])[A-Za-z_]\w*(?![\w'◌-])", body):
        out += body[at : m.start()]
        w = m.group()
        at = m.end()
        if w == "(":
            heads.append("")
        elif w == ")":
            heads.pop()
        elif w in ps and body[m.end() : m.end() + 1] != ".":
            w = field(w, "new" if re.match(r"left_", heads[-1]) else "old")
        elif re.match(r"(lent|left)_", w) or not heads[-1]:
            heads[-1] = w
        out += w
    return out + body[at:]


def code(path):
    t = open(path).read()
    out, at = "", 0
    ps, until = {}, 0
    for m in re.finditer(FN.pattern + "|" + CLAUSE.pattern, t):
        if m.start() < at:
            continue
        if m.group().startswith("fn"):
            end = close(t, m.end(), "(", ")")
            ps = parameters(t[m.end() : end - 1])
            continue
        line = t.rfind("\n", 0, m.start()) + 1
        if "//" in t[line : m.start()]:
            continue
        end = close(t, m.end())
        out += t[at : m.end()] + turn(t[m.end() : end - 1], ps, m.group(1))
        at = end - 1
    out += t[at:]
    out = re.sub(r"ghost use Rattle\.promises\.specs\.Slice\.\{[^}]*\};\n", "", out)
    if out != t:
        open(path, "w").write(out)
        return 1
    return 0


def paper(path):
    t = open(path).read()
    new = t
    if path.endswith("promises/specs/Slice.antt"):
        os.remove(path)
        lib = os.path.join(os.path.dirname(path), "Lib.antt")
        listed = open(lib).read().replace("pub mod Slice\n", "")
        open(lib, "w").write(listed)
        return 1
    if re.search(r"Rattle\.promises\.specs\.Slice\.", t) or "Both (Bor" in t:
        new = re.sub(r"use Rattle\.promises\.specs\.Slice\.\{[^}]*\}\n", "", new)
        new = re.sub(r"\bSlice\b(?=[^.\w]|$)", "List ℕ", new) if "/specs/" in path else new
        new = re.sub(r"\((?:old|new) (\w+)\)", r"\1", new)
        new = re.sub(r"(?<![\w.'-])(?:old|new) (\w+)(?=[ ;)\n])", r"\1", new) if "/specs/" in path else new
    if new != t:
        open(path, "w").write(new)
        return 1
    return 0


def root(path):
    """The check tries its tactics."""
    t = open(path).read()
    if "#![tactic(auto)]" not in t:
        head = re.match(r"(?:[ \t]*//[^\n]*\n|#!\[[^\n]*\n|\n)*", t).end()
        open(path, "w").write(t[:head].rstrip("\n") + ("\n" if head else "") + "#![tactic(auto)]\n\n" + t[head:])


def copied(path):
    """A plain type is copied, as it was."""
    t = open(path).read()
    new = t.replace("#[derive(Drop)]", "#[derive(Clone, Copy)]")
    if new != t:
        open(path, "w").write(new)


for p in sorted(glob.glob("crates/*/src/lib.rt") + glob.glob("crates/*/src/main.rt")):
    root(p)
for p in sorted(glob.glob("crates/*/src/**/*.rt", recursive=True)):
    copied(p)
n = sum(code(p) for p in sorted(glob.glob("crates/*/src/**/*.rt", recursive=True)))
k = sum(paper(p) for p in sorted(glob.glob("crates/*/specs/**/*.antt", recursive=True)))
print(n, "files of code,", k, "of definitions")
