#!/usr/bin/env python3
"""places.py [-v]: counts, in src/ of every crate, the places that docs/DESIGN-PASS.md speaks of, by its points; -v names them."""
import glob
import re
import sys

ROOT = __file__.rsplit("/tools/", 1)[0]
OWN = r"Refused|Absent|Unavailable|Wrong|More|Stopped|Unread"
GROUPS = {
    "catalogue": ["identifiers", "identifier_ends", "bases", "base_ends", "marks"],
    "columns": ["keys", "ranks", "positions"],
    "ranked targets": ["bases", "ends", "ranked"],
    "counters": ["placements", "singles", "multi"],
    "lists of reads": ["roles", "reads", "read_ends", "qualities", "quality_ends"],
    "a read": ["first", "first_qualities", "first_present"],
}


def functions(text):
    """Yields each function's line, name, whether C calls it, its parameters, its result and its body."""
    code = re.sub(r"//.*", lambda it: " " * len(it.group()), text)
    for it in re.finditer(r"(?m)^ *(?:pub(?:\(crate\))? )?(extern \"C\" )?fn (\w+)[^(]*\(", code):
        depth, at = 1, it.end()
        while depth:
            depth += {"(": 1, ")": -1}.get(code[at], 0)
            at += 1
        names = re.findall(r"(\w+): ([^,\n]*)", code[it.end() : at - 1])
        result = re.match(r"\s*-> ([^\n{]*)", code[at:])
        start = re.compile(r"(?m)^ *\{$| \{$").search(code, at)
        after = re.compile(r"(?m)^(?:    )?\}$").search(code, start.end() if start else at)
        body = code[start.end() : after.start()] if start and after else ""
        yield code[: it.start()].count("\n") + 1, it.group(2), bool(it.group(1)), names, result.group(1) if result else "", body


def main():
    found = {}

    def count(what, file, line, name):
        found.setdefault(what, []).append(f"{file[len(ROOT) + 8:]}:{line} {name}")

    for file in sorted(glob.glob(f"{ROOT}/crates/*/src/**/*.rt", recursive=True)):
        text = open(file, encoding="utf-8").read()
        for it in re.finditer(r"(?m)^pub enum (\w+) \{\n((?:    .*\n)*)\}", text):
            if "(" in it.group(2) and re.search(rf"(?m)^    (?:{OWN})\b", it.group(2)):
                count("1 own enums of the shape of Option or Result", file, text[: it.start()].count("\n") + 1, it.group(1))
        for number, line in enumerate(text.split("\n"), 1):
            if re.match(r"    pub (found|fits|present|failed|done|refusal): ", line):
                count("1 fields that tell whether the value beside them is one", file, number, line.strip())
            if re.match(r"\s*while ", line):
                count("3 loops by `while`", file, number, line.strip())
        for line, name, foreign, names, result, body in functions(text):
            if foreign:
                continue
            has = dict(names)
            if result.strip() == "u64" and re.search(r"return (?:[1-9]|1\d|2[0-6]);|^\s*(?:[1-9]|1\d|2[0-6])\s*$", body, re.M) and "refus" in text:
                count("1 functions that answer a refusal as a number", file, line, name)
            if has.get("strand") == "u64":
                count("1 functions that take a strand as a number", file, line, name)
            for flag in ("indexed", "first_present", "present", "two"):
                if has.get(flag) == "bool":
                    count("1 functions that take a flag with a value beside it", file, line, name)
                    break
            if re.match(r"(mode|role|status|flag|state)_(of|number)$|compare_names$|least$|shorter$|copy_over$|copy_numbers$|clear$|put_bytes$|shift$|power$", name):
                count("4 equality, order, copying, conversion by hand", file, line, name)
            for group, members in GROUPS.items():
                if all(it in has for it in members):
                    count(f"5 functions with the parameters of {'a ' if group in ('catalogue',) else ''}{group}", file, line, name)
            if len(names) >= 13:
                count("5 functions of more than twelve parameters", file, line, name)
            if has.get("look") == "bool" or has.get("tested") == "bool" or has.get("each") == "bool":
                count("7 switches on what is done", file, line, name)
    for what in sorted(found):
        print(f"{len(found[what]):5}  {what}")
        if "-v" in sys.argv:
            for it in found[what]:
                print(f"         {it}")
    lines = {"Answers": 0, "Invariants": 0, "lemmas": 0}
    files = dict(lines)
    for file in glob.glob(f"{ROOT}/crates/*/proofs/**/*.antt", recursive=True):
        kind = next((it for it in ("Answers", "Invariants") if file.endswith(f"/{it}.antt")), "lemmas")
        files[kind] += 1
        lines[kind] += open(file, encoding="utf-8").read().count("\n")
    for kind, number in lines.items():
        print(f"{number:5}  8 lines of {kind}, in {files[kind]} files")


main()
