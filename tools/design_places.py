#!/usr/bin/env python3
"""Counts, in the sources of each crate, the places of the design pass (docs/DESIGN-PASS.md), a number for each kind of place.

    tools/design_places.py [-v] [DIR]      DIR is a checkout, by default this one; -v names each place
"""
import re
import sys
from pathlib import Path

ARRAYS = ("octets", "flags", "words", "limits", "deltas", "values")
FN = re.compile(r"\bfn (\w+)(?:<[^>]*>)?\s*\(")


def functions(text):
    """Each function with a body: its name, its parameters, its result and its body."""
    for found in FN.finditer(text):
        end = closing(text, found.end() - 1, "()")
        body = text.find("\n{", end) if "\n{" in text[end:] else -1
        inner = re.compile(r"\n( *)\{\n").search(text, end)
        one_line = text.find("{", end)
        start = inner.end() - 2 if inner else one_line
        if start < 0:
            continue
        result = re.match(r"\s*->\s*([^\n]+)", text[end + 1:])
        yield (
            found.group(1),
            [p.strip() for p in text[found.end():end].split(",") if p.strip()],
            result.group(1).strip() if result else "",
            text[start:closing(text, start, "{}") + 1],
        )


def closing(text, at, pair):
    depth = 0
    for i in range(at, len(text)):
        if text[i] == pair[0]:
            depth += 1
        elif text[i] == pair[1]:
            depth -= 1
            if depth == 0:
                return i
    return len(text) - 1


def without_comments(text):
    return re.sub(r"//[^\n]*", "", text)


def shape(name, body):
    """A body without what twins may differ in: the function's name, types, numbers and names of constants."""
    body = body.replace(name, "F")
    body = re.sub(r"\b(u8|u16|u32|u64|i8|i16|i32|i64|usize)\b", "T", body)
    body = re.sub(r"\b[A-Z][A-Z_0-9]*\b", "C", body)
    body = re.sub(r"\b\d[\d_a-fA-Fx]*\b", "N", body)
    return re.sub(r"\s+", " ", body)


def places(root):
    found = {}

    def note(kind, where):
        found.setdefault(kind, []).append(where)

    shapes = {}
    for path in sorted(Path(root).glob("crates/*/src/*.rt")):
        text = without_comments(path.read_text())
        where = f"{path.parts[-3]}/{path.name}"
        for line in text.splitlines():
            if re.search(r"\bwhile\b", line):
                note("3 loops by hand: while", f"{where}: {line.strip()}")
            if re.search(r"% 256\b.*as u8|/ 256 % 256|\* 256\b|256 \* \(|>> 8\b|<< 8\b", line):
                note("4 bytes of numbers by arithmetic", f"{where}: {line.strip()}")
            if re.search(r"\bsame\(", line):
                note("4 equality by a function", f"{where}: {line.strip()}")
            if re.search(r"^\s*(pub )?const \w+: u(8|32) = ", line):
                note("1 numbers for kinds or refusals: constants", f"{where}: {line.strip()}")
            if re.search(r"^\s*(pub )?(number|absent|refused): u32,|, number: u32\b|number: refused\b", line):
                note("1 numbers for kinds or refusals: fields", f"{where}: {line.strip()}")
        for enum in re.findall(r"enum (\w+) \{([^}]*)\}", text):
            if re.search(r"\bUnknown\(", enum[1]):
                note("1 own enums like Option or Result", f"{where}: {enum[0]}")
        for name, params, result, body in functions(text):
            at = f"{where}: {name}"
            lent = [p for p in params if p.split(":")[0] in ARRAYS]
            if re.search(r"\brefused\b|_refusal\(|\brefusal\(", body) and "u32" in result or re.search(r"refusal$", name) and result == "u32":
                note("1 numbers for kinds or refusals: functions", at)
            if re.search(r"(?<!:)\bNONE\b|return 44|< 44", body):
                note("1 a number for none", at)
            if len(lent) >= 3:
                note("5 three or more of the six arrays", at)
            names = [p.split(":")[0].replace("mut ", "") for p in params]
            if "out" in names and "at" in names:
                note("6 a buffer and the place in it", at)
            if any(re.match(r"(bytes|payload|events|numbers|lines|channels|frame|reply|others)$", n) for n in names) and any(
                re.match(r"(n|m|k|count|numbers|size)$", n) and p.endswith("usize") for n, p in zip(names, params)
            ):
                note("6 a buffer and how much of it", at)
            if any(re.match(r"(raised|received): bool", p) for p in params):
                note("7 a flag for which step", at)
            if re.search(r"match [^{]*\{[^{}]*=> (true|false),[^{}]*=> (true|false),", body) and result == "bool":
                note("4 equality by a match", at)
            if re.search(r"\{ ?(weight|1) ?\} else \{ ?0 ?\}|return 1;\n\s*\}\n\s*0\n", body) and "bool" in " ".join(params):
                note("4 a bool as a number by hand", at)
            shapes.setdefault((shape(name, body), len(params)), []).append(at)
    for same in shapes.values():
        if len(same) > 1 and not all(s.startswith("io401/") for s in same):
            for at in same[1:]:
                note("2 twins: the same text but for types, numbers and names", f"{at} as {same[0]}")
    for path in sorted(Path(root).glob("crates/*/proofs/**/Answers.antt")):
        note("8 files of answers", str(path))
    return found


def lines_of(root, pattern):
    return sum(len(p.read_text().splitlines()) for p in Path(root).glob(pattern) if "/out/" not in str(p))


def main():
    words = [w for w in sys.argv[1:] if w != "-v"]
    root = Path(words[0]) if words else Path(__file__).resolve().parent.parent
    found = places(root)
    for kind in sorted(found):
        print(f"{len(found[kind]):5}  {kind}")
        if "-v" in sys.argv:
            for where in found[kind]:
                print(f"         {where}")
    print(f"{lines_of(root, 'crates/*/proofs/**/Answers.antt'):5}  8 lines of answers")
    print(f"{lines_of(root, 'crates/*/proofs/**/Invariants.antt'):5}  8 lines of invariants")
    print(f"{lines_of(root, 'crates/*/proofs/*.antt'):5}  8 lines of laws")
    print(f"{lines_of(root, 'crates/*/src/*.rt'):5}  lines of src")


if __name__ == "__main__":
    main()
