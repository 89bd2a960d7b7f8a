#!/usr/bin/env python3
"""Lists the places of docs/DESIGN-PASS.md: forms of an older style in crates/*/src, one block a point.

usage: tools/design_places.py [POINT..]    run at the top of a checkout; with no point, all of them
       tools/design_places.py --counts     the number of places of each point alone
"""
import collections
import glob
import os
import re
import sys

FILES = sorted(glob.glob("crates/*/src/*.rt"))


def lines():
    for name in FILES:
        for number, text in enumerate(open(name, encoding="utf-8"), 1):
            yield name, number, text.rstrip("\n")


def grep(*patterns):
    found = []
    for name, number, text in lines():
        code = text.split("//")[0]
        for pattern in patterns:
            if re.search(pattern, code):
                found.append(f"{name}:{number}: {text.strip()}")
                break
    return found


def functions():
    """Every function: file, line, name, signature with its clauses, body."""
    for name in FILES:
        text = open(name, encoding="utf-8").read()
        for match in re.finditer(r"^( *)(?:pub(?:\([a-z]+\))? )?fn (\w+)", text, re.M):
            indent = match.group(1)
            end = re.compile(rf"^{indent}\}}$", re.M)
            head = text[match.start():]
            brace = re.search(rf"(?:^{indent}\{{\}}?$| \{{$|;$)", head, re.M)
            if not brace:
                continue
            signature = head[:brace.start()]
            stop = end.search(head, brace.end()) if not head[:brace.end()].endswith(("{}", ";")) else None
            body = head[brace.end():stop.start()] if stop else ""
            line = text.count("\n", 0, match.start()) + 1
            yield name, line, match.group(2), signature, body


def plain_signature(signature):
    return re.split(r"\n\s*(?:requires|ensures|where)\b", signature)[0]


def clauses(signature):
    parts = re.split(r"\n\s*(requires|ensures)\b", signature)[1:]
    for kind, clause in zip(parts[::2], parts[1::2]):
        fact = re.search(r"\{(.*)\}", clause, re.S)
        if fact:
            yield kind, " ".join(fact.group(1).split())


def shape(body):
    """A body with its own names, numbers and strings left out."""
    words = re.findall(r'b?"[^"]*"|\'[^\']\'|[A-Za-z_][\w]*|\d[\w]*|\S', re.sub(r"//.*", "", body))
    keep = {"if", "else", "match", "for", "in", "while", "let", "mut", "return", "self", "Ok", "Err", "Some", "None", "as"}
    return " ".join(w if w in keep or not re.match(r"[\w'\"]", w) else "x" for w in words)


def point_1():
    yield "a flag beside a value, in a struct", grep(r"^\s+(?:pub(?:\(\w+\))? )?\w+: bool,")
    yield "a variant with the name of a library's variant", grep(r"^\s+(?:None|Some|Ok|Err)\(\w+\),$")
    yield "a bool that says whether it was done", [
        f"{f}:{l}: {n}" for f, l, n, s, b in functions()
        if re.search(r"&mut [^)]*\) -> bool", plain_signature(s), re.S)]
    yield "an error answered as an Option", grep(r"-> Option<(?:Cause|Refusal|Result)")
    yield "an error or a missing value passed on by a match", grep(
        r"Err\((\w+)\) => (?:return )?Err\(\1\)", r"Err\(_\) => (?:return )?(?:None|Err\()", r"Err\((\w+)\) => Err\(\1\.",
        r"\bNone => (?:return )?(?:None|Err\()", r"\bNone => Err", r"Some\((\w+)\) => (?:return )?Err\(\1\)",
        r"Ok\((\w+)\) => (?:return )?Ok\(", r"if let Err\(\w+\) =")
    yield "a number for a kind", grep(r"\bkind: u\d+", r"\bcode: u\d+")


def point_2():
    shapes = collections.defaultdict(list)
    for name, line, fn, signature, body in functions():
        if len(body.split()) >= 8:
            shapes[shape(body)].append(f"{name}:{line}: {fn}")
    yield "functions whose bodies have one shape", [
        "; ".join(group) for group in shapes.values() if len(group) > 1]
    stems = collections.defaultdict(list)
    for name, line, fn, signature, body in functions():
        for stem in ("_register", "two_", "three_", "_memory", "_screen", "_number", "put", "read_"):
            if stem in fn:
                stems[(name, stem)].append(f"{name}:{line}: {fn}")
    yield "families of functions by their names", ["; ".join(g) for g in stems.values() if len(g) > 1]


def point_3():
    yield "a loop that counts by hand", grep(
        r"while \w+ [<>]=? ", r"^\s+\w+ [+-]= 1;", r"for _\w* in 0\.\.", r"=> \w+ \+= 1,", r"while let Some\(\w+\) = next\(")
    yield "a for whose body is a library's method", grep(r"\bfor .* in .*\{$")


def point_4():
    yield "equality, conversion or printing by hand", grep(
        r"fn (?:same|eq|cmp|number|numbered|of|mask|kind_bits|shift_at|refused|decode|encode)\b", r"fn at\(k",
        r"fn shift\(kind: u8")
    yield "a derive with no comparison", grep(r"#\[derive\(Clone, Copy\)\]")
    yield "an `as` that may only widen", grep(r"\bas (?:usize|u32|u64|i64)\b")


def point_5():
    pairs = collections.defaultdict(list)
    facts = collections.defaultdict(list)
    for name, line, fn, signature, body in functions():
        params = re.findall(r"(\w+): (&(?:mut )?[^,()]+|\w+)", plain_signature(signature).split("->")[0])
        for i, a in enumerate(params):
            for b in params[i + 1:]:
                pairs[tuple(sorted((f"{a[0]}: {a[1].strip()}", f"{b[0]}: {b[1].strip()}")))].append(fn)
        for kind, fact in set(clauses(signature)):
            facts[(os.path.dirname(name), kind, fact)].append(fn)
    yield "two parameters that travel together through three functions or more", [
        f"({'; '.join(pair)}) x{len(fns)}" for pair, fns in sorted(pairs.items(), key=lambda p: -len(p[1])) if len(fns) > 2]
    yield "one fact in three contracts of a crate or more", [
        f"{crate.split('/')[1]}: {kind} {{ {fact} }} x{len(fns)}"
        for (crate, kind, fact), fns in sorted(facts.items(), key=lambda p: -len(p[1])) if len(fns) > 2]


def point_6():
    yield "a table or a buffer of one size, and a length beside slots", grep(
        r"const \w+: \[", r": usize,$", r"&mut Shelf\b", r"\[0u8; \d+\]|0u8; \d+\]")
    yield "a search by hand", [
        f"{f}:{l}: {n}" for f, l, n, s, b in functions() if re.search(r"for .*\{\s*(?:let .*;\s*)?if .*\{\s*return", b)]


def point_7():
    found = []
    for name, line, fn, signature, body in functions():
        arms = re.findall(r"=> (?:Ok\()?(?:self\.)?(\w+)\((.*?)\)", body)
        if len(arms) > 2:
            found.append(f"{name}:{line}: {fn}, {len(arms)} arms that call")
    yield "a match whose arms are calls", found
    yield "function pointers", grep(r"\bfn\(")


def point_8():
    rows = []
    for crate in sorted(glob.glob("crates/*")):
        answers = glob.glob(f"{crate}/proofs/**/*.antt", recursive=True)
        count = sum(len(open(a, encoding="utf-8").readlines()) for a in answers)
        named = sum(len(re.findall(r"^pub [\w+-]+ :", open(a, encoding="utf-8").read(), re.M)) for a in answers)
        if answers:
            rows.append(f"{crate}: {len(answers)} files, {count} lines, {named} answers and lemmas")
    yield "proofs of a crate", rows


def main():
    wanted = [a for a in sys.argv[1:] if a.isdigit()] or [str(n) for n in range(1, 9)]
    for point in wanted:
        for title, found in globals()[f"point_{point}"]():
            print(f"{point}: {title}: {len(found)}")
            if "--counts" not in sys.argv:
                for place in found:
                    print(f"    {place}")


main()
