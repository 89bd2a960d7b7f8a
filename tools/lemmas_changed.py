#!/usr/bin/env python3
"""Lists the public lemmas of crates/*/proofs that changed since a commit: gone, new, and stated otherwise.

usage: tools/lemmas_changed.py COMMIT      run at the top of a checkout
"""
import re
import subprocess
import sys


def git(*args):
    return subprocess.run(("git",) + args, capture_output=True, text=True).stdout


def lemmas(text):
    """Each public lemma of a file by its name, with its statement on one line."""
    found = {}
    lines = text.split("\n")
    for i, line in enumerate(lines):
        start = re.match(r"^( *)(?:abbrev |unfoldable )?pub (?:record )?([^\s:]+)(.*)", line)
        if not start or line.strip().startswith(("pub mod", "pub use")):
            continue
        statement = [start.group(3)]
        for more in lines[i + 1:]:
            if not more.strip() or not more.startswith(start.group(1) + "    "):
                break
            statement.append(more)
        found[start.group(2)] = " ".join(" ".join(statement).split())
    return found


def all_lemmas(commit):
    names = git("ls-tree", "-r", "--name-only", commit, "crates").split("\n")
    result = {}
    for name in names:
        if re.search(r"/proofs/[A-Z]\w*\.antt$", name) and not name.endswith("Lib.antt"):
            crate = name.split("/")[1]
            module = name.split("/")[-1].removesuffix(".antt")
            for lemma, statement in lemmas(git("show", f"{commit}:{name}")).items():
                result[(crate, module, lemma)] = statement
    return result


def main():
    old, new = all_lemmas(sys.argv[1]), all_lemmas("HEAD")
    for title, keys in (("gone", sorted(set(old) - set(new))), ("new", sorted(set(new) - set(old)))):
        print(f"{title}: {len(keys)}")
        for crate, module, lemma in keys:
            print(f"    {crate} {module} {lemma} : {(old if title == 'gone' else new)[(crate, module, lemma)]}")
    other = sorted(k for k in set(old) & set(new) if old[k] != new[k])
    print(f"stated otherwise: {len(other)}")
    for key in other:
        print(f"    {' '.join(key)}\n        - {old[key]}\n        + {new[key]}")
    print(f"the same: {len(set(old) & set(new)) - len(other)}")


main()
