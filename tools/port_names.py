#!/usr/bin/env python3
"""Brings this repository's own definitions and lemmas to snake case: run once, at the top, after the kit's port.py.

A name with a dash or in camel case becomes one in snake case, wherever it stands: `blockCount` is `block_count`, `any-split` is `any_split`. Where a lemma
would get its definition's name, it gets `_lem` behind it. Types, modules and names of src/ stay, and so does what a string or a comment says.
"""

import collections
import os
import re
import sys

OWN = "bench blocks64 buffers bytecalls cells cface frames hex known_sums matrix multiply requests rows steps texts walk wordbytes wordcalls".split()
LETTER = r"[\w'₀-₉ℕ→≤≡≢-]"
SIGNATURE = re.compile(r"^\s*(?:(?:pub|abbrev|unfoldable)\s+)*((?:[^\s():{}]+\s+)*[^\s():{}]+)\s+:\s")
IMPORT = re.compile(r"^\s*(?:ghost )?use ([\w.ℕ+-]+)\.\{(.*)\}")
# what would fall together with a name of the library
CHOSEN = {"bit-and": "bit_of_and", "bit-or": "bit_of_or", "bit-xor": "bit_of_xor"}


def texts(root, ends):
    for folder, dirs, files in os.walk(os.path.join(root, "crates")):
        dirs[:] = sorted(d for d in dirs if d != "out")
        for name in sorted(files):
            if name.endswith(ends):
                yield os.path.join(folder, name)


def read(path):
    with open(path, encoding="utf-8") as f:
        return f.read()


def snake(name):
    return re.sub(r"([a-z0-9])([A-Z])", lambda m: m[1] + "_" + m[2].lower(), name.replace("-", "_"))


def declared(root):
    """The names that are declared outside proofs of functions, and all names that stand anywhere."""
    names, others = collections.OrderedDict(), set()
    for path in texts(root, ".antt"):
        walk = path.endswith("/Proof.antt")
        for line in read(path).split("\n"):
            m = IMPORT.match(line)
            if m:
                if m[1].split(".")[:2][-1] not in OWN:
                    others |= {x.strip() for x in m[2].split(",")}
                continue
            m = SIGNATURE.match(line)
            if m and not line.lstrip().startswith(("--", "infix", "let ", "in ")):
                for name in m[1].split():
                    old = re.search(r"\w-\w", name) or re.match(r"[a-z][a-z0-9_]*[A-Z]", name)
                    if old and re.match(r"[a-z]", name):
                        if not walk:
                            names[name] = None
                    else:
                        others.add(name)
    return list(names), others


def table(root):
    names, others = declared(root)
    new = dict(CHOSEN)
    taken = set(others) | {snake(n) for n in names if "-" not in n}
    for name in sorted(names):
        if name in new:
            continue
        plain = snake(name)
        new[name] = plain + "_lem" if "-" in name and plain in taken else plain
    seen = collections.defaultdict(list)
    for old, name in new.items():
        seen[name].append(old)
    for name, olds in sorted(seen.items()):
        if len(olds) > 1 or name in others:
            print(f"falls together: {name}: {' '.join(olds)}{' and one that stands' if name in others else ''}")
    return new


def turn(text, new, code):
    word = re.compile(rf"(?<!{LETTER})({'|'.join(sorted(map(re.escape, new), key=len, reverse=True))})(?!{LETTER})")
    out = []
    for line in text.split("\n"):
        cut = re.search(r"(^|\s)(//|--)(\s|$)", line) if not code else re.search(r"//", line)
        body, said = (line[: cut.start()], line[cut.start() :]) if cut else (line, "")
        parts = re.split(r'("(?:[^"\\]|\\.)*")', body) if code else [body]
        body = "".join(p if p.startswith('"') else word.sub(lambda m: new[m[1]], p) for p in parts)
        said = word.sub(lambda m: m[1] if "-" in m[1] else new[m[1]], said)
        out.append(body + said)
    return "\n".join(out)


def main():
    root = sys.argv[1] if len(sys.argv) > 1 else "."
    new = table(root)
    n = 0
    for path in texts(root, (".antt", ".rt")):
        text = read(path)
        mine = new
        if path.endswith("/Proof.antt"):
            goals = set(re.findall(r"(?m)^([^\s:]+) : tie\.", text))
            mine = {k: v for k, v in new.items() if k not in goals}
        turned = turn(text, mine, path.endswith(".rt"))
        if turned != text:
            with open(path, "w", encoding="utf-8") as f:
                f.write(turned)
            n += 1
    print(f"{len(new)} names, {n} files")


if __name__ == "__main__":
    main()
