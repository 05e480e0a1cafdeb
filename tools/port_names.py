#!/usr/bin/env python3
"""Spells the repository's own definitions and lemmas in snake case: once, right after the toolchain's port.py.

usage: python3 tools/port_names.py [--check]      at the top of the repository

Declared names are those of specs/ and proofs/: definitions, lemmas, constructors, fields, and what stands behind a 'where'. A name with a
small first letter gets snake case, each dash an underscore. Names that Rattle makes keep their dashes, and so does a name in a file that
imports it from a library. Types, modules and the names of src/ stay. It stops where two names would fall together; --check writes nothing.
Texts turned: .antt (code, and code spans of comments), clauses and comments of .rt, must-fail edits, and code spans of README and docs/.
"""
import glob
import re
import sys

WORD = re.compile(r'[^\s(){}.;,@"«»`]+')
DECLARED = re.compile(
    r"^( *)((?:(?:pub|abbrev|unfoldable|data|record|open|mutual)(?:\([^)]*\))? +)*)([^\s(){}.;,@\"«»:]+)((?: \{[^{}\n]*\}| \([^()\n]*\))*) :(?= |$)"
)
USE = re.compile(r"^\s*(?:ghost )?use ([^\s;{]+?)\.?(?:\{([^}]*)\})?(?: as (\S+))?;?$", re.M | re.S)
SPAN = re.compile(r"(`+)([^`\n]*)\1")
MADE = re.compile(r"\b(?:tie\.|goal\.|statement\b)")


# What falls together with a definition is a lemma, a constructor or a field that speaks of it: by the toolchain's rule it gets '_lem'.
LEMMAS = {}


def snake(name):
    return LEMMAS.get(name) or in_snake_case(name)


def in_snake_case(name):
    name = re.sub(r"(?<=[a-z0-9])[A-Z]", lambda m: "_" + m[0].lower(), name)
    return name.replace("-", "_").replace("′", "'")


def texts(*patterns):
    found = []
    for pattern in patterns:
        found += glob.glob(pattern, recursive=True)
    return sorted(p for p in set(found) if "/out/" not in p)


def declared():
    names, plain = {}, {}
    for path in texts("crates/*/specs/**/*.antt", "crates/*/proofs/**/*.antt"):
        for line in open(path, encoding="utf-8"):
            m = DECLARED.match(line)
            if not m or MADE.search(line[m.end() :]):
                continue
            name = m[3]
            if name[0].islower() and snake(name) != name:
                names.setdefault(name, path)
            else:
                plain.setdefault(name, path)
    return names, plain


def libraries(text):
    """The names that a file imports from a library of the kit."""
    found = set()
    own = re.compile(r"Rattle\.(?:" + "|".join(re.escape(p.split("/")[1]) for p in texts("crates/*")) + r")(?:\.|$)")
    for path, items, alias in USE.findall(text):
        if own.match(path):
            continue
        for item in items.split(","):
            found.add(item.split(" as ")[-1].strip())
        if not items:
            found.add(path.split(".")[-1])
    return found


def turned(text, names, keep, dotted):
    def word(m):
        name = m[0]
        if name in keep or name not in names:
            return name
        if m.start() and text[m.start() - 1] == "." and not dotted(text, m.start(), name):
            return name
        return snake(name)

    return WORD.sub(word, text)


def respelled(path, text, names):
    """The names that turn in a file: what port.py had respelled turns in specs/ alone and where a file imports it."""
    if "/specs/" in path:
        return names
    imported = {w for _, items, _ in USE.findall(text) for w in re.split(r"[,\s]+", items)}
    return {n: p for n, p in names.items() if n != in_snake_case(n) or n in imported}


def antt(path, text, names):
    names = respelled(path, text, names)
    keep = libraries(text)
    text = text.replace("BurstInTable.so-far", "BurstInTable.so_far")
    if path.endswith("theorems/specs/Table.antt"):
        text = text.replace("  so-far :", "  so_far :")
    in_proof = re.search(r"/proofs/[^/]+/", path) is not None
    # the names that Rattle makes of a function's goals keep their dashes
    def dotted(code, at, _name):
        return not in_proof or not re.search(r"(?<![^\s(])(?:tie|goal)\.$", code[:at])

    out = []
    for line in text.splitlines(keepends=True):
        code, comment = line, ""
        m = re.search(r"(?:^|\s)--(?= |$)", line)
        if m:
            code, comment = line[: m.start()], line[m.start() :]
        out.append(turned(code, names, keep, dotted))
        out.append(SPAN.sub(lambda s: s[1] + turned(s[2], names, keep, lambda *_: True) + s[1], comment))
    return "".join(out)


def rust(text, names):
    names = {n: p for n, p in names.items() if n != in_snake_case(n)}
    keep = libraries(text)
    out = []
    for line in text.splitlines(keepends=True):
        code, comment = line, ""
        m = re.search(r"//", line)
        if m:
            code, comment = line[: m.start()], line[m.start() :]
        out.append(turned(code, names, keep, lambda *_: True))
        out.append(SPAN.sub(lambda s: s[1] + turned(s[2], names, keep, lambda *_: True) + s[1], comment))
    return "".join(out)


def apart(names, plain):
    """Gives each name that would fall together with a definition its own spelling."""
    camel = {in_snake_case(n): n for n in names if re.search(r"[a-z0-9][A-Z]", n)}
    dashed = {}
    for name in sorted(names):
        to = in_snake_case(name)
        if name in camel.values():
            if to in plain:  # a lemma that port.py has respelled already
                LEMMAS[to] = to + "_lem"
                names[to] = plain[to]
        elif to in camel or to in plain or to in dashed:
            LEMMAS[name] = to + "_lem"
            if to + "_lem" in plain:
                raise SystemExit(f"{to}_lem is declared")
        dashed[to] = name
    if len(camel) != sum(bool(re.search(r"[a-z0-9][A-Z]", n)) for n in names):
        raise SystemExit("two definitions fall together")


def main(argv):
    names, plain = declared()
    apart(names, plain)
    for name, to in sorted(LEMMAS.items()):
        print(f"falls together: {name}, now {to}")
    print(f"{len(names)} names")
    if "--check" in argv:
        return 0
    for path in texts("crates/*/specs/**/*.antt", "crates/*/proofs/**/*.antt", "crates/*/src/**/*.rt", "crates/*/must-fail/*.edit", "README.md", "docs/**/*.md"):
        with open(path, encoding="utf-8") as f:
            text = f.read()
        if path.endswith(".antt"):
            to = antt(path, text, names)
        elif path.endswith(".rt"):
            to = rust(text, names)
        elif path.endswith(".edit"):
            to = turned(text, {n: p for n, p in names.items() if n != in_snake_case(n)}, set(), lambda *_: True)
        else:
            to = SPAN.sub(lambda s: s[1] + turned(s[2], {n: p for n, p in names.items() if n != in_snake_case(n)}, set(), lambda *_: True) + s[1], text)
        if to != text:
            with open(path, "w", encoding="utf-8") as f:
                f.write(to)
    return 0


if __name__ == "__main__":
    raise SystemExit(main(sys.argv[1:]))
