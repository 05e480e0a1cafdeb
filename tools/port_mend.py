#!/usr/bin/env python3
"""Mends in a crate what its check says word for word how to mend: clauses to write, a '_' that is to be written out.

usage: python3 tools/port_mend.py CRATE      at the top of the repository; it checks, mends and checks again, and leaves the last check's words in /tmp/chk-CRATE.log
"""
import os
import re
import subprocess
import sys


def bracket(term):
    term = term.strip()
    return term if re.fullmatch(r"[^\s]+", term) or (term[0] == "(" and term[-1] == ")" and balanced(term)) else f"({term})"


def balanced(term):
    depth = 0
    for k, ch in enumerate(term):
        depth += (ch == "(") - (ch == ")")
        if depth == 0 and k < len(term) - 1:
            return False
    return True


def mend(top, said):
    holes, clauses = {}, {}
    lines = said.splitlines()
    for k, line in enumerate(lines):
        m = re.match(r"^\./(\S+?):(\d+):(\d+): note: `(.*?)` fits `_`", line)
        if m:
            holes.setdefault((m[1], int(m[2]), int(m[3])), m[4])
        m = re.match(r"^\./(\S+?):(\d+):(\d+): error: `(\S+)`: write the clauses?(?: `(.*)`)?", line)
        if m:
            found = [m[5]] if m[5] else []
            for more in lines[k + 1 :]:
                if not more.startswith("  ") or more.startswith("  no clause covers"):
                    if more.startswith("  no clause covers"):
                        continue
                    break
                found.append(more.strip())
            found = [f for f in found if re.match(rf"^{re.escape(m[4])}\s", f)]
            clauses.setdefault((m[1], m[4]), (int(m[2]), found))
        m = re.match(r"^\./(\S+?):(\d+):(\d+): error: `(\S+)`: write argument \d+ \(`.*?`\) out at the call", line)
        if m:
            passes = place = None
            for more in lines[k + 1 : k + 5]:
                p = re.search(r"it passes `(.*?)`, where", more)
                passes = p[1] if p else passes
                p = re.search(r"the `_` at (\d+):(\d+) was given", more)
                place = (int(p[1]), int(p[2])) if p else place
            if passes and place:
                holes.setdefault((m[1], *place), passes)
    done = 0
    texts = {}

    def text(path):
        if path not in texts:
            texts[path] = open(os.path.join(top, path), encoding="utf-8").read().split("\n")
        return texts[path]

    for (path, row, col), term in sorted(holes.items(), reverse=True):
        t = text(path)
        line = t[row - 1]
        if line[col - 1 : col] == "_":
            t[row - 1] = line[: col - 1] + bracket(term) + line[col:]
            done += 1
    for (path, name), (row, found) in sorted(clauses.items(), key=lambda it: (it[0][0], -it[1][0])):
        t = text(path)
        at = row - 1
        indent = re.match(r" *", t[at])[0]
        last = at
        for k in range(at, len(t)):
            if t[k].startswith(indent + name + " ") or (k > at and t[k].startswith(indent + " ")) or (k > at and t[k].startswith(indent + "unfolding")):
                last = k
            elif t[k].strip():
                break
            elif not t[k].strip():
                break
        # a 'where' of the last clause ends the declaration: the new clauses stand before its first clause
        first = next((k for k in range(at, last + 1) if re.match(rf"{indent}{re.escape(name)} (?!:)", t[k])), last + 1)
        where = any(re.match(rf"{indent}\s+where$", t[k]) for k in range(first, last + 1))
        place = first if where else last + 1
        t[place:place] = [indent + f for f in found]
        done += len(found)
    for path, t in texts.items():
        with open(os.path.join(top, path), "w", encoding="utf-8") as f:
            f.write("\n".join(t))
    return done


def main(crate):
    top = os.path.join("crates", crate)
    for _ in range(8):
        r = subprocess.run(["rt", "check"], cwd=top, stdout=subprocess.PIPE, stderr=subprocess.STDOUT, text=True)
        with open(f"/tmp/chk-{crate}.log", "w", encoding="utf-8") as f:
            f.write(r.stdout)
        if re.search(r"(?m)^logic=proved", r.stdout):
            print(f"{crate} is proved")
            return 0
        done = mend(top, r.stdout)
        print(f"{crate}: {done} places mended, {len(re.findall(r'(?m): error: ', r.stdout))} errors were said")
        if not done:
            return 1
    return 1


if __name__ == "__main__":
    raise SystemExit(main(sys.argv[1]))
