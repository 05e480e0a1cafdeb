#!/usr/bin/env python3
"""Moves files of laws from a crate's specs/ to its proofs/, with those of the crate that cite them, and says their paths anew everywhere.

usage: python3 tools/port_laws.py CRATE FILE..     at the top of the repository; FILE without its ending

An edit of a definition counts as refused where what falls stands in proofs/. Statements stay as they are.
"""
import glob
import os
import re
import subprocess
import sys


def main(crate, files):
    specs, proofs = f"crates/{crate}/specs", f"crates/{crate}/proofs"
    moved = set(files)
    while True:
        more = set()
        for path in glob.glob(f"{specs}/*.antt"):
            name = os.path.basename(path)[:-5]
            text = open(path, encoding="utf-8").read()
            if name not in moved and name != "Lib" and any(re.search(rf"Rattle\.{crate}\.specs\.{m}(?![\w'])", text) for m in moved):
                more.add(name)
        if not more:
            break
        moved |= more
    os.makedirs(proofs, exist_ok=True)
    for name in sorted(moved):
        subprocess.run(["git", "mv", f"{specs}/{name}.antt", f"{proofs}/{name}.antt"], check=True)
    lib = open(f"{specs}/Lib.antt", encoding="utf-8").read().splitlines()
    left = [l for l in lib if re.sub(r"^(pub )?mod ", "", l).strip() not in moved]
    open(f"{specs}/Lib.antt", "w", encoding="utf-8").write("\n".join(left) + "\n")
    to = f"{proofs}/Lib.antt"
    have = open(to, encoding="utf-8").read().splitlines() if os.path.exists(to) else []
    have += [f"pub mod {n}" for n in sorted(moved) if f"pub mod {n}" not in have]
    open(to, "w", encoding="utf-8").write("\n".join(have) + "\n")
    names = "|".join(sorted(moved))
    for path in glob.glob("crates/**/*", recursive=True):
        if path.endswith((".antt", ".rt", ".edit")) and "/out/" not in path:
            text = open(path, encoding="utf-8").read()
            new = re.sub(rf"Rattle\.{crate}\.specs\.({names})(?![\w'])", rf"Rattle.{crate}.proofs.\1", text)
            if path.startswith(f"crates/{crate}/must-fail/"):
                new = re.sub(rf"(?m)^file: specs/({names})\.antt$", r"file: proofs/\1.antt", new)
            if new != text:
                open(path, "w", encoding="utf-8").write(new)
    print(f"{crate}: {', '.join(sorted(moved))}")


if __name__ == "__main__":
    main(sys.argv[1], sys.argv[2:])
