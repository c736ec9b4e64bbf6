#!/usr/bin/env python3
"""Names what the lemma files and the code of an old checkout have and a new one hasn't: python3 tools/gone.py OLD NEW.
Laws: what stands with its type in a file directly in a crate's proofs/; functions: all of src/. A name counts as there if its crate has it, however its words are joined."""
import glob
import os
import re
import sys


def laws(root):
    found = {}
    for path in sorted(glob.glob(f"{root}/crates/*/proofs/*.antt")):
        crate = path.split("/")[-3]
        for m in re.finditer(r"(?m)^ {0,4}(?:abbrev |unfoldable )?(?:pub )?([^\s:(){},;=]+) : \S", open(path).read()):
            if m.group(1) not in ("use", "where", "let", "in"):
                found.setdefault((crate, m.group(1).replace("-", "_")), (m.group(1), os.path.basename(path)))
    return found


def functions(root):
    found = {}
    for path in sorted(glob.glob(f"{root}/crates/*/src/**/*.rt", recursive=True)):
        crate = path[len(root):].split("/")[2]
        for m in re.finditer(r"(?m)^ *(pub )?(?:extern \"C\" )?fn (\w+)", open(path).read()):
            found.setdefault((crate, m.group(2)), bool(m.group(1)))
    return found


old, new = sys.argv[1].rstrip("/"), sys.argv[2].rstrip("/")
for title, of in (("laws", laws), ("functions", functions)):
    before, after = of(old), of(new)
    gone = {}
    for key, what in before.items():
        if key not in after:
            gone.setdefault(key[0], []).append(what[0] if title == "laws" else key[1] + (" (public)" if what else ""))
    print(f"{title} that are gone: {sum(len(v) for v in gone.values())} of {len(before)}")
    for crate in sorted(gone):
        print(f"- {crate}: " + ", ".join(f"`{n}`" for n in gone[crate]))
