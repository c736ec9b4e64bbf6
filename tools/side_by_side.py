#!/usr/bin/env python3
"""side_by_side.py PORT OLD NEW PAGE: writes the lists of docs/DESIGN-PASS.md (PAGE) anew, from 'Public functions that are gone' to its end: what differs between
the trees OLD and NEW in public functions, their signatures and clauses, ghost fields and definitions. PORT is the kit's folder with contracts.py, which reads the
trees by their text."""
import collections
import os
import re
import sys

sys.path.insert(0, sys.argv[1])
import contracts  # noqa: E402


def public(functions):
    """By (crate, name), in the order of the sources: each public function with the type that it belongs to."""
    found = collections.OrderedDict()
    for (crate, _, place, name), items in sorted(functions.items()):
        for item in items:
            if item["pub"] and not item["test"] and not item["in tests"]:
                found.setdefault((crate, name), []).append((place, item))
    return found


def pairs(old, new):
    """Each function of both trees: that of the same type, else the first of its name."""
    for key, items in old.items():
        for place, item in items:
            if key in new:
                yield key, item, next((y for p, y in new[key] if p == place), new[key][0][1])


def functions(old, new):
    yield "### Public functions that are gone\n"
    yield from (f"- `{c}::{n}`" for c, n in sorted(old) if (c, n) not in new)
    yield "\n### Public functions that are new\n"
    yield from (f"- `{c}::{n}`" for c, n in sorted(new) if (c, n) not in old)
    yield "\n### Public signatures\n\n| Function | Old | New |\n|---|---|---|"
    for (crate, name), a, b in pairs(old, new):
        if a["sign"] != b["sign"]:
            before, after = (x["sign"].replace("|", "\\|") for x in (a, b))
            yield f"| `{crate}::{name}` | `{before}` | `{after}` |"


def clauses(old, new):
    yield "\n### Clauses of public functions\n"
    for (crate, name), a, b in pairs(old, new):
        lines = []
        for kind in ("requires", "ensures"):
            if [c[2] for c in a[kind]] != [c[2] for c in b[kind]]:
                for when, item in (("old", a), ("new", b)):
                    lines += [f"- {when} {kind}{' ' + c[1] if c[1] else ''}: `{c[2]}`" for c in item[kind]]
        if lines:
            yield f"**{crate}::{name}**\n"
            yield from lines
            yield ""


def ghost_fields(root):
    for folder, _, names in sorted(os.walk(os.path.join(root, "crates"))):
        crate = os.path.relpath(folder, os.path.join(root, "crates")).split(os.sep)[0]
        if f"{os.sep}{crate}{os.sep}src" not in folder:
            continue
        for name in sorted(n for n in names if n.endswith(".rt")):
            raw = open(os.path.join(folder, name)).read()
            text = contracts.blank(raw)
            for struct in re.finditer(r"pub struct (\w+)", text):
                body = re.compile(r"[{;(]").search(text, struct.end()).start()
                if text[body] == "{":
                    for field in re.finditer(r"pub ghost (\w+)\s*:\s*\{", text[body : contracts.closing(text, body)]):
                        at = body + field.end() - 1
                        yield crate, struct[1], field[1], contracts.squeeze(raw[at + 1 : contracts.closing(text, at) - 1])


def definitions(old, new):
    gone, changed, _ = contracts.beside(old, new)
    yield "\n### Definitions\n\n#### Gone\n"
    yield from (f"- {crate}: `{name}`" for crate, name in gone)
    yield "\n#### Changed\n"
    for crate, name, before, after in changed:
        yield f"**{crate}: {name}**\n"
        yield from (f"- old: `{x}`" for x in before)
        yield from (f"- new: `{x}`" for x in after)
        yield ""


def main(old, new, page):
    _, old_functions, _, old_specs, _, _ = contracts.read(old)
    _, new_functions, _, new_specs, _, _ = contracts.read(new)
    a, b = public(old_functions), public(new_functions)
    text = open(page).read()
    invariants = text[text.index("### Type invariants") :]
    lines = [*functions(a, b), *clauses(a, b)]
    # the words above the list of ghost fields are the page's own
    lines.append(invariants[: invariants.index("\n\n- `")] + "\n")
    lines += [f"- `{crate}::{struct}`, {name}: `{fact}`" for crate, struct, name, fact in ghost_fields(new)]
    lines += definitions(old_specs, new_specs)
    with open(page, "w") as out:
        out.write(text[: text.index("### Public functions that are gone")] + "\n".join(lines).rstrip("\n") + "\n")


main(*sys.argv[2:5])
