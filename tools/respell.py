#!/usr/bin/env python3
"""Brings the repository's own definitions and lemmas to the spelling of today's Rattle: words in snake case, a dash only between two names.

usage: python3 tools/respell.py [--list]      at the top of the repository, once, after port.py; --list prints the renamings and writes nothing

A name that specs/ or a lemma file of proofs/ declares is respelled wherever it stands as a whole word: in .antt files, in the clauses and ghost items of .rt files,
in must-fail edits and in docs. Rust's own names hold neither a dash nor a capital inside a word in lower case, so none of them is met.
A dash stays where both parts are names of definitions, as in length-bytes_of; elsewhere it becomes an underscore.
"""

import collections
import os
import re
import sys

WORD = r"[^\s(){}\[\];,.:`\"]+"
DECLARED = re.compile(r"^\s*(?:(?:abbrev|unfoldable|pub|data|record|ruleset) )*(" + WORD + r") (?:\([^)]*\) |\{[^}]*\} )*:(?!:)")
# words of the library that lemmas are named after
LIBRARY = "length take drop append get_or set sets map filter sum find fold zip reverse insert remove swap count add sub mul div mod min max cons replicate".split()
# names that would fall together with another one, or be hidden by a parameter, and what they become instead
BY_HAND = {
    "byHand": "is_by_hand",
    "ofOther": "is_of_other",
    "imagePlaces": "image_places_of",
    "sectionEnds": "section_ends_of",
    "name_in": "name_in_lem",
    "unitBytes": "bytes_of_unit",
}
# lemmas that port.py has turned, under a name that another one takes: only in these files
IN_FILE = {
    "crates/trim/proofs/Checked.antt": {"falls_of": "falls_of_lem"},
    "crates/srecords/proofs/Theorem.antt": {"has_address": "has_address_lem"},
    "crates/srecord_lines/proofs/Laws.antt": {"has_address": "has_address_lem"},
    "crates/srecords/proofs/Digits.antt": {"with_byte": "with_byte_lem"},
    "crates/pieces/proofs/Laws.antt": {"piece_bytes": "piece_bytes_lem"},
    "crates/entry_create_gap_splits/proofs/Passed.antt": {"room_of": "room_here"},
}


def texts(kinds, below=("crates",)):
    for top in below:
        for folder, dirs, files in os.walk(top):
            dirs[:] = sorted(d for d in dirs if d not in ("out", "target", ".git"))
            for f in sorted(files):
                if f.endswith(kinds):
                    yield os.path.join(folder, f)


def read(p):
    with open(p, encoding="utf-8") as f:
        return f.read()


def snake(word):
    """numberAt to number_at; a word that begins with a capital is a type's name, and stays."""
    if word[:1].isupper():
        return word
    if word == "getD":
        return "get_or"
    return re.sub(r"(?<=[a-z0-9'])([A-Z])", lambda m: "_" + m.group(1).lower(), word)


def declared():
    """Each name that is declared outside the proofs of functions, with whether specs/ has it; and the names of definitions."""
    names, definitions = {}, set(LIBRARY)
    for p in texts((".antt",)):
        by_hand = os.path.basename(p) == "Proof.antt"
        inside = False
        for line in read(p).splitlines():
            if re.match(r"^\s*--", line):
                continue
            m = DECLARED.match(line)
            if not m:
                continue
            name = m.group(1)
            if by_hand:
                if re.search(r"[a-z0-9][A-Z]", name) and "-" not in name and not name[0].isupper():
                    names.setdefault(name, False)
                continue
            names[name] = names.get(name, False) or "/specs/" in p
            if "/specs/" in p and not line.startswith(" ") and "-" not in name:
                definitions.add(snake(name))
            if "/specs/" in p and re.match(r"^(abbrev |unfoldable )?pub (data |record )?\S+", line) and "-" not in name:
                definitions.add(snake(name))
    return names, definitions


def respelled(name, definitions):
    if name in BY_HAND:
        return BY_HAND[name]
    parts = [snake(w) for w in name.split("-")]
    out = parts[0]
    for left, right in zip(parts, parts[1:]):
        out += ("-" if left in definitions and right in definitions else "_") + right
    return out


def table():
    names, definitions = declared()
    to = {n: r for n, r in BY_HAND.items() if n in names}
    for n in names:
        if "-" not in n and not re.search(r"[a-z0-9'][A-Z]", n):
            continue
        if n.startswith("-") or n.endswith("-") or "◌" in n:
            continue
        r = respelled(n, definitions)
        if r != n:
            to[n] = r
    # a Rust name keeps its spelling in proofs, where it once had dashes
    for r in rust_names():
        to.setdefault(r.replace("_", "-"), r)
    # a lemma that would have its function's name
    for (r, ws), _ in together(to, names).items():
        for w in ws:
            if "-" in w and not names.get(w, True):
                to[w] = r + "_lem"
    return to, names


def rust_names():
    for p in texts((".rt",)):
        for w in re.findall(r"(?<![\w·.])[a-z][a-z0-9]*(?:_[a-z0-9]+)+(?![\w·])", re.sub(r"(?m)(//.*|^ *(requires|ensures|ghost).*)$", "", read(p))):
            yield w


TOKEN = re.compile(WORD)


def free(text):
    """The words of a file that stand for themselves, and not as a field or as part of a path."""
    for m in TOKEN.finditer(text):
        if text[m.start() - 1 : m.start()] != "." and text[m.end() : m.end() + 1] != ".":
            yield m.group(0)


def scopes(p):
    """What shares names: an .antt file; in an .rt file a function's parameters with its clauses."""
    text = re.sub(r"(?m)(--|//).*$", "", read(p))
    if p.endswith(".antt"):
        yield set(free(text))
        return
    for m in re.finditer(r"(?ms)^ *(?:pub )?(?:unsafe )?(?:extern \"C\" )?fn \w+(?:<[^>]*>)?\((.*?)\)[^{;]*?$(.*?)^ *\{", text):
        yield set(re.findall(r"(\w+):", m.group(1))) | set(free(m.group(2)))


def together(to, names):
    """Names that would fall together in a file, or be hidden there by a parameter."""
    found = collections.defaultdict(set)
    for p in texts((".antt", ".rt")):
        for words in scopes(p):
            after = collections.defaultdict(set)
            for w in words:
                after[to.get(w, w)].add(w)
            for r, ws in after.items():
                if len(ws) > 1:
                    found[(r, tuple(sorted(ws)))].add(p)
    return found


def turn_antt(text, to):
    def line(l):
        m = re.match(r"(?s)^(\s*)--(.*)$", l)
        if m:
            return m.group(1) + "--" + comment(m.group(2), to)
        return TOKEN.sub(lambda t: to.get(t.group(0), t.group(0)), l)

    return "".join(line(l) for l in text.splitlines(keepends=True))


def comment(text, to):
    text = re.sub(r"`([^`]*)`", lambda m: "`" + TOKEN.sub(lambda t: to.get(t.group(0), t.group(0)), m.group(1)) + "`", text)
    return re.sub(r"(?<![\w`-])[a-z]+[0-9]*[A-Z]\w*(?![\w-])", lambda m: to.get(m.group(0), m.group(0)), text)


def turn_rt(text, to):
    def line(l):
        m = re.match(r"(?s)^(\s*)//(.*)$", l)
        if m:
            return m.group(1) + "//" + comment(m.group(2), to)
        return TOKEN.sub(lambda t: to.get(t.group(0), t.group(0)), l)

    return "".join(line(l) for l in text.splitlines(keepends=True))


def main(argv):
    to, names = table()
    fall = together(to, names)
    if "--list" in argv:
        for n, r in sorted(to.items()):
            print(n, r)
    for (r, ws), ps in sorted(fall.items()):
        print("together:", r, "<-", " ".join(ws), "in", len(ps), sorted(ps)[:3], file=sys.stderr)
    if "--list" in argv:
        return 0
    n = 0
    for p in texts((".antt", ".rt", ".edit", ".md"), ("crates", "docs")):
        before = read(p)
        if p.endswith(".antt"):
            after = turn_antt(before, IN_FILE[p] | to if p in IN_FILE else to)
        elif p.endswith(".rt"):
            after = turn_rt(before, to)
        elif p.endswith(".edit"):
            after = "".join(TOKEN.sub(lambda t: to.get(t.group(0), t.group(0)), l) if re.match(r"(old|new):", l) else l for l in before.splitlines(keepends=True))
        else:
            after = comment(before, to)
        if after != before:
            with open(p, "w", encoding="utf-8") as f:
                f.write(after)
            n += 1
    print(f"respell: {len(to)} names, {n} files")
    return 0


if __name__ == "__main__":
    raise SystemExit(main(sys.argv[1:]))
