#!/usr/bin/env python3
"""Spells the names that this repository's specs/ and proofs/ declare as the kit's CONTRACT_STYLE.md does.

usage: tools/spell_names.py [--table]    at the top of the repository; once, after port.py

Words are in snake case: `commandVerdict` becomes `command_verdict`, `above-is` `above_is`. A dash stays where it joins
two names of functions, as in `length-avps_from`. Types and modules keep their capitals. Functions of src/, exported
names, strings, inputs and outputs keep theirs. A name whose new spelling would meet another gets `_lem` or stays, and is
shown. --table prints the table, old and new, and writes nothing. The crate `log` becomes `walk_log`, since the kit has
a library of that name.
"""
import os
import re
import sys

WORD = re.compile(r'[^\s(){}.;,@"«»]+')
DECLARED = re.compile(
    r"(?m)^ *((?:(?:pub|abbrev|unfoldable|pattern|data|record|ruleset) +)*)([^\s(){}.;,@\"«»:]+)(?: +\{[^{}\n]*\})* :(?=\s)"
)
CLAUSE = re.compile(r"\b(?:requires|ensures)\*?\s*(?:\w+\s*)?\{|\bghost\s+(?:\w+\s*:\s*)?\{")
GHOST_USE = re.compile(r"ghost\s+use\b[^;]*;")
SPAN = re.compile(r"`[^`\n]+`")
# Lemmas that port.py spelled as a definition is spelled now.
LEMMAS = set(
    "cut_line first_found found_below is_cut last_line left_by list_at no_number none_yet plain_at".split()
)
# Names of the kit's library that a dash joins to ours.
LIBRARY = set(
    "length take drop map set get_or append min max be be_octets filter sum nat_eq nat_lt cond".split()
)


def files(root):
    for top in ("crates",):
        for folder, dirs, names in os.walk(os.path.join(root, top)):
            dirs[:] = sorted(d for d in dirs if d != "out")
            for n in sorted(names):
                yield os.path.join(folder, n)


def is_proof_of_function(path):
    return os.path.basename(path) == "Proof.antt"


def snake(word):
    word = word.replace("3GPP", "_3gpp")
    word = re.sub(r"(?<=[a-z0-9])[A-Z]|(?<=[A-Z])[A-Z](?=[a-z])", lambda m: "_" + m[0].lower(), word)
    return word.replace("__", "_")


def tokens(text):
    return set(WORD.findall(text))


def code_of(path, text):
    """The part of a file in which names of specs/ and proofs/ stand."""
    if path.endswith(".antt"):
        return text
    parts = [m[0] for m in GHOST_USE.finditer(text)]
    parts += [text[a:b] for a, b in clauses(text)]
    return "\n".join(parts)


def clauses(text):
    for m in CLAUSE.finditer(text):
        depth, at = 1, m.end()
        while depth and at < len(text):
            depth += {"{": 1, "}": -1}.get(text[at], 0)
            at += 1
        yield m.start(), at


def table(root):
    texts = {}
    for p in files(root):
        if p.endswith((".antt", ".rt")):
            with open(p, encoding="utf-8") as f:
                texts[p] = f.read()
    declared = set()
    for p, t in texts.items():
        if p.endswith(".antt") and not is_proof_of_function(p):
            for m in DECLARED.finditer(t):
                declared.add(m[2])
        else:
            for m in GHOST_USE.finditer(t):
                declared.update(re.findall(r"\bas (\w+)", m[0]))
    rows = {}
    for name in declared:
        if "◌" in name or not re.fullmatch(r"[A-Za-zμ0-9_'-]+", name):
            continue
        parts = [snake(w) if not w[:1].isupper() else w for w in name.split("-")]
        new = parts[0]
        for before, w in zip(parts, parts[1:]):
            joins = len(parts) == 2 and (before in LIBRARY or w in LIBRARY)
            new += ("-" if joins else "_") + w
        if new != name:
            rows[name] = new
    # Two names that would fall together, and a new name that a file already has.
    said = []
    words = {p: tokens(code_of(p, t)) for p, t in texts.items()}
    by_new = {}
    for old, new in rows.items():
        by_new.setdefault(new, set()).add(old)
    for new, olds in sorted(by_new.items()):
        met = {p for p, ws in words.items() if new in ws and olds & ws and not is_proof_of_function(p)}
        if len(olds) > 1 or new in declared:
            lemmas = {o for o in olds if "-" in o}
            for o in sorted(olds):
                if o in lemmas:
                    said.append(f"{o}: {new}_lem, since {new} is another's ({', '.join(sorted(olds | {new}))})")
                    rows[o] = new + "_lem"
            if new in declared and olds - lemmas and new in LEMMAS:
                said.append(f"{new}: {new}_lem, since {new} is another's ({', '.join(sorted(olds))})")
                rows[new] = new + "_lem"
            elif len(lemmas) > 1 or (len(olds) > 1 and not lemmas) or (new in declared and olds - lemmas):
                said.append(f"LOOK {new}: {sorted(olds)} {'declared' if new in declared else ''}")
        elif met:
            said.append(f"LOOK {new} stands in {sorted(met)[:3]} beside {sorted(olds)}")
    return rows, said, texts


def turn(text, rows):
    def one(m):
        behind_dot = text[m.start() - 1 : m.start()] == "."
        if behind_dot and m[0] in LEMMAS:
            return m[0]
        return rows.get(m[0], m[0])

    return WORD.sub(one, text)


USE = re.compile(r"\buse +([^\s;{]+)\{([^}]*)\}")


def lent(text, crates):
    """The names that a file imports from the kit's library: they stay there."""
    names = set()
    for m in USE.finditer(text):
        steps = m[1].split(".")
        if steps[0] == "Rattle" and len(steps) > 1 and steps[1] in crates:
            continue
        names.update(w.split(" as ")[0].strip() for w in m[2].split(","))
    return names


def turn_path(path, text, rows, crates):
    stay = lent(text, crates)
    rows = {old: new for old, new in rows.items() if old not in stay}
    if path.endswith(".antt"):
        return turn(text, rows)
    # The clauses, the imports, and a comment's code spans.
    out, at = [], 0
    places = sorted([(m.start(), m.end()) for m in GHOST_USE.finditer(text)] + list(clauses(text)))
    for a, b in places:
        if a < at:
            continue
        out += [text[at:a], turn(text[a:b], rows)]
        at = b
    out.append(text[at:])
    text = "".join(out)
    lines = []
    for line in text.split("\n"):
        if line.lstrip().startswith("//"):
            line = SPAN.sub(lambda m: turn_span(m[0], rows), line)
        lines.append(line)
    return "\n".join(lines)


def turn_span(span, rows):
    return "`" + turn(span[1:-1], rows) + "`"


def turn_page(text, rows):
    return SPAN.sub(lambda m: turn_span(m[0], rows), text)


def main():
    root = os.getcwd()
    rows, said, texts = table(root)
    for line in said:
        print(line, file=sys.stderr)
    if "--table" in sys.argv:
        for old, new in sorted(rows.items()):
            print(old + "\t" + new)
        return
    crates = set(os.listdir(os.path.join(root, "crates")))
    for p, t in texts.items():
        new = turn_path(p, t, rows, crates)
        new = re.sub(r"\blog::", "walk_log::", new) if p.endswith(".rt") else new
        new = new.replace("Rattle.log.", "Rattle.walk_log.")
        if new != t:
            with open(p, "w", encoding="utf-8") as f:
                f.write(new)
    pages = [os.path.join(root, n) for n in ("README.md", "CONTRIBUTING.md", "CHANGELOG.md")]
    for folder, _, names in os.walk(os.path.join(root, "docs")):
        pages += [os.path.join(folder, n) for n in sorted(names) if n.endswith(".md") and n not in ("PORT.md",)]
    for p in pages:
        with open(p, encoding="utf-8") as f:
            t = f.read()
        new = turn_page(t, rows)
        if new != t:
            with open(p, "w", encoding="utf-8") as f:
                f.write(new)
    if os.path.isdir(os.path.join(root, "crates", "log")):
        os.rename(os.path.join(root, "crates", "log"), os.path.join(root, "crates", "walk_log"))
        with open(os.path.join(root, "crates.txt"), encoding="utf-8") as f:
            t = f.read()
        with open(os.path.join(root, "crates.txt"), "w", encoding="utf-8") as f:
            f.write(re.sub(r"\blog\b", "walk_log", t))


main()
