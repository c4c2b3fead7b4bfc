#!/usr/bin/env python3
"""Counts places of docs/DESIGN-PASS.md in crates/*/src and crates/*/proofs.

usage: tools/places.py MODE [GROUP..]    at the top of the repository

shapes    functions of one shape of parameters and body but for names, numbers and integer types (twins)
promises  functions whose `ensures` say the same but for names (twins, by another way)
facts     conjuncts of `requires` that stand in three or more functions
groups    functions that take all parameters of a group, as `out+at log+count`: those in three or more
small     functions without a loop and without a call (equality, order, conversion by hand)
arrays    functions by the type of their array parameters
answers   answers in proofs/, those of one tactic, and bodies that stand more than once
"""
import collections
import glob
import re
import sys

KEPT = "if else return let mut while for in match true false bool as continue fn self".split()
CLAUSES = ("result", "ensures")


def functions():
    """Each function of src/: its place and name, its parameters, its head with the clauses, and its body."""
    for path in sorted(glob.glob("crates/*/src/**/*.rt", recursive=True)):
        lines = [line.split("//")[0].rstrip() for line in open(path, encoding="utf-8")]
        at = 0
        while at < len(lines):
            found = re.match(r'( *)(?:pub(?:\(crate\))? )?(?:extern "C" )?fn (\w+)', lines[at])
            if not found:
                at += 1
                continue
            indent, name, first = found[1], found[2], at
            clause = re.compile(r" +(requires|ensures)")
            while lines[at] != indent + "{" and (not lines[at].endswith("{") or clause.match(lines[at])):
                at += 1
            body = at + 1
            while lines[at] != indent + "}":
                at += 1
            head = " ".join(" ".join(lines[first:body]).removesuffix("{").split())
            signature = re.split(r" (?:requires|ensures)\b", head)[0]
            inside = re.search(r"\((.*)\)", signature[signature.index(name) :])[1]
            parameters = [p.strip(" ,") for p in re.split(r", (?![^\[]*\])", inside) if p.strip(" ,")]
            where = path[7:-3].replace("/src/", "/") + f":{first + 1} {name}"
            yield where, name, parameters, head, " ".join(" ".join(lines[body:at]).split())
            at += 1


def renamed(text, kept=KEPT):
    """A text with its names numbered in their order, and its numbers, texts and integer types left out."""
    numbered = {}
    text = re.sub(r"b'.'", "0", re.sub(r'b?"(\\.|[^"])*"', "text", re.sub(r"(\w+::)+", "", text)))

    def one(found):
        word = found[0]
        if word in kept:
            return word
        if re.fullmatch(r"[iu](8|16|32|64|size)", word):
            return "int"
        return "0" if word[0].isdigit() else numbered.setdefault(word, f"v{len(numbered)}")

    return re.sub(r"[\w.«»]+" if kept is not KEPT else r"\w+", one, text)


def conjuncts(head):
    for clause in re.findall(r"requires (?:\w+ )?\{ (.*?) \}(?= requires| ensures|$)", head):
        for part in clause.split(" × "):
            yield part[1:-1] if part[0] == "(" and part[-1] == ")" else part


def keys(mode, groups, name, parameters, head, body):
    """What a function is listed under."""
    if mode == "shapes":
        yield renamed(" | ".join(parameters) + " { " + body + " }")
    elif mode == "promises" and " ensures " in head:
        promise = re.sub(r"\b[\w.]*" + name + r"\w*", "SELF", head.split(" ensures ", 1)[1])
        yield renamed(promise, KEPT + list(CLAUSES) + ["SELF"])
    elif mode == "facts":
        yield from conjuncts(head)
    elif mode == "small" and not re.search(r"\b(while|for)\b|\b(?!if\b|match\b|return\b)[a-z_]\w*\(", body):
        yield "no call, no loop"
    elif mode == "arrays":
        for parameter in parameters:
            found = re.search(r"\[\w+(; [\w:]+)?\]", parameter)
            if found:
                yield found[0]
    elif mode == "groups":
        own = {parameter.split(":")[0] for parameter in parameters}
        yield from (group for group in groups if set(group.split("+")) <= own)


def list_functions(mode, groups):
    listed = collections.defaultdict(list)
    for where, name, parameters, head, body in functions():
        for key in keys(mode, groups, name, parameters, head, body):
            listed[key].append(where)
    least = 3 if mode in ("facts", "groups") else 2
    rows = [(places, key) for key, places in listed.items() if len(set(places)) >= least]
    for places, key in sorted(rows, key=lambda row: (-len(row[0]), row[1])):
        print(len(places), key[:90], "|", "; ".join(places))
    print(len(rows), "groups,", sum(len(places) for places, _ in rows), "places")


def list_answers():
    crates, bodies, kinds = collections.Counter(), collections.defaultdict(list), collections.Counter()
    answer = re.compile(r"^pub (\S+) : goal\.\S+\n\1 ?[^\n=]*=(.*(?:\n .*)*)", re.M)
    for path in sorted(glob.glob("crates/*/proofs/**/Answers.antt", recursive=True)):
        lines = open(path, encoding="utf-8").read().split("\n")
        text = "\n".join(line for line in lines if not line.startswith(("--", "unfolding")))
        for found in answer.finditer(text):
            body = " ".join(found[2].split())
            crates[path.split("/")[1]] += 1
            bodies[body].append(path[7:].replace("/proofs/", ":")[:-13] + " " + found[1])
            alone = re.match(r"(let a = c.args in )?(refl$|search |omega |grind |cc$|simp )", body)
            short = "let " not in body and len(body) <= 60
            kinds["one tactic" if alone else "one term of at most 60 letters" if short else "longer"] += 1
    print(sum(crates.values()), "answers:", dict(crates))
    print(dict(kinds))
    repeated = [places for places in bodies.values() if len(places) > 1]
    print(len(repeated), "bodies stand", sum(map(len, repeated)), "times")
    for body, places in sorted(bodies.items(), key=lambda row: -len(row[1])):
        if len(places) > 1:
            print(len(places), body[:90], "|", "; ".join(places))


if __name__ == "__main__":
    if len(sys.argv) < 2:
        sys.exit(__doc__)
    if sys.argv[1] == "answers":
        list_answers()
    else:
        list_functions(sys.argv[1], sys.argv[2:])
