#!/usr/bin/env python3
"""Spells the repository's own definitions, lemmas and fields in snake case: anyBelow as any_below, any-out as any_out.

usage: python3 tools/respell.py [--check]      at the top of the repository

A name turns if a file of specs/ or proofs/ declares it and it has a dash or a capital behind a small letter. Types and
modules keep their capitals. The labels of proofs that Rattle names, those at a type tie.X or goal.X, keep their spelling,
as do functions of src/, exported C names, strings, inputs and outputs. Names turn in the code of .antt files, in clauses and
ghost items of .rt files, in must-fail edits, and in the code spans of pages; in a comment a name with a dash turns only
where the code of the same file has it. Names that would fall together are listed and stop the run.
"""
import collections
import os
import re
import sys

WORD = r"[^\s(){}.;,@\"«»\[\]]+"
DECLARED = re.compile(rf"(?m)^ *((?:(?:abbrev|unfoldable|pub|record|data|ruleset) )*)({WORD})((?: *\{{[^{{}}\n]*\}}| *\([^()\n]*\))*) :\s+(\S*)")
LABEL = re.compile(r"(?:tie|goal)\.")
KEPT_IN_PROSE = {
    "one-way", "two-way", "carry-on", "carried-on", "tie-break", "breadth-first", "depth-first", "p-th", "j-th", "well-formedness",
}
# Where two names would fall together, the definition has the plain name. A lemma about it gets _lem, or keeps the dash
# behind the definition's name; these fields are named by hand.
EXTRA = {
    "largest-kept": "keeps_largest",
    "smallest-kept": "keeps_smallest",
    "largest-after": "after_largest",
    "smallest-after": "after_smallest",
    "Reached-by": "ReachedBy",
    "Crossed-same": "CrossedSame",
    "Named-by": "NamedBy",
    "lexBfs": "lex_bfs",
    "lexDfs": "lex_dfs",
    "atA": "at_a",
    "atC": "at_c",
    "inF": "in_f",
    "ofB": "of_b",
    "ofC": "of_c",
}
# Names that are in snake case already and would meet a definition: the beginning of a path, and the name.
MET = [
    ("crates/edge_lines/proofs/", "digit_value"),
    ("crates/edge_lines/proofs/", "second_digits"),
    ("crates/conversion/proofs/", "rows_made"),
    ("crates/sheet/proofs/Written.antt", "place_read"),
    ("crates/searches/proofs/SameWide.antt", "one_way"),
]


def in_snake_case(name):
    if name[0].isupper():
        return name
    words = re.sub(r"(?<=[a-z0-9])[A-Z]", lambda m: "_" + m[0].lower(), name)
    return words.replace("-", "_")


def uncommented(text):
    return re.sub(r"(?<![^\s(){}.;,@\"«»])--[^\n]*", "", text)


def files(root, ends):
    for folder, dirs, names in os.walk(root):
        dirs[:] = sorted(d for d in dirs if d not in ("out", ".git", "target"))
        for n in sorted(names):
            if n.endswith(ends):
                yield os.path.join(folder, n)


def is_proof_of_a_function(path):
    return os.path.basename(path) in ("Proof.antt", "Answers.antt", "Invariants.antt") and path.split("/proofs/")[1].count("/") > 0


def declared():
    names, fields, labels = set(), set(), set()
    for path in files("crates", ".antt"):
        with open(path, encoding="utf-8") as f:
            text = uncommented(f.read())
        for m in DECLARED.finditer(text):
            words, name, _, kind = m.groups()
            if LABEL.match(kind):
                labels.add(name)
                continue
            if m[0].startswith(" "):
                fields.add(name)
            names.add(name)
    return names, fields, labels


def main():
    check = "--check" in sys.argv
    names, fields, labels = declared()
    table = {}
    names |= set(EXTRA)
    for n in names:
        if not re.match(r"[A-Za-z]", n):
            continue
        new = EXTRA.get(n, in_snake_case(n))
        if new != n:
            table[n] = new
    by_new = collections.defaultdict(set)
    for n, new in table.items():
        by_new[new].add(n)
    for n in names:
        if n in by_new:
            by_new[n].add(n)
    for new, olds in by_new.items():
        if len(olds) > 1:
            for n in olds:
                if "-" in n and n not in EXTRA:
                    table[n] = "-".join(in_snake_case(x) for x in n.split("-")) if re.search("[a-z0-9][A-Z]", n) else new + "_lem"
    by_new = collections.defaultdict(set)
    for n, new in table.items():
        by_new[new].add(n)
    for n in names - {name for _, name in MET} - {"stops_at"}:
        if n not in table and n in by_new:
            by_new[n].add(n)
    fallen = {new: olds for new, olds in by_new.items() if len(olds) > 1}
    for new, olds in sorted(fallen.items()):
        print("falls together:", new, sorted(olds))

    code_word = re.compile(rf"(\.?)({WORD})")

    def turn_code(text, in_function_proof):
        def one(m):
            dot, word = m[1], m[2]
            if word not in table:
                return m[0]
            if in_function_proof and dot and word not in fields:
                return m[0]
            if in_function_proof and word in labels and word not in names:
                return m[0]
            return dot + table[word]
        return code_word.sub(one, text)

    def turn_comment(text, here):
        def one(m):
            word = m[2]
            if word not in table:
                return m[0]
            if "-" in word and (word not in here or word in KEPT_IN_PROSE):
                return m[0]
            return m[1] + table[word]
        return code_word.sub(one, text)

    met = collections.Counter()

    def antt(text, path):
        out, at = [], 0
        here = set(m[2] for m in code_word.finditer(uncommented(text)))
        fp = is_proof_of_a_function(path)
        for m in re.finditer(r"(?<![^\s(){}.;,@\"«»])--[^\n]*|\"[^\"\n]*\"", text):
            out.append(turn_code(text[at:m.start()], fp))
            out.append(m[0] if m[0][0] == '"' else turn_comment(m[0], here))
            at = m.end()
        out.append(turn_code(text[at:], fp))
        # names that meet another in this file
        for w in here:
            if w in table and table[w] in here:
                met[(table[w], w, path)] += 1
        return "".join(out)

    def rt(text, path):
        out, at = [], 0
        here = set(m[2] for m in code_word.finditer(re.sub(r"//[^\n]*", "", text)))
        for m in re.finditer(r"//[^\n]*|b?\"(?:\\.|[^\"\\\n])*\"", text):
            out.append(turn_code(text[at:m.start()], False))
            out.append(turn_comment(m[0], here) if m[0].startswith("//") else m[0])
            at = m.end()
        out.append(turn_code(text[at:], False))
        for w in here:
            if w in table and table[w] in here:
                met[(table[w], w, path)] += 1
        return "".join(out)

    def edit(text, path):
        lines = []
        for line in text.split("\n"):
            if line.startswith(("old:", "new:")):
                line = turn_code(line, False)
            lines.append(line)
        return "\n".join(lines)

    def page(text, path):
        return re.sub(r"`[^`\n]+`", lambda m: code_word.sub(lambda k: k[1] + table.get(k[2], k[2]), m[0]), text)

    changed = 0
    for ends, turn, roots in ((".antt", antt, ["crates"]), (".rt", rt, ["crates"]), (".edit", edit, ["crates"]), (".md", page, ["docs", "."])):
        for root in roots:
            for path in files(root, ends):
                if root == "." and os.path.dirname(path) != ".":
                    continue
                if os.path.basename(path).startswith("PORT"):
                    continue
                with open(path, encoding="utf-8") as f:
                    text = f.read()
                before = text
                for start, name in MET:
                    if path.startswith(start):
                        text = re.sub(rf"(?<![\w-]){name}(?![\w-])", name + "_lem", text)
                new = turn(text, path)
                text = before
                if new != text:
                    changed += 1
                    if not check:
                        with open(path, "w", encoding="utf-8") as f:
                            f.write(new)
    for (new, old, path), n in sorted(met.items()):
        print("meets:", new, "from", old, "in", path)
    print(f"respell: {len(table)} names, {changed} files")
    if fallen:
        raise SystemExit(1)


main()
