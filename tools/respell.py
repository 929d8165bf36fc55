#!/usr/bin/env python3
"""Brings this repository's own names in specs/, proofs/ and clauses to snake case.

Run once, at the top, after the kit's port.py. Definitions, fields and lemmas that were written in camel case or with
dashes get underscores. Types and modules keep their spelling, but for dashes. Names that the library or the checker
made keep theirs, and so do functions of src/, comments, strings, inputs and outputs.
"""
import glob
import re

TOKEN = r"[^\s(){}\[\].;,|«»\"⟦⟧⌜⌝]+"
# names of facts
FACTS = {"Tapes-are-deals": "TapesAreDeals", "Difference-follows": "DifferenceFollows"}
# the library's own exclusive or, which had two names
ONE_NAME = {"bitXor": "bit_xor", "bit-xor": "bit_xor"}
# lemmas and local facts that a rule of spelling alone would give the name of a definition
BESIDE = {
    "at-end": "at_end_lem",
    "at-look": "at_look_lem",
    "first-value": "first_value_lem",
    "second-value": "second_value_lem",
    "gate-bytes": "gate_bytes_lem",
    "two_bytes": "two_bytes_lem",
    "four_bytes": "four_bytes_lem",
    "gates-are": "gates_are_lem",
    "outputs-are": "outputs_are_lem",
    "given-at": "given_at_lem",
    "is-given": "given_is",
    "kind-byte": "kind_byte_lem",
    "of-kind": "of_kind_lem",
    "owed-at": "owed_at_lem",
    "part_length": "part_length_lem",
    "row_count": "row_count_lem",
    "same-counts": "same_counts_lem",
    "table-count": "table_count_lem",
    "walk-to": "walk_to_lem",
}
BY_HAND = FACTS | ONE_NAME | BESIDE


def is_generated(path):
    return path.endswith(("/Answers.antt", "/Invariants.antt", "/Proof.antt"))


def snake(name):
    if name in BY_HAND:
        return BY_HAND[name]
    return re.sub(r"(?<=[a-z0-9])([A-Z])", r"_\1", name).replace("-", "_").lower()


def needs_turn(name):
    if name in BY_HAND:
        return True
    if re.fullmatch(r"[A-Z][A-Za-z']*", name):
        return False
    return bool(re.search(r"[A-Za-z0-9']-[A-Za-z0-9]|[a-z0-9][A-Z]", name)) and not re.search(r"[◌∙≡→]", name)


def split_code(line, is_rust):
    """The line's code and its comment."""
    mark = "//" if is_rust else "--"
    at = 0
    quoted = False
    while at < len(line):
        if line[at] == '"' and (at == 0 or line[at - 1] != "'"):
            quoted = not quoted
        if not quoted and line.startswith(mark, at) and (is_rust or at == 0 or line[at - 1] in " \t"):
            return line[:at], line[at:]
        at += 1
    return line, ""


def own_names(paths):
    """What the files define, bind or take as arguments, where its spelling is to change."""
    names = set()
    for path in paths:
        if is_generated(path):
            continue
        for line in open(path):
            code, _ = split_code(line, False)
            if code.startswith("use "):
                continue
            for m in re.finditer(r"(?:^\s*|\bpub |\babbrev |\bunfoldable |\blet |[({] ?)((?:[^\s(){}.;,|]+ )*?[^\s(){}.;,|:]+)\s+: ", code):
                for name in m.group(1).split():
                    if name not in ("pub", "abbrev", "unfoldable", "let", "record", "data", "module"):
                        names.add(name)
            for m in re.finditer(r"λ ((?:[^\s.()]+ ?)+)\.|let ([^\s:=]+) =", code):
                names.update((m.group(1) or m.group(2)).split())
            # arguments of a definition by cases
            m = re.match(r"\s*([^\s=:|λ]+(?: +[^=:|λ]+)?) = ?", code)
            if m:
                names.update(re.findall(TOKEN, m.group(1)))
    return {n for n in names if needs_turn(n)}


def aliases(paths):
    """Second names that clauses give to definitions."""
    names = set()
    for path in paths:
        for m in re.finditer(r"^\s*ghost use .*", open(path).read(), re.M):
            names.update(re.findall(r" as ([^\s,};]+)", m.group(0)))
    return {n for n in names if needs_turn(n)}


def library_names(code):
    """Names that a file brings in from elsewhere than this repository."""
    found = set()
    for m in re.finditer(r"use ([A-Za-z0-9_.+-]+?)\.\{([^}]*)\}", code):
        module = m.group(1)
        ours = re.search(r"\.(specs|proofs)\.", module) and not module.startswith("Rattle.std")
        if ours and not module.endswith(".Goals"):
            continue
        found.update(x.strip().split(" as ")[0] for x in m.group(2).split(","))
    return found


def turn(path, names, changed):
    text = open(path).read()
    is_rust = path.endswith(".rt")
    keep = library_names(text)
    out = []
    for line in text.split("\n"):
        code, comment = split_code(line, is_rust)
        pieces = re.split(r'("(?:[^"\\]|\\.)*")', code)
        mine = names - {n for n in BESIDE if "_" in n} if is_rust else names
        for i, piece in enumerate(pieces):
            if i % 2 == 0:
                pieces[i] = re.sub(TOKEN, lambda m: replaced(m.group(0), mine, keep, path, changed), piece)
        out.append("".join(pieces) + re.sub(r"\b[a-z]+(?:[A-Z][a-z]*)+\b", lambda m: snake(m.group(0)) if m.group(0) in names else m.group(0), comment))
    new = "\n".join(out)
    if new != text:
        open(path, "w").write(new)


def replaced(token, names, keep, path, changed):
    if token in ONE_NAME or token in names and token not in keep:
        changed.setdefault(token, set()).add(path)
        return snake(token)
    return token


def main():
    antt = sorted(glob.glob("crates/*/specs/**/*.antt", recursive=True) + glob.glob("crates/*/proofs/**/*.antt", recursive=True))
    rust = sorted(glob.glob("crates/*/src/**/*.rt", recursive=True))
    names = own_names(antt) | aliases(rust) | set(BY_HAND)
    tokens = set()
    for path in antt + rust:
        tokens.update(re.findall(TOKEN, open(path).read()))
    taken = {}
    for name in sorted(names):
        other = snake(name)
        if other in taken or other in tokens:
            print(f"falls together: {name} -> {other}" + (f", as {taken[other]}" if other in taken else ", which stands"))
        taken[other] = name
    changed = {}
    for path in antt + rust:
        turn(path, names, changed)
    for name in sorted(changed):
        made = [p for p in sorted(changed[name]) if is_generated(p)]
        print(f"{name} -> {snake(name)}: {len(changed[name])} files" + (", of them " + " ".join(made[:3]) if made else ""))


if __name__ == "__main__":
    main()
