#!/usr/bin/env python3
"""Lists the places in crates/*/src/*.rt that docs/DESIGN-PASS.md counts, a line each: point, file, line, text.

    tools/places.py [COMMIT]      of a commit, or of the working tree
    tools/places.py --counts [COMMIT]

Points 1, 3, 4, 6 and 7 are lines that a pattern finds. Point 2 lists pairs of functions whose bodies have nearly the same
shape once names and numbers are left out. Point 5 lists facts that three or more contracts state, and pairs of parameters
that four or more functions take together.
"""
import difflib
import re
import subprocess
import sys

# A line that matches is a place. Comments, clauses and ghost items are left out.
PATTERNS = {
    1: [
        r"fn (put|push)\b.*-> bool",                # says by a flag whether there was room
        r"\bfn \w*mark\b",                          # a number for yes and no
        r"\bfn number\(self\) -> u8",                # the number of a kind, or of a refusal
        r"\) -> (Result<)?\((u8|Refusal), ",         # a number or a refusal with other things beside it
        r"fn (answer|number_of)\b.*-> u8",
        r"const \w+: \[\(.*\bu8(, usize)?\); \d+\]",  # a table that ends in the number of a refusal, with its figure or not
        r"\{ [13] \} else \{ 0 \}",                  # a number for yes and no, or for a kind
        r"let mut (bad|asked) = (true|false)",         # a flag beside a loop
    ],
    3: [
        r"\+= (1|2|5|size);",
        r"= \w+\.(saturating|wrapping)_add\((1|length)\);",
        r"for (\w+) in [\w.()]+\.\.[^.]",             # only where the number is then used as an index
        r"while let \[",
        r"\bloop \{|\bwhile \b(?!let)",
    ],
    4: [
        r"impl (fmt::)?(Display|Error|Debug|PartialEq|PartialOrd|Ord|Clone|Default|Hash)\b.* for \w+ \{",
        r"fn (words|name)\(",
        r"(256|65536) \* ",
        r"^\s+\d+ => (Kind::|Some\(Kind|Ok\(Kind|Ok\(Xor)",
        r"const NO_GATE: Gate",
        r"Kind::\w+ => (true|1),",
    ],
    6: [
        r"places: &'a mut \[T\],",                   # a lent buffer with a length beside it
        r"\[8 \* r\.\.",                             # a row, or an entry of a table, found by arithmetic
        r"\* (usize::from\()?circuit\.size\(\)(?!.*output_count)|start \+ (place|usize::from)",
        r"\bstart\.\.start \+ size\b",
        r"\w+\[p \* width \+ k\]",
        r"masks: &\[u8\],|differences: &\[u8\],",    # a list that goes beside the wires, and one that goes beside it
    ],
    7: [
        r"match (gate|self)\.kind\b|match self \{",
        r"if let Kind::",
        r"\.kind [!=]= Kind::",
        r"as_str\(\) ==|match word\b",
    ],
}


def sources(commit):
    if commit:
        names = subprocess.run(["git", "ls-tree", "-r", "--name-only", commit, "crates"], capture_output=True, text=True, check=True).stdout.split()
    else:
        names = subprocess.run(["git", "ls-files", "-co", "--exclude-standard", "crates"], capture_output=True, text=True, check=True).stdout.split()
    for name in sorted(n for n in names if re.fullmatch(r"crates/\w+/src/\w+\.rt", n)):
        if commit:
            text = subprocess.run(["git", "show", f"{commit}:{name}"], capture_output=True, text=True, check=True).stdout
        else:
            try:
                text = open(name).read()
            except FileNotFoundError:
                continue
        yield name, text


def functions(text):
    """Name, line, head (with the contract) and body of each function."""
    for m in re.finditer(r"^( *)(?:#\[test\]\n *)?(?:pub(?:\(crate\))? )?(?:final )?fn (\w+)", text, re.M):
        indent = m.group(1)
        end = re.compile(rf"^{indent}\}}$|^{indent}.*\{{\}}$", re.M).search(text, m.end())
        start = re.compile(rf"^{indent}\{{$|\{{$|\{{\}}$", re.M).search(text, m.end())
        if not end:
            continue
        chunk = text[m.start():end.end()]
        for head_line in chunk.split("\n"):
            if head_line.strip() == "{" or head_line.endswith((" {", "{}")) or head_line.strip().endswith(";"):
                break
        if head_line.strip().endswith(";"):
            continue                                 # a trait's function with no body
        opening = re.search(rf"^{indent}\{{$", chunk, re.M)
        cut = opening.start() if opening else chunk.find("{\n")
        yield m.group(2), text.count("\n", 0, m.start()) + 1, chunk[:cut], chunk[cut:]


KEYWORDS = set("if else match for in while let return mut as fn Some None Ok Err true false iter enumerate".split())


def shape(body):
    body = re.sub(r"//.*", "", body)
    tokens = re.findall(r"\w+|[^\w\s]", body)
    return [t if t in KEYWORDS or not re.match(r"\w", t) else "0" if t[0].isdigit() else "n" for t in tokens]


def twins(files):
    all_functions = [(name, f, line, shape(body)) for name, text in files for f, line, _, body in functions(text)]
    found = []
    for i, (na, fa, la, a) in enumerate(all_functions):
        for nb, fb, lb, b in all_functions[i + 1:]:
            short, long = sorted((len(a), len(b)))
            if short < 24 or short < 0.7 * long:
                continue
            if difflib.SequenceMatcher(None, a, b, autojunk=False).ratio() >= 0.86:
                found.append((na, la, f"{fa} ~ {nb}:{lb} {fb}"))
    return found


def facts(files):
    clauses, pairs = {}, {}
    for name, text in files:
        for f, line, head, _ in functions(text):
            if "/trials/" in name or "/bench/" in name or "/activate/" in name:
                continue
            for clause in set(re.findall(r"^\s*requires(?: \w+)? \{ (.*) \}$", head, re.M)):
                clause = re.sub(r"\b(file|bytes|owners|masks|differences|block|masked|cells|places|values|wires|numbers|gates)\.(now|old)", "x", clause)
                clauses.setdefault(clause, []).append(f"{name}:{line} {f}")
            taken = re.search(r"fn \w+(?:<.*?>)?\((.*?)\)(?: ->|\s*$|\s+(?:requires|ensures|where))", head + "\n", re.S)
            names = re.findall(r"(\w+): ", taken.group(1)) if taken else []
            for i, a in enumerate(names):
                for b in names[i + 1:]:
                    pairs.setdefault((a, b), []).append(f"{name}:{line} {f}")
    found = [(v[0].split(":")[0], int(v[0].split(":")[1].split()[0]), f"{len(v)} contracts: {k}") for k, v in clauses.items() if len(v) >= 3]
    found += [(v[0].split(":")[0], int(v[0].split(":")[1].split()[0]), f"{len(v)} functions take {a} and {b}") for (a, b), v in pairs.items() if len(v) >= 4]
    return found


def main():
    arguments = [a for a in sys.argv[1:] if a != "--counts"]
    files = list(sources(arguments[0] if arguments else None))
    places = {point: [] for point in range(1, 8)}
    for name, text in files:
        lines = text.split("\n")
        for number, line in enumerate(lines, 1):
            if line.lstrip().startswith(("//", "ensures", "requires", "ghost", "#")):
                continue
            for point, patterns in PATTERNS.items():
                counted = re.search(r"for (\w+) in [\w.()]+\.\.[^.]", line)
                if counted and not re.search(rf"[\w)]\[[^\]]*\b{counted.group(1)}\b", "\n".join(lines[number:number + 12])):
                    continue
                if any(re.search(p, line) for p in patterns):
                    places[point].append((name, number, line.strip()))
    places[2] = twins(files)
    places[5] = facts(files)
    for point in sorted(places):
        if "--counts" in sys.argv:
            print(point, len(places[point]))
            continue
        for name, number, line in places[point]:
            print(f"{point} {name}:{number}: {line}")


main()
