#!/usr/bin/env python3
"""Lists the places in src/ that a design pass looks at, a heading and a count for each point.

Run at the top of the repository: python3 tools/forms.py [POINT ..]. It goes by text, so a line that it prints is a
place to read, and not yet a fault.
"""
import collections
import pathlib
import re
import sys

HEADER = re.compile(r"^(\s*)(?:pub(?:\(crate\))? )?(?:const )?(?:extern \"C\" )?fn (\w+)")
WORD = re.compile(r"[A-Za-z_]\w*|\d[\d_]*|\S")
KEPT = set("if else for while in let mut match return true false self Self Some None Ok Err as fn".split())


def sources():
    return sorted(pathlib.Path("crates").glob("*/src/**/*.rt"))


def functions():
    """Each function of src/: its place, name, clauses and body, by the indent of its last line."""
    for path in sources():
        lines = path.read_text().splitlines()
        for at, line in enumerate(lines):
            header = HEADER.match(line)
            if not header:
                continue
            indent = header.group(1)
            clauses, body, inside = [], [], False
            for text in lines[at + 1 :]:
                if text.startswith((indent + "}", indent + "{}")):
                    break
                if inside:
                    body.append(text)
                elif text == indent + "{":
                    inside = True
                elif re.match(r"\s*(requires|ensures)\b", text):
                    clauses.append(text.strip())
                elif line.rstrip().endswith("{") or text.rstrip().endswith(") {") or (") ->" in text and text.endswith("{")):
                    inside = True
                    if line.rstrip().endswith("{"):
                        body.append(text)
            yield f"{path}:{at + 1}", header.group(2), clauses, body


def matching(pattern):
    found = []
    for path in sources():
        for at, line in enumerate(path.read_text().splitlines()):
            if not line.lstrip().startswith("//") and re.search(pattern, line):
                found.append(f"{path}:{at + 1}: {line.strip()[:110]}")
    return found


def twins():
    """Groups of functions whose bodies are the same but for names and numbers."""
    shapes = collections.defaultdict(list)
    for place, name, _, body in functions():
        words = WORD.findall(" ".join(body))
        if len(words) < 6:
            continue
        shape = " ".join(w if w in KEPT or not re.match(r"\w", w) else "_" for w in words)
        shapes[shape].append(f"{place} {name}")
    return [", ".join(group) for group in shapes.values() if len(group) > 1]


def repeated():
    """A `requires` that three functions or more have, whatever its name and its variables are."""
    where = collections.defaultdict(list)
    for place, name, clauses, _ in functions():
        for clause in clauses:
            if clause.startswith("requires"):
                fact = re.sub(r"^requires\s*\w*\s*", "", clause)
                fact = re.sub(r"\b[a-z]\w*(\.now)?(?= ≤| <| ≡|\.now)", "_", fact)
                where[fact].append(name)
    return [f"{fact} in {len(names)}: {', '.join(names)}" for fact, names in where.items() if len(names) > 2]


# What a line of a place looks like, for the points that a line shows.
PATTERNS = {
    "1 codes": r"\) -> u8\b|-> \(u8, u64\)|return \((0|99), \d\)|\b(left|right) \d \(|figure_number figure"
    r"|\b(kind|figure|number): u64\b|== 1,$|-> \[u8; 8\]|^pub enum \w+",
    "3 loops": r"^\s*while\b|\bin [\w.() +-]*\.\.|(\+|-|\*)= |= \(\w+ \+ 1\)",
    "4 conversions": r"\bfn (number|numbered|from_number|of|at_most|compare|hundredths?|opposite|state|marked|told|as_ratio"
    r"|letters?|answer|discard|stands|refusal|from|try_from|fmt|clone|eq|cmp|partial_cmp)\b",
    "6 buffers": r"^\s*(pub(\(crate\))? )?\w+: \[[^\]]+; [^\]]+\]|^\s*(pub(\(crate\))? )?\w+: usize,$",
    "7 switches": r"\bmatch (self|toward|kind|figure|rule)\b|: fn\(|\bdyn\b|Box<dyn",
}

if __name__ == "__main__":
    places = {point: matching(pattern) for point, pattern in PATTERNS.items()}
    places["2 twins"] = twins()
    places["5 repeated"] = repeated()
    for point, found in sorted(places.items()):
        if len(sys.argv) == 1 or any(point.startswith(word) for word in sys.argv[1:]):
            print(f"== {point}: {len(found)}")
            print("\n".join("  " + line for line in found))
