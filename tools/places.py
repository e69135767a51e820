#!/usr/bin/env python3
"""Lists places of src/ that older forms of the language left behind, by the points of docs/DESIGN-PASS.md.

  tools/places.py            how many, a line for each point and crate
  tools/places.py POINT      the places of one point, one a line

What a pattern can't tell (enums of the shape of Option, flags) is told by a list of names at the end of a point."""
import collections
import pathlib
import re
import sys

ROOT = pathlib.Path(__file__).resolve().parent.parent
TYPES = r"\b(?:u8|u16|u32|u64|u128|usize)\b"


def sources():
    for path in sorted(ROOT.glob("crates/*/src/*.rt")):
        yield path.parts[-3], path, path.read_text()


def line_of(text, place):
    return text.count("\n", 0, place) + 1


def found(pattern, flags=re.S):
    for crate, path, text in sources():
        for m in re.finditer(pattern, text, flags):
            yield crate, f"{path.relative_to(ROOT)}:{line_of(text, m.start())}", " ".join(m.group(0).split())[:100]


def functions():
    """Each function outside tests: crate, place, name, parameters, clauses, body."""
    for crate, path, text in sources():
        plain = re.sub(r"//[^\n]*", "", text)
        for m in re.finditer(r"^( *)(?:pub(?:\([a-z]+\))? )?fn (\w+)", plain, re.M):
            if crate.endswith("_tests"):
                continue
            end = plain.find("\n" + m.group(1) + "}", m.start())
            whole = plain[m.start():end if end > 0 else len(plain)]
            start = whole.find("\n" + m.group(1) + "{")
            if start < 0:
                start = whole.find("{")
            head, body = whole[:start], whole[start:]
            params = head[head.find("(") + 1:]
            params = re.split(r"\)\s*(?:->|\n|$)", params)[0]
            yield crate, f"{path.relative_to(ROOT)}:{line_of(plain, m.start())}", m.group(2), params, head, body


def option_or_result():
    yield from found(r"let (?:Some|Ok)\((?:[^()]|\([^()]*\))*\) = [^;{]*(?:\{[^{}]*\}[^;{]*)?else \{\s*return (?:None|false|Err\((?:[^;])*?\));\s*\}")
    yield from found(r"Refusal \{\s*number: \d")
    yield from found(r"\bkind: u(?:8|32)\b|\b(?:LAST_KIND|kind) [<>]=? |match kind \{\s*\d|const LAST_KIND")
    for name in ("    Wrong,", "pub enum Loaded", "pub enum Asked", "pub enum Reply {\n    // the line", "good: bool", "fn exactly", "fn known_kind"):
        yield from found(re.escape(name))
    yield from found(r"fn (?:open_tables|load_game)\([^)]*\) -> bool")


def shape(name, body):
    body = re.sub(r'b?"[^"]*"', "S", body)
    body = re.sub(TYPES, "T", body)
    body = re.sub(r"\b\d[\d_]*\b", "N", body)
    body = re.sub(r"\b[A-Z][A-Z_0-9]+\b", "N", body)
    body = re.sub(r"\b[A-Z]\w*::[A-Z]\w*", "E", body)
    body = re.sub(r"\b" + name + r"\b", "f", body)
    names = {}
    body = re.sub(r"\b[a-z_]\w*\b", lambda m: m.group(0) if m.group(0) in ("if", "else", "for", "while", "let", "return", "match", "mut", "in", "as", "len") else names.setdefault(m.group(0), f"v{len(names)}"), body)
    return " ".join(body.split())


def twins():
    groups = collections.defaultdict(list)
    for crate, place, name, params, head, body in functions():
        text = shape(name, body)
        if len(text) > 25:
            groups[text].append((crate, place, name))
    for text, group in groups.items():
        if len(group) > 1:
            for crate, place, name in group:
                yield crate, place, f"{name}, of {len(group)}: {text[:60]}"
    for name in ("fn put_cell(", "fn two_bytes(", "fn byte_at(", "fn is_digit(", "fn put_two(", "fn put_field(", "const LAST_KIND", "fn put_effects("):
        group = list(found(re.escape(name)))
        yield from group if len(group) > 1 else []


def index_loops():
    yield from found(r"(?<!// )\bwhile (?!pending)[^{/]*\{")
    yield from found(r"for (\w+) in [^{]*\.\.[^{]*\{(?=[^{}]*\[[^\].]*\b\1\b[^\].]*\])")


def by_hand():
    yield from found(r"[\w\])] as (?:u8|u16|u32|u64|usize)\b")
    yield from found(r"if [^{}]*\{\s*[01]\s*\} else \{\s*[01]\s*\}")
    yield from found(r"fn (?:word_of\(b: bool|words_for|is_digit|begin\(|node_of|kind_of)\b")


def repeated_facts():
    facts = collections.defaultdict(list)
    for crate, place, name, params, head, body in functions():
        for m in re.finditer(r"requires (?:\w+ )?\{(.*?)\}\n", head + "\n", re.S):
            for fact in re.split(r"×", m.group(1)):
                fact = " ".join(fact.strip(" ()\n").split())
                facts[crate, fact].append((crate, place, f"{name} requires {fact}"))
    for group in facts.values():
        if len(group) > 2:
            yield from group
    together = collections.defaultdict(list)
    for crate, place, name, params, head, body in functions():
        pieces = [" ".join(p.split()) for p in params.split(",") if ":" in p]
        for k in range(len(pieces) - 2):
            together[crate, tuple(pieces[k:k + 3])].append((crate, place, f"{name} takes {', '.join(pieces[k:k + 3])}"))
    for group in together.values():
        if len(group) > 2:
            yield from group


def buffers():
    yield from found(r"\[u(?:8|32); \w+\],?\s*(?:pub )?count|count: usize,\n\}")
    for name in ("pub struct Row {", "struct Head ", "struct Skip ", "struct Spot ", "struct End ", "places = [0u32; 3]", "enum Node "):
        yield from found(re.escape(name))


def steps():
    yield from found(r"(?:= |\n    )(?:seek|better_of)\(")
    yield from found(r"match (?:stage|p\.stage|awaits|awaits) \{")


POINTS = {
    "1": ("own Option and Result, kinds and refusals as numbers", option_or_result),
    "2": ("functions that differ only in a type, a size or a constant", twins),
    "3": ("loops that count an index", index_loops),
    "4": ("conversions and the like by hand", by_hand),
    "5": ("facts in three contracts, parameters that go together", repeated_facts),
    "6": ("buffers with a length, places in place of slices", buffers),
    "7": ("switches on a step, tables of functions", steps),
}


def once(places):
    """Each place once, though two patterns find it."""
    return {place: (crate, text) for crate, place, text in places}


def main():
    if len(sys.argv) > 1:
        for place, (crate, text) in once(POINTS[sys.argv[1]][1]()).items():
            print(f"{place}: {text}")
        return
    for point, (what, places) in POINTS.items():
        counts = collections.Counter(crate for crate, text in once(places()).values())
        print(f"{point} {sum(counts.values())} {what}: " + ", ".join(f"{c} {n}" for c, n in sorted(counts.items())))


main()
