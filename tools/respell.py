#!/usr/bin/env python3
"""Brings the repository's own names to today's spelling, after the toolchain's port.py was run.

usage: python3 tools/respell.py [FOLDER]      once, at the top of the repository (or of FOLDER)

Words that specs/ and proofs/ declare (definitions, lemmas, fields, constructors) get underscores for dashes, and types are in upper camel case.
Names that Rattle makes (goals, steps and what stands in them) stay, and so do functions, strings, inputs and outputs.
The crates `bytes` and `bytes_tests` become `wire` and `wire_tests`, since the toolchain has a library named bytes.
It prints the names that fall together: those are mended by hand.
"""

import os
import re
import sys

TOKEN = r'[^\s(){}.;,@"«»]+'
# The parts of a line: a comment, a string, or a name, with the dots before it.
ANTT = re.compile(r'(--(?=\s|$)[^\n]*)|("(?:[^"\\\n]|\\.)*")|((?:(?<=\S)\.)?' + TOKEN + ")")
HEAD = re.compile(r"( *)((?:(?:abbrev|unfoldable|pub|data|record|private|opaque) )*)(" + TOKEN + "(?: " + TOKEN + r")*)((?: [({].*?[)}])*) :(?: (.*))?$")
RUST = re.compile(r'(//[^\n]*)|(b?"(?:[^"\\]|\\.)*")|(' + r"[^\W\d][\w'′]*(?:-[\w'′]+)+" + ")")
CRATES = {"bytes": "wire", "bytes_tests": "wire_tests"}
# Names that stay, since what they would become has another meaning where they are used.
STAY = {"lines"}


def files(root, *ends):
    for folder, dirs, names in os.walk(root):
        dirs[:] = sorted(d for d in dirs if d not in ("out", ".git", "target"))
        for n in sorted(names):
            if n.endswith(ends):
                yield os.path.join(folder, n)


def read(path):
    with open(path, encoding="utf-8") as f:
        return f.read()


def write(path, text):
    with open(path, "w", encoding="utf-8") as f:
        f.write(text)


def answers(path):
    return "/proofs/" in path and os.path.basename(path) in ("Answers.antt", "Invariants.antt")


def is_type(kind, rest):
    if "data" in kind or "record" in kind:
        return True
    depth, last = 0, 0
    for i, ch in enumerate(rest):
        depth += ch in "({"
        depth -= ch in ")}"
        if ch == "→" and depth == 0:
            last = i + 1
    return re.match(r"\s*Type( |$)", rest[last:]) is not None


def declared(root):
    """The names that the repository declares, each with whether it is a type."""
    found = {}
    for path in files(os.path.join(root, "crates"), ".antt"):
        lines = re.sub(r"(?m)--(?=\s|$)[^\n]*", "", read(path)).split("\n")
        for at, line in enumerate(lines):
            head = HEAD.match(line)
            if not head:
                continue
            indent, kind, name, _params, rest = head.groups()
            signature, after = rest or "", at + 1
            while after < len(lines) and re.match(indent + r" +\S", lines[after]) and not HEAD.match(lines[after]):
                signature, after = signature + " " + lines[after].strip(), after + 1
            if name.split()[0] in ("let", "in", "elim", "λ") or answers(path) and re.match(r"goal\.", signature.strip()):
                continue
            for word in name.split():
                found[word] = found.get(word, True) and is_type(kind.split(), signature)
    return found


def spelled(name, typed):
    if typed:
        return "".join(w[:1].upper() + w[1:] for w in re.split(r"[-_]", name))
    return re.sub(r"(?<=[a-z0-9])([A-Z])", lambda m: "_" + m[1].lower(), name).replace("-", "_") if "-" in name else name


def table_of(root):
    rows = {}
    for name, typed in declared(root).items():
        if name in STAY or not re.match(r"[^\W\d]", name):
            continue
        new = spelled(name, typed)
        if new != name:
            rows[name] = new
    return rows


def turn_antt(text, rows, made):
    def one(m):
        comment, string, name = m.groups()
        if string:
            return m[0]
        if comment:
            return turn_comment(comment, rows)
        dot = name.startswith(".")
        word = name[1:] if dot else name
        if dot and made and behind_made(text, m.start()):
            return name
        return ("." if dot else "") + rows.get(word, word)

    return ANTT.sub(one, text)


def behind_made(text, at):
    """Whether the name before this place is one behind which Rattle makes the names: goal, or the record of a place."""
    before = re.search(TOKEN + "$", text[:at])
    return before is not None and before[0] in ("goal", "c", "l", "g", "w", "initial", "fn")


def of_others(text):
    """The names that a file takes from the toolchain's libraries: those keep their spelling there."""
    found = set()
    for items, alone in re.findall(r"(?m)\buse (?:Rattle\.(?:std|core)|mathlib|Prim|lib)[\w.+-]*?(?:\.\{([^}]*)\}|\.([^\s.;{]+);?$)", text):
        for item in (items or alone).split(","):
            found.update(word.strip() for word in item.split(" as "))
    return found


def turn_comment(comment, rows):
    return re.sub(r"`([^`\n]+)`", lambda m: "`" + re.sub(TOKEN, lambda t: rows.get(t[0], t[0]), m[1]) + "`", comment)


def turn_rust(text, rows):
    def one(m):
        comment, string, name = m.groups()
        if string:
            return m[0]
        if comment:
            return turn_comment(comment, rows)
        return rows.get(name, name)

    return RUST.sub(one, text)


def turn_crates(text, antt):
    for old, new in CRATES.items():
        text = re.sub(rf"\bRattle\.{old}(?=[.\s;]|$)", f"Rattle.{new}", text)
        if not antt:
            text = re.sub(rf"(?<![\w:.]){old}::", f"{new}::", text)
            text = re.sub(rf"\buse {old};", f"use {new};", text)
    return text


def main():
    root = os.path.abspath(sys.argv[1] if len(sys.argv) > 1 else ".")
    rows = table_of(root)
    by_new = {}
    for old, new in rows.items():
        by_new.setdefault(new, []).append(old)
    for new, olds in by_new.items():
        if len(olds) > 1:
            print(f"together: {' and '.join(sorted(olds))} become {new}")
    for path in files(os.path.join(root, "crates"), ".antt", ".rt"):
        text = read(path)
        antt = path.endswith(".antt")
        plain = re.sub(r"Rattle\.[\w.+]+", "", text)
        plain = re.sub(r"(?m)--(?=\s|$)[^\n]*" if antt else r"//[^\n]*", "", plain)
        used = set(re.findall(TOKEN, plain))
        for old in sorted(used & set(rows)):
            new = rows[old]
            if new in used if antt else re.search(rf"(?<![\w.]){re.escape(new)}\b(?!\s*[(:<!])", plain):
                print(f"meets: {os.path.relpath(path, root)}: {old} becomes {new}, which stands there")
        own = {old: new for old, new in rows.items() if old not in of_others(text)}
        turned = turn_antt(text, own, answers(path)) if antt else turn_rust(text, own)
        turned = turn_crates(turned, antt)
        if turned != text:
            write(path, turned)
    lines = read(os.path.join(root, "crates.txt"))
    for old, new in CRATES.items():
        lines = re.sub(rf"(?<![\w]){old}(?!\w)", new, lines)
        folder = os.path.join(root, "crates", old)
        if os.path.isdir(folder):
            os.rename(folder, os.path.join(root, "crates", new))
    write(os.path.join(root, "crates.txt"), lines)


if __name__ == "__main__":
    main()
