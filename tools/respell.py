#!/usr/bin/env python3
"""Brings this repository's own definitions and lemmas to snake case.

Run once, at the top, right after the toolchain's port.py. Types and facts, which begin with a
capital, lose their dashes (Reads-back is ReadsBack); all other names get underscores (after-codes
is after_codes). Names of the library, those that Rattle makes, and texts in quotes keep their dashes.
"""
import glob
import re

WORD = re.compile(r"[A-Za-zα-ωΑ-Ωℕ_][\w'ℕ≤≡₀-₉]*(?:-[\w'ℕ≤≡₀-₉]+)*")
SIGNATURE = re.compile(
    r"\s*(?:(?:abbrev|unfoldable|pub|record|data|ruleset|infix[lr]?)\s+)*([^\s(){}:]+)\s*(?::|\()"
)
QUOTED = re.compile(r'"(?:[^"\\\n]|\\.)*"')
# names of variables, of clauses and of a record's fields that no signature of their own declares
LOCAL = """clock-plan codes-are fed-same highest-code is-game is-known' lefts-at lefts-from lim-high lim-low
longest-game lowest-line of-high of-low rules-plan text-end text-ends text-high text-low turns-end turns-from""".split()
# where the plain rule would fall together with another name, or read badly
SPECIAL = {
    "bit-and": "bit_of_and",
    "bit-or": "bit_of_or",
    "bit-xor": "bit_of_xor",
    "getD-turns-of": "get_or_turns_of",
    "held_Low": "held_low",
    "held_High": "held_high",
    "is_Known": "is_known",
    "is-known'": "is_known'",
}
# an English word in comments, and a step that Rattle names by a function and a variable
IN_COMMENTS = {"in-time"}
STEPS = {"c.": {"other-side"}}


def sources():
    for kind in ("specs", "proofs"):
        yield from sorted(glob.glob(f"crates/*/{kind}/**/*.antt", recursive=True))
    yield from sorted(glob.glob("crates/*/src/**/*.rt", recursive=True))


def own_names():
    names = set(LOCAL)
    for path in sources():
        if not path.endswith(".antt"):
            continue
        with open(path, encoding="utf-8") as file:
            for line in file:
                found = SIGNATURE.match(line)
                if not found or line.lstrip().startswith("--") or re.search(r":\s*goal\.", line):
                    continue
                if "-" in found.group(1):
                    names.add(found.group(1))
    return names


def respelled(name):
    if name in SPECIAL:
        return SPECIAL[name]
    if name[0].isupper():
        first, *rest = name.split("-")
        return first + "".join(word[:1].upper() + word[1:] for word in rest)
    return name.replace("-", "_")


def turn(text, names, kept=()):
    quoted = [found.span() for found in QUOTED.finditer(text)]

    def one(found):
        name = found.group(0)
        if name not in names or name in kept:
            return name
        if any(start < found.start() < end for start, end in quoted):
            return name
        for before, steps in STEPS.items():
            if name in steps and text[: found.start()].endswith(before):
                return name
        return names[name]

    return WORD.sub(one, text)


def turn_source(text, mark, names):
    lines = []
    for line in text.split("\n"):
        at = line.find(mark)
        if at < 0:
            lines.append(turn(line, names))
            continue
        index_word = re.match(re.escape(mark) + r"\s{2,}\S+", line[at:])
        head = index_word.end() if index_word else 0
        code, index, words = line[:at], line[at : at + head], line[at + head :]
        turned = turn(index, names)
        if words.startswith(" "):
            turned = turned.ljust(len(index))
        lines.append(turn(code, names) + turned + turn(words, names, IN_COMMENTS))
    return "\n".join(lines)


def turn_page(text, names):
    return re.sub(r"`[^`\n]+`", lambda found: turn(found.group(0), names), text)


def snake_names():
    """The names that port.py has respelled already, for the pages, which it leaves alone."""
    names = {}
    for path in sources():
        if path.endswith(".antt"):
            with open(path, encoding="utf-8") as file:
                for line in file:
                    found = SIGNATURE.match(line)
                    if found and "_" in found.group(1) and not line.lstrip().startswith("--"):
                        names[found.group(1).replace("_", "-")] = found.group(1)
    return names


def main():
    names = {name: respelled(name) for name in own_names() | set(SPECIAL)}
    seen = {}
    for old, new in sorted(names.items()):
        if new in seen:
            raise SystemExit(f"{old} and {seen[new]} fall together as {new}")
        seen[new] = old
    in_pages = {**snake_names(), **names}
    pages = ["README.md"] + sorted(glob.glob("docs/*.md"))
    for path in list(sources()) + pages:
        with open(path, encoding="utf-8") as file:
            text = file.read()
        if path.endswith(".md"):
            turned = turn_page(text, in_pages)
        else:
            turned = turn_source(text, "--" if path.endswith(".antt") else "//", names)
        if turned != text:
            with open(path, "w", encoding="utf-8") as file:
                file.write(turned)


if __name__ == "__main__":
    main()
