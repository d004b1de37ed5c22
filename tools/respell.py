#!/usr/bin/env python3
"""Spells this repository's own definitions and lemmas in snake case, as Rattle spells them today.

usage: python3 tools/respell.py [--check]        at the top of the repository

`left-in` and `leftIn` become `left_in`: every word with a dash, or with a capital behind small letters, that
specs/, a lemma file of proofs/ or a ghost item of src/ uses, and that no library declares. Types and modules
keep their capitals, functions of src/ their names. In a function's Answers and Invariants the labels that the
check makes (behind `c.`, `g.`, `l.`, `goal.`, and at the head of an answer) are spelled as it makes them today.
In the clauses of a generic function the kind's meaning is `B.meaning`, as a bound's ghost members are named today,
and where a reference points is its `ref_ptr`.
Words that would fall together, or under a word of the library, get the name in APART. It writes each file once;
a second run changes nothing. --check writes nothing and lists what would change."""
import collections
import pathlib
import re
import sys

WORD = re.compile(r"(?<![^\s(){}.;,@\"«»⟨⟩])[^\s(){}.;,@\"«»⟨⟩]+")
NAME = re.compile(r"[A-Za-z_][A-Za-z0-9_']*(?:-[A-Za-z0-9_']+)*")
ANSWERS = re.compile(r"/proofs/.+/(Answers|Invariants)\.antt$")

HEAD = r"(?m:^(?:abbrev )?(?:pub )?[A-Za-z][^\s(){}.;,@\"]*(?= : goal\.| (?:g )?[cl]\b))"

# Two words of one spelling: which of them gets another name.
APART = {
    "allHold": "holds_all",
    "at-motion": "at_that_motion",
    "from-new": "out_of_new",
    "to-new": "toward_new",
    "lower-side": "lower_sign",
    "upper-side": "upper_sign",
    "sameDate": "dates_same",
    "standsSo": "stands_test",
    "wait-into": "wait_into_is",
}


def snake(word):
    word = re.sub(r"(?<=[a-z0-9'])([A-Z])(?=[a-z])", lambda m: "_" + m[1].lower(), word)
    word = re.sub(r"(?<=[a-z0-9'])([A-Z])(?![A-Za-z])", lambda m: "_" + m[1].lower(), word)
    word = re.sub(r"-([A-Z])(?![A-Z])", lambda m: "_" + m[1].lower(), word)
    return word.replace("-", "_")


def own(word):
    if not NAME.fullmatch(word):
        return False
    if "-" in word:
        return True
    return bool(re.match(r"[a-z_][a-z0-9_']*[A-Z]", word))


def renamed(word):
    return APART.get(word, snake(word))


def antt_parts(text):
    """(is code, part) in order: comments and strings are no code."""
    at = 0
    for m in re.finditer(r'(?<![^\s(){}.;,@"«»])--[^\n]*|"(?:[^"\\\n]|\\.)*"', text):
        yield True, text[at:m.start()]
        yield False, m[0]
        at = m.end()
    yield True, text[at:]


def ghost_parts(text):
    """(is ghost, part): clauses, ghost items and ghost uses of a .rt file are ghost."""
    spots = []
    for m in re.finditer(r"(?m)^\s*(?:pub )?ghost use\b[^;]*;", text):
        spots.append((m.start(), m.end()))
    for m in re.finditer(r"\b(?:requires|ensures)\*?(?: \w+)? \{|\bghost(?: invariant)?(?: \w+)?(?:: | = | )\{|\binvariant \{", text):
        i, deep = m.end() - 1, 0
        while True:
            deep += (text[i] == "{") - (text[i] == "}")
            i += 1
            if not deep:
                break
        spots.append((m.end() - 1, i))
    at = 0
    for a, b in sorted(spots):
        if a < at:
            continue
        yield False, text[at:a]
        yield True, text[a:b]
        at = b
    yield False, text[at:]


def labels(text, names):
    """Labels that the check makes, as it spells them today."""
    def one(word):
        for old, new in names:
            word = re.sub(rf"(?<![A-Za-z0-9_]){re.escape(old)}(?![A-Za-z0-9_])", new, word)
        return word
    text = re.sub(r"(?<![^\s(){},;@])((?:c|g|l|goal|w)\.)([^\s(){}.;,@\"]+)", lambda m: m[1] + one(m[2]), text)
    text = re.sub(HEAD, lambda m: one(m[0]), text)
    return re.sub(r"(?<=Goals\.\{)[^}]*(?=\})|(?<=\| )[A-Z]?[^\s(){}.;,@\"]+(?= \w+ ↦)", lambda m: one(m[0]), text)


def members(text):
    """A kind's meaning by its type parameter, but in the trait itself; and where a reference points."""
    out, inside = [], False
    for line in text.split("\n"):
        inside = inside or line.startswith("pub trait Bound")
        if not inside and re.match(r"\s*(?:(?:requires|ensures|invariant|ghost invariant)\b|\(λ \w+\. )", line):
            line = re.sub(r"(?<![\w.])(?:B\.Bound\.)?meaning(?![\w'])", "B.meaning", line)
            line = re.sub(r"(?<=λ p\. p)\.ptr(?= ≡)", ".ref_ptr", line)
        inside = inside and line != "}"
        out.append(line)
    return "\n".join(out)


def main():
    top = pathlib.Path(".")
    files = sorted(p for p in top.glob("crates/*/**/*") if p.suffix in (".antt", ".rt") and "out" not in p.parts)
    texts = {p: p.read_text(encoding="utf-8") for p in files}
    answers = [p for p in files if ANSWERS.search(str(p))]
    lemmas = [p for p in files if p.suffix == ".antt" and p not in answers]
    sources = [p for p in files if p.suffix == ".rt"]

    functions = {m[1] for p in sources for m in re.finditer(r"\bfn (\w+)", texts[p])}
    consts = {m[1] for p in sources for m in re.finditer(r"\bconst (\w+)", texts[p])}
    library = {"in_ok", "in_err", "in_default", "from_residual", "push_str", "as_slice", "as_mut_slice", "as_str"}
    names = sorted(((n.replace("_", "-"), n) for n in functions | consts | library if "_" in n), key=lambda x: -len(x[0]))

    used = collections.Counter()
    for p in lemmas:
        for code, part in antt_parts(texts[p]):
            if code:
                used.update(m[0] for m in WORD.finditer(part))
    for p in sources:
        for code, part in ghost_parts(texts[p]):
            if code:
                used.update(m[0] for m in WORD.finditer(part))
    crates = {p.parts[1] for p in files}
    lent = set()
    for p in files:
        for m in re.finditer(r"\buse ([\w.]+?)\.?\{([^}]*)\}", texts[p]):
            path = m[1].split(".")
            if not (path[0] == "Rattle" and len(path) > 1 and path[1] in crates):
                lent.update(w.split(" as ")[0].strip() for w in m[2].split(","))
    table = {w: renamed(w) for w in used if own(w) and w not in lent}
    declared = {m[1] for p in lemmas for m in re.finditer(r"(?m)^ *(?:abbrev )?(?:pub )?([^\s(){}.;,@\"]+) :", texts[p])}
    for w in sorted(lent & declared):
        if own(w):
            print("declared here and lent by a library:", w)

    # what falls together
    back = collections.defaultdict(set)
    for old, new in table.items():
        back[new].add(old)
    clash = {new: olds | ({new} if new in used else set()) for new, olds in back.items() if len(olds) > 1 or new in used}
    if clash:
        for new, olds in sorted(clash.items()):
            print("falls together:", new, "from", ", ".join(sorted(olds)))

    def turn(text):
        return WORD.sub(lambda m: table.get(m[0], m[0]), text)

    changed = []
    for p in files:
        if p in answers:
            text = labels(texts[p], names)
            kept = re.compile(r"(?<![^\s(){},;@])((?:c|g|l|goal|w)\.)[^\s(){}.;,@\"]+|" + HEAD)
            out, at = [], 0
            for m in kept.finditer(text):
                out += [turn(text[at:m.start()]), m[0]]
                at = m.end()
            new = "".join(out) + turn(text[at:])
        elif p in lemmas:
            new = "".join(turn(part) if code else part for code, part in antt_parts(texts[p]))
        else:
            new = members("".join(turn(part) if code else part for code, part in ghost_parts(texts[p])))
        # an import under its own name
        new = re.sub(r"(?<![\w'])([\w']+) as \1(?![\w'])", r"\1", new)
        if new != texts[p]:
            changed.append(p)
            if "--check" not in sys.argv:
                p.write_text(new, encoding="utf-8")
    docs = [p for p in [*top.glob("docs/*.md"), *top.glob("*.md")] if not p.name.startswith("PORT")]
    for p in docs:
        text = p.read_text(encoding="utf-8")
        new = re.sub(r"`[^`\n]+`", lambda m: turn(m[0][1:-1]).join("``"), text)
        if new != text:
            changed.append(p)
            if "--check" not in sys.argv:
                p.write_text(new, encoding="utf-8")
    print(f"{len(table)} words, {len(changed)} files" + (", not written" if "--check" in sys.argv else ""))


main()
