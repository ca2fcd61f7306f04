#!/usr/bin/env python3
"""Spells the names that the proofs of this repository declare in snake case.

usage: python3 tools/snake_names.py [--list]

Run once, at the top, after the toolchain's own script for an older repository. A definition, a lemma, a field or a constructor that
crates/*/specs or crates/*/proofs declares as partnerOf or filter-append becomes partner_of or filter_append, wherever these files and
the clauses of src/ name it. What Rattle makes (goals, the labels behind a dot) and what a library declares stay; so do must-fail edits.
Two names that would become one are told, and nothing is written. --list prints the names, old and new, and writes nothing.
"""

import glob
import os
import re
import sys

WORD = r"[^\s(){}\[\].;,@\"«»]+"
SIGNATURE = re.compile(
    rf"^(\s*)((?:abbrev |unfoldable |pub |data |record |ruleset |let )*)({WORD})((?:\s+(?:\{{[^{{}}]*\}}|\([^()]*\)))*)\s+:(\s+(\S+))?", re.U
)
# A name in camel case; its first word may be one letter.
CAMEL = r"[A-Za-z](?:[A-Za-z0-9]*[a-z0-9])?[A-Z][A-Za-z0-9]*"
COMMENT = re.compile(r"(^|\s)--\s.*$")
KIT = re.compile(r"^\s*(?:ghost )?use ((?:Rattle\.(?:std|core)\b|mathlib|borrow|mir|Prim|tie|std)[^\s{;]*)\.\{([^}]*)\}")

# Names that would become one with another of their file, and what they become: a lemma that would have its function's name gets _lem, and a
# clause that the toolchain's script named as a definition gets another name.
APART = {
    "crates/journal/specs/SpellingLaws.antt": {"all_digits": "all_digits_lem"},
    "crates/answers/proofs/first_two/Proof.antt": {"other_from": "other_from_at"},
    "crates/walk/proofs/walk_on/Proof.antt": {"other_from": "other_from_at"},
    "crates/clean_sheets/specs/AnswersLaws.antt": {"first-of": "first_of_lem"},
    "crates/replay/specs/CallsLaws.antt": {"call-at": "call_at_lem"},
    "crates/rules/specs/Examples.antt": {"largest-tolerance": "largest_tolerance_lem"},
    "crates/changing/src/lib.rt": {"changed_search": "claimed"},
    "crates/old_sheets/src/lib.rt": {"changed_sheet": "claimed"},
}
LEMMAS = "body-of digits-end first-record is-seed longest-record next-draw no-estimate own-calls refusal-of report-with tail-text values-drawn".split()


def apart(path, text):
    own = {name: name.replace("-", "_") + "_lem" for name in LEMMAS} if path.endswith(".antt") else {}
    for old, new in (own | APART.get(path, {})).items():
        text = re.sub(rf"(?<![^\s(){{}};,@]){re.escape(old)}(?![^\s(){{}}.;,@])", new, text)
    return text


def snake(name):
    words = re.sub(r"(?<=[a-z0-9])[A-Z]", lambda m: "_" + m[0].lower(), name).replace("-", "_")
    return re.sub(r"_[A-Z](?=_|$)", lambda m: m[0].lower(), words)


def plain(name):
    return not re.search(r"[A-Za-z0-9ℕℤ]-[A-Za-z0-9ℕℤ]|^[a-z](\S*[a-z0-9])?[A-Z]", name)


def read(path):
    with open(path, encoding="utf-8") as f:
        return f.read()


def declared(files):
    """Names that stand before a colon at a line's beginning: everywhere, as fields, and those of one proof alone."""
    shared, fields, alone = set(), set(), {}
    for path in files:
        own = re.search(r"/proofs/[^/]+/", path)
        kind = ""
        for line in read(path).splitlines():
            if line.lstrip().startswith("--"):
                continue
            head = re.match(r"^((?:abbrev |unfoldable |pub )*)(data|record)\b", line)
            if line[:1].strip():
                kind = head[2] if head else ""
            m = SIGNATURE.match(line)
            if not m or plain(m[3]):
                continue
            name, what = m[3], m[6] or ""
            if what.startswith(("tie.", "goal.", "walk.")):
                continue
            if m[1] and kind == "record":
                fields.add(name)
            elif own:
                alone.setdefault(path, set()).add(name)
            else:
                shared.add(name)
    return shared, fields, alone


def kit_names(text):
    """What a file imports of a library, which keeps its spelling there."""
    found = set()
    for line in text.splitlines():
        m = KIT.match(line)
        if m:
            found |= {w.strip() for it in m[2].split(",") for w in re.split(r"\s+as\s+", it.strip())}
    return found


def turn_line(line, names, fields):
    """A line of proofs, with the prose behind -- left but for names in camel case."""
    m = COMMENT.search(line)
    code, prose = (line[: m.start()], line[m.start() :]) if m else (line, "")

    def word(m, at):
        name = m[0]
        if name not in names and name not in fields:
            return name
        before = at[: m.start()]
        # Behind a dot stands a field, or in a path the name of an item.
        if before.endswith(".") and not re.search(r"(^|[\s(,;{])\.$", before):
            path = re.search(rf"([^\s(){{}},;]*)\.$", before)[1]
            if name not in fields and not re.match(r"(Rattle\.|tie$|[A-Z])", path):
                return name
        return snake(name)

    code = re.sub(WORD, lambda m: word(m, code), code)
    prose = re.sub(CAMEL, lambda m: snake(m[0]) if m[0] in names | fields else m[0], prose)
    prose = re.sub(r"`[^`]*`", lambda m: re.sub(WORD.replace("`", ""), lambda w: word(w, m[0]) if w[0] in names | fields else w[0], m[0]), prose)
    return code + prose


def turn_rust(line, names, fields):
    """A line of src/: names in camel case anywhere, and names with a dash where a clause or an import has them."""
    prose = re.match(r"^\s*//", line)

    def word(m):
        name = m[0]
        if name in names or name in fields:
            return snake(name)
        return name

    line = re.sub(rf"(?<![\w-]){CAMEL}(?![\w-])", word, line)
    if not prose:
        line = re.sub(r"(?<![\w\"'-])[A-Za-z][A-Za-z0-9_ℕℤ]*(?:-[A-Za-z0-9_ℕℤ]+)+(?![\w\"'-])", word, line)
    return line


def turn(path, text, names, fields, alone):
    text = apart(path, text)
    own, f = (names | alone.get(path, set())) - kit_names(text), fields
    if path.endswith(".rt"):
        return "".join(turn_rust(l, own, f) for l in text.splitlines(keepends=True))
    return "".join(turn_line(l, own, f) for l in text.splitlines(keepends=True))


def met(path, before, names, fields):
    """Names of a file that were two and would be one. A function of src/ may have a definition's name: no clause can name it."""
    code = "\n".join(l for l in before.splitlines() if not l.lstrip().startswith(("--", "//")))
    code = re.sub(r"[\w·◌'+-]+(?:\.[\w·◌'+-]+)*\.(?=\{)|(?<=use )[\w.+-]+", " ", code)
    if path.endswith(".rt"):
        code = re.sub(r"\b[a-z_0-9]+(?=(?:::<[^()]*>)?\()|::[a-z_0-9]+|\b[a-z_0-9]+::", " ", code)
    code = apart(path, code)
    olds = set(re.findall(rf"(?<![.\w-]){WORD}", code))
    own = {w for w in olds if snake(w) != w and (w in names or w in fields)}
    return [(w, snake(w)) for w in sorted(own) if snake(w) in olds or any(snake(v) == snake(w) for v in own - {w})]


def main(argv):
    proofs = sorted(glob.glob("crates/*/specs/**/*.antt", recursive=True) + glob.glob("crates/*/proofs/**/*.antt", recursive=True))
    sources = sorted(glob.glob("crates/*/src/*.rt"))
    names, fields, alone = declared(proofs)
    names.add("openedAs")
    if "--list" in argv:
        for n in sorted(names | fields):
            print(n, snake(n))
        return 0
    meet, made = [], {}
    for path in proofs + sources:
        text = read(path)
        new = turn(path, text, names, fields, alone)
        meet += [(path, *pair) for pair in met(path, text, names | alone.get(path, set()), fields) if pair[0] not in kit_names(text)]
        if new != text:
            made[path] = new
    if meet:
        for it in meet:
            print("two names become one: %s: %s meets %s" % it)
        return 1
    for path, new in made.items():
        with open(path, "w", encoding="utf-8") as f:
            f.write(new)
    print(f"{len(names)} names, {len(fields)} fields, {len(made)} files")
    return 0


if __name__ == "__main__":
    raise SystemExit(main(sys.argv[1:]))
