#!/usr/bin/env python3
"""Spells this repository's own words of specs/ and proofs/ in snake case: howMany and one-frame become how_many and one_frame.

usage: python3 tools/spell_names.py [--list]    at the top of the repository, once, after the kit's port.py

The words are what the .antt files of the crates declare: definitions, lemmas, fields and constructors. Types, modules, the goals that Rattle
names, and what src/ declares keep their names. Words are turned in .antt files, in the clauses of .rt files, in must-fail edits, and in
backticks in comments and pages. --list prints the words and changes nothing.
"""

import glob
import re
import sys

WORD = r"[^\s(){}.;,@\"«»\[\]\\`]+"
DECLARED = re.compile(
    r"^\s*(?:(?:unfoldable|abbrev|pub)\s+)*(?:data\s+|record\s+|ruleset\s+)?(" + WORD + r")\s*(?:[({][^:]*:[^)}]*[)}]\s*)*:(?!=)(.*)$"
)
# Where two words would fall together in one file: the lemma or field gets a name of its own.
APART = {
    "part-fault": "part_fault_is",
    "line-digits": "digits_of_line",
    "hub-cards": "inside_hub",
    "eachOnce": "all_once",
    "hub-ticket": "hub_ticket_is",
    "header-bytes": "length_of_header",
    "card-fault": "has_card_fault",
    "steps-to": "steps_to_is",
    "new-saver": "new_saver_is",
    "in-pool": "fits_pool",
    "card-at": "card_at_is",
    "header-digits": "header_all_digits",
    "seconds-in": "seconds_in_is",
    "part-into": "part_into_is",
    "is-line": "is_line_is",
    "frame-at": "frame_at_is",
    "next-at": "next_at_is",
    "second_at": "second_at_is",
    "place_at": "place_at_is",
    "second_digits": "second_digits_at",
}
OWN_IMPORT = re.compile(r"Rattle\.(\w+)\.")


def read(path):
    with open(path, encoding="utf-8", newline="") as it:
        return it.read()


def snake(word):
    if word in APART:
        return APART[word]
    word = re.sub(r"^getD-|^get_d_", "get_or_", re.sub(r"-getD$", "_get_or", word))
    word = re.sub(r"(?<=[a-z0-9])([A-Z])", lambda m: "_" + m.group(1).lower(), word)
    return re.sub(r"(?<=[^-])-(?=[^-])", "_", word)


def turnable(word):
    return word in APART or (re.fullmatch(r"[a-z][A-Za-z0-9_'-]*", word) and snake(word) != word)


def own_words(paths):
    """What the files declare and is to be turned; in a function's proof, not what Rattle names."""
    own = {}
    for path in paths:
        in_function = path.endswith(("/Proof.antt", "/Answers.antt", "/Invariants.antt"))
        for line in read(path).splitlines():
            found = DECLARED.match(line)
            if not found or line.lstrip().startswith(("--", "let ", "use ", "λ")):
                continue
            word, kind = found.group(1), found.group(2)
            if turnable(word) and not (in_function and re.match(r"\s*(tie|goal)\.", kind)):
                own.setdefault(word, snake(word))
    return own


def aliases(paths):
    """The names that a file gives to what it brings in."""
    return {
        word
        for path in paths
        for line in re.findall(r"^(?:ghost )?use [^;]*", read(path), re.M)
        for word in re.findall(r" as ([a-z]\w*)", line)
        if turnable(word)
    }


def foreign(text, crates):
    """The words that a file brings in from elsewhere."""
    out = set()
    for line in re.findall(r"^(?:ghost )?(?:pub )?use ([^;\n]*)", text, re.M):
        crate = OWN_IMPORT.match(line)
        if (crate is None or crate.group(1) not in crates) and "{" in line:
            for word in line.split("{", 1)[1].rstrip("}").split(","):
                out.add(word.strip().split(" as ")[-1].strip())
    return out


def turned(text, own, kept):
    def one(match):
        word = match.group(0)
        if "◌" in word:
            return "◌".join(own.get(part, part) for part in word.split("◌"))
        return own[word] if word in own and word not in kept else word

    return re.sub(WORD, one, text)


def in_ticks(text, own, kept):
    return re.sub(r"`[^`\n]*`", lambda m: turned(m.group(0), own, kept), text)


def antt(text, own, kept):
    out = []
    for line in text.split("\n"):
        code, dash, comment = line, "", ""
        found = re.search(r"(^|\s)--(\s|$)", line)
        if found:
            code, comment = line[: found.start()], line[found.start() :]
        out.append(turned(code, own, kept) + in_ticks(camel_alone(comment, own, kept), own, kept))
    return "\n".join(out)


def camel_alone(text, own, kept):
    """In prose only words that no prose has: those with a capital inside."""
    return re.sub(
        r"\b[a-z][A-Za-z0-9]*[A-Z][A-Za-z0-9]*\b(?!-)", lambda m: own[m.group(0)] if m.group(0) in own and m.group(0) not in kept else m.group(0), text
    )


def rust(text, own, kept):
    """Clauses and the lines of ghost use; in comments what stands in backticks."""
    out, clause, ghost = [], 0, False
    for line in text.split("\n"):
        bare = line.strip()
        if bare.startswith("//"):
            out.append(in_ticks(camel_alone(line, own, kept), own, kept))
            continue
        if bare.startswith("ghost use"):
            ghost = True
        if re.match(r"(requires|ensures)\b", bare):
            clause = 1
        if ghost or clause:
            line = turned(line, own, kept)
        if ghost and ";" in line:
            ghost = False
        if clause and bare.endswith("}") and line.count("}") >= line.count("{"):
            clause = 0
        if clause and bare == "{":
            clause = 0
        out.append(line)
    return "\n".join(out)


def edit(text, own, kept):
    """An edit of a .rt file is turned like that file, an edit of a .antt file as a whole."""
    of_antt = ".antt" in text.split("old:")[0]
    out = []
    for line in text.split("\n"):
        if line.startswith(("old:", "new:")):
            head, rest = line[:4], line[4:]
            if of_antt or re.search(r"\b(requires|ensures|ghost use)\b", rest):
                rest = turned(rest, own, kept)
            out.append(head + rest)
        else:
            out.append(in_ticks(camel_alone(line, own, kept), own, kept))
    return "\n".join(out)


def main(argv):
    paths = sorted(p for p in glob.glob("crates/*/specs/**/*.antt", recursive=True) + glob.glob("crates/*/proofs/**/*.antt", recursive=True))
    crates = {p.split("/")[1] for p in glob.glob("crates/*/src")}
    own = own_words(paths)
    for word in aliases(paths + glob.glob("crates/*/src/**/*.rt", recursive=True)):
        own.setdefault(word, snake(word))
    if "--list" in argv:
        for word in sorted(own):
            print(word, own[word])
        return 0
    pages = [p for p in glob.glob("**/*.md", recursive=True) if not p.startswith("target/")]
    for path in paths:
        text = read(path)
        write(path, antt(text, own, foreign(text, crates)))
    for path in sorted(glob.glob("crates/*/src/**/*.rt", recursive=True)):
        text = read(path)
        write(path, rust(text, own, foreign(text, crates)))
    for path in sorted(glob.glob("crates/*/must-fail/*.edit")):
        text = read(path)
        write(path, edit(text, own, set()))
    for path in sorted(pages):
        text = read(path)
        write(path, in_ticks(text, own, set()))
    return 0


def write(path, text):
    with open(path, "w", encoding="utf-8", newline="") as it:
        it.write(text)


if __name__ == "__main__":
    sys.exit(main(sys.argv[1:]))
