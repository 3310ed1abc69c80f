#!/usr/bin/env python3
"""Brings this repository's own names to the spelling that Rattle's library has, after port.py has turned the rest.

Run once, at the top, right after port.py. A word is in snake case. A dash stays only where it joins the names of two definitions, as in
`length-book_of`; between plain words it becomes `_`. Types, facts and modules had upper camel case before. Functions of src/, fields of
its structs, exported names, strings, inputs and outputs keep their names. With --list it only prints the names and what would fall together.
"""

import collections
import glob
import re
import sys

TOKEN = re.compile(r"[^\s(){}\[\],;.:|«»\"`?]+")
DECLARED = re.compile(
    r"^(\s*)((?:pub |abbrev |unfoldable |record |data )*)"
    r"([^\s(){}\[\],;.:|«»\"`=]+)"
    r"((?:\s*[({][^(){}]*[)}])*)\s+: "
)
CAMEL = re.compile(r"(?<=[a-z0-9₀-₉])(?=[A-Z])")
# What would fall together with another name of the same scope, or with a word of the library.
OTHERS: dict[str, str] = {
    "firstWidth": "width_of_first",
    **{lemma: lemma.replace("-", "_") + "_lem" for lemma in (
        "clocks-met", "day-refusal", "deliver-splits", "empty-half", "exact-first", "head-words", "p₃-words", "replay-calls",
        "rest-tests", "sound-bucket", "sound-buckets", "sound-tests", "two-grades",
    )},
}
# What port.py has turned in the sources itself, for the pages.
BY_PORT = """
    add-at add-half add-low add-total after-read after-same afterCall afterOf all-held all-in allFrom apart-words at-in at-other below-none
    block-size block-within blockAt blockOf both-first by-both by-le callOf callsOf capacity-spec clear-spec codeOf cons-same copy-spec
    count-most count-same counted-spec digits-decimal digits-more digits-step digits-value each-first each-from each-of empty-block
    emptyBlock endAt endOf enum-told every-append fieldsOf fill-spec find-spec finish-spec first-two first-width firstAt firstOf flat-append
    found-first from-each front-at goes-on grow-spec half-of halfOf has-room headOr heldOf inParts isNumber laid-end laid-next lastOf
    late-below leftOf length-before length-part level-in linesOf main-spec make-spec merging-start mostOf mul-at mul-next mul-words
    near-none new-spec none-after none-below none-or not-none number-is numberOf of-blocks offsetOf one-byte one-less one-more only-calls
    only-part open-spec openedOf opens-before or-else other-length pair-is pairAt pairOf part-ext part-none parts-whole placeOf placed-same
    put-lowest readingOf restOf right-end runOf same-block same-first same-length same-next same-number same-start set-first shape-same
    shapeOf slot-at slotOf slots-read small-size start-none start-spec step-spec sub-part sum-is sum-low sumOf sumWord swept-all swept-none
    take-head takes-at tests-same textOf tracks-same upFrom valueOf valuesOf viewOf whole-sum width-is within-both word-blank wordsOf
    written-none zeroed-step
""".split()


def is_lemma_file(path: str) -> bool:
    return not re.search(r"/proofs/.*/(Proof|Answers|Invariants)\.antt$", path)


def snake(part: str) -> str:
    if part == "getD":
        return "get_or"
    if not part[:1].islower():
        return part
    return CAMEL.sub("_", part).lower() if CAMEL.search(part) else part


def sources() -> list[str]:
    return sorted(glob.glob("crates/*/specs/**/*.antt", recursive=True) + glob.glob("crates/*/proofs/**/*.antt", recursive=True))


def read(path: str) -> str:
    with open(path, encoding="utf-8") as file:
        return file.read()


def code_of(line: str) -> str:
    return re.split(r"(?:^|\s)--(?:\s|$)", line)[0]


def library_names() -> set[str]:
    """What the files take from other libraries, which keeps its spelling."""
    taken = set()
    for path in sources() + glob.glob("crates/*/src/*.rt"):
        for use in re.findall(r"use ([A-Za-z_.]+)\.\{([^}]*)\}", read(path)):
            if not re.match(r"Rattle\.(?!std\.|libc\.|io\.)", use[0]):
                taken |= {name.split(" as ")[-1].strip() for name in use[1].split(",")}
    return taken


def declarations() -> tuple[dict[str, set[str]], set[str]]:
    """Each declared name with its files, and the names of definitions among them."""
    where = collections.defaultdict(set)
    definitions = set()
    for path in sources():
        if not is_lemma_file(path):
            continue
        for line in read(path).splitlines():
            found = DECLARED.match(code_of(line))
            if found:
                where[found[3]].add(path)
                if re.search(r"abbrev|unfoldable|record|data", found[2]):
                    definitions.add(found[3])
    return where, definitions


def renaming() -> dict[str, str]:
    library = library_names()
    where, definitions = declarations()
    # The library's `get_or` was getD.
    words = definitions | library | {"getD"}
    tokens = set(where)
    for path in sources():
        for line in read(path).splitlines():
            for token in TOKEN.findall(code_of(line)):
                # Local names, but for those that Rattle makes in the proof of a function.
                if is_lemma_file(path) and re.match(r"[a-z][^-]*-[^-]", token) or re.match(r"[a-z][a-z0-9₀-₉_]*[A-Z]", token) and "-" not in token:
                    tokens.add(token)
    names = {}
    for token in sorted(tokens - library):
        if not re.match(r"[^\W\d_]", token) or token.endswith("-spec"):
            continue
        parts = token.split("-")
        made = snake(parts[0])
        for k in range(1, len(parts)):
            left = {"-".join(parts[i:k]) for i in range(k)}
            right = {"-".join(parts[k:j]) for j in range(k + 1, len(parts) + 1)}
            made += ("-" if left & words and right & words else "_") + snake(parts[k])
        made = OTHERS.get(token, made)
        if token == "getD":
            continue
        if made != token:
            names[token] = made
    return names


def clashes(names: dict[str, str]) -> list[str]:
    """Files in which a new spelling is a name already."""
    told = []
    for path in sources() + sorted(glob.glob("crates/*/src/*.rt")):
        tokens = collections.Counter(t for line in read(path).splitlines() for t in TOKEN.findall(code_of(line) if path.endswith(".antt") else line.split("//")[0]))
        for old, new in names.items():
            if old in tokens and new in tokens:
                told.append(f"{path}: {old} -> {new}, which has {tokens[new]} places there")
    for new, olds in collections.Counter(names.values()).items():
        if olds > 1:
            told.append(f"{new}: {sorted(o for o, n in names.items() if n == new)}")
    return told


def respelt(text: str, names: dict[str, str], skip) -> str:
    def turn(found: re.Match) -> str:
        token = found[0]
        if token not in names or skip(text, found.start(), token):
            return token
        return names[token]

    return TOKEN.sub(turn, text)


def main() -> None:
    names = renaming()
    told = clashes(names)
    if "--list" in sys.argv:
        for old, new in names.items():
            print(old, new)
        print(*told, sep="\n")
        return
    generated = lambda text, at, token: "-" in token and text[at - 1 : at] == "."
    never = lambda text, at, token: False
    for path in sources():
        text = read(path)
        new = respelt(text, names, never if is_lemma_file(path) else generated)
        if new != text:
            with open(path, "w", encoding="utf-8") as file:
                file.write(new)
    names |= {name: snake(name).replace("-", "_") for name in BY_PORT}
    pages = glob.glob("crates/*/src/**/*.rt", recursive=True) + glob.glob("docs/**/*.md", recursive=True) + ["README.md", "CONTRIBUTING.md"]
    for path in pages:
        text = read(path)
        new = respelt(text, names, never)
        if new != text:
            with open(path, "w", encoding="utf-8") as file:
                file.write(new)


if __name__ == "__main__":
    main()
