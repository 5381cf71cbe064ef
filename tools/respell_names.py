#!/usr/bin/env python3
"""Respells this repository's own definitions, fields and lemmas as today's Rattle does: words in snake case.

    python3 tools/respell_names.py        at the top of a checkout of the repository, once, right after the kit's port.py

It goes by whole names, in the specs, the proofs, the code's clauses and the pages that speak of them. Names that Rattle
makes (of goals and of facts that are known there) are not in its list, nor are the functions of the code. Nothing is
written where two names would fall together.
"""

import glob
import re
import sys

# definitions, fields and lemmas with a dash or a capital inside
NAMES = """
admitted-true agrees-at-below agrees-below all-given-places all-inside all-places all-rows answerText are-inside
at-column at-end at-index atEnd begins-tells begins-there box-share boxes-laid-more boxes-laid-none
boxes-rise-then-rows boxes-room byPlace changed-first changed-later changed-lt checked-err checked-ok checked-same
closed-form-is-by-place closed-place count-ext count-found count-of-data count-of-parity count-one countAnswer
countedText data-box-takes-one-block-in-m difference-share differenceIs digit-bounds digit-ext digit-front
digit-last digit-moved digit-past digit-row digit-share digitAnswer digitFrom1 digitNumber digitOf digitOpposite
digitSum drop-next each-r-is-the-power end-tells entry-by-place entry-grown entry-in-closed-form entry-of-block
entryAnswer factor-cell factor-identity few-data few-digits few-parity few-rows field-of-numeral field-tells
first-bytes-decide first-digits-are-lowered first-number firstDigitIs folded-few folded-place fourth-number front-lt
generator-entry givenBy gives-first gives-first-data gives-first-parity gives-later gives-own gives-parity
grown-closed grown-is-closed grown-is-closed-form grown-le grownBy holds-exactly-the-admitted inRoom isDigit
laid-laid laid-length later-digits-stay leading-all leading-front line-is-read line-more line-short lines-all
list-alone list-fits list-in-vec list-is list-laid list-laws list-short listAfter listAnswer long-is-no-line low-add
low-is low-lt low-mod low-none low-swap lowered-lt lowering-by-nothing-moves-no-row lowering-no-digit-moves-no-row
lowering-twice-adds-up lowering-undoes-raising lowerings-add-up-digit-by-digit lowerings-change-places many-data
many-parity most-data most-digits most-parity most-rows moved-after moved-lt moved-step none-beyond not-at-end
one-generator one-in-m only-given-places only-places other-share outside-data outside-parity outside-rows
pair-admitted pairsOf parity-box-takes-all-data place-is-a-row place-laws placeAnswer placeAt placeLine places-are
places-le places-length places-more places-rise placesGiven placesText placesWhere product-ext raised-is-a-row
raising-undoes-lowering read-is-line reader-finds-just-the-lines readingList refused-data refused-index refused-pair
refused-parity refused-same refusedText requestOf requestText rising-append row-digit row-ext rows-have rows-laid-no
rows-laid-none rows-laid-yes rows-le rows-length rows-no rows-rise rows-room rows-yes rowsGiven rowsWhere same-list
same-twice second-number share-by-front share-by-last some-data some-digit some-parity split-eqb table-rule
tenDigits then-tells there-are-21 third-number three-ways-one-generator total-all total-but-one total-groups
total-scaled total-split up-low value-more whether-x-is-the-place wordOpposite wordSum wordZero wrap-is written-more
written-turn
"""

# the two lemmas that would fall together with definitions
OTHERWISE = {"at-end": "at_end_some", "not-at-end": "at_end_none"}

# clauses, each with the lemma that it is proved by: these two had one name but for its spelling, and have one again
CLAUSES = {"first_bytes_decide", "list_laws", "place_laws", "reader_finds_just_the_lines"}

# respelled by port.py already, since its library has them: the pages lag behind
IN_PAGES = "numberOf rowsOf in-order"

PAGES = ["README.md", "docs/CODE.md", "docs/REFUSALS.md", "docs/PROGRAM.md", "docs/DECISIONS.md"]
WORD = r"[\w'-]"


def snake(name):
    if name in OTHERWISE:
        return OTHERWISE[name]
    name = re.sub(r"([a-z])([A-Z0-9])", lambda m: m.group(1) + "_" + m.group(2).lower(), name) if "-" not in name else name
    return name.replace("-", "_")


def tokens(text):
    return set(re.findall(WORD + "+", text))


def main():
    names = {old: snake(old) for old in NAMES.split()}
    files = sorted(glob.glob("crates/**/*.antt", recursive=True) + glob.glob("crates/*/src/**/*.rt", recursive=True))
    files = [f for f in files if "/out/" not in f]
    texts = {f: open(f, encoding="utf8").read() for f in files}
    there = set().union(*map(tokens, texts.values()))
    clash = sorted(new for old, new in names.items() if new in there - CLAUSES)
    twice = sorted(new for new in names.values() if list(names.values()).count(new) > 1)
    if clash or twice:
        sys.exit(f"names that would fall together: {clash} {twice}")
    pages = names | {old: snake(old) for old in IN_PAGES.split()}
    for f in PAGES:
        texts[f] = open(f, encoding="utf8").read()
    changed = 0
    for f, text in texts.items():
        table = pages if f in PAGES else names
        pattern = "|".join(sorted(map(re.escape, table), key=len, reverse=True))
        new = re.sub(rf"(?<!{WORD})(?:{pattern})(?!{WORD})", lambda m: table[m.group(0)], text)
        if new != text:
            changed += 1
            open(f, "w", encoding="utf8").write(new)
    print(f"{len(names)} names, {changed} files changed")


main()
