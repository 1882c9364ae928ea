#!/usr/bin/env python3
"""Spells this repository's own definitions and lemmas as today's Rattle does.

Run once, at the top of a checkout, right after /opt/rattle/port/port.py. Words are in snake case, types and
facts in camel case; a dash stays only where it joins the names of two definitions. Names that Rattle makes
(goals, steps), names of the library and functions of src/ are left alone.
"""

import pathlib
import re

# A fact is spelled as a type.
FACTS = {
    "lawful-tick": "LawfulTick",
    "lawful-renaming": "LawfulRenaming",
    "Free-in": "FreeIn",
    "◌free-in◌": "◌FreeIn◌",
    # port.py takes this hypothesis for a fact.
    "Clean-All": "clean_all",
    # Other names under which clauses import definitions.
    "image-of": "image_of",
    "command-of": "command_of",
    "root-entry": "root_entry",
    "across-of": "across_of",
}

# The dash joins the names of two definitions, the outer call first.
JOINED = {
    "gather-digit": "digit-gather",
    "left-out-set": "left_out-set",
    "nth-take": "slice_get-take",
    "nth-take-getD": "slice_get-take_some",
    "nth-take-past": "slice_get-take_past",
    "or-digit": "digit-bit_or",
    "pack-from-image": "image-pack_from",
    "pack-from-lt": "pack_from-lt",
    "pack-image": "image-pack",
    "xor-digit": "digit-bit_xor",
}

# Words: each dash becomes `_`.
WORDS = """
a-constructor a-row a-variable accepts-move across-is across-lawful add-ticks after-end all-marked all-passed
all-step all-stop alone-elsewhere alone-here alone-lt among-with an-arity apply-now apply-row arities-fit
arity-kept arity-now arity-of arity-of-kept arity-of-some as-tuple b-root back-there bind-now bind-row
blank-well both-here both-image both-lt byte-fault byte-fault-at chain-append chain-lawful chain-map
chain-move chain-one chain-root chain-turn changed-flat changed-joined changed-length command-then
compose-renamings constructor-kept constructors-fit count-all count-more data-only declare-extends
declare-some declared-well digit-past each-kept each-now end-byte ending-none entry-is entry-none every-below
every-tree every-tuple exchange-of-names exchange-of-others extend-all extend-all-push extended-by
extended-well facts-after fault-cut fault-end fault-none fault-of fault-stop fault-tail fault-unknown
fault-whole faultless-spelt faulty-entry first-fault fits-binding fits-now fits-tuple form-faultless
form-reads-back front-is front-shorter front-well front-whole fronts-fit gather-elsewhere gather-free
gather-from gather-here gather-more gathered-compose gathered-inverse grows-as grows-sound gy-lawful hang-end
hang-leave hang-lift hang-start how-many how-many-end how-many-here how-many-push hung-flat hung-joined
hung-link i-below identity-image identity-renaming inverse-compose inverse-identity inverse-image
inverse-inverse inverse-is inverse-renaming is-data item-fault items-few j-below kept-none kept-sound
kept-told lawful-compose lawful-identity lawful-inverse lawful-inverses lawful-pack lawful-seen lawful-well
lay-all lay-end lay-more lay-on left-inverse length-bytes length-form length-kept lifted-link linked-sound
longer-arities longer-variables lowest-barren made-here made-later made-never maker-later makes-a mask-bit
minus-ticks most-arities most-constructors most-name-arities most-name-variables most-parts most-rows
most-variables m₀-lawful name-arities name-only name-variables names-names names-there new-said no-command
no-entry no-facts no-ticks none-among none-some nonzero-past not-all not-before not-both not-here not-lawful
not-refused not-twice not-whole nothing-told nth-kept nth-push old-said one-backwards one-refusal one-step
one-telling ones-alone ones-or opens-past opens-then operand-count operand-list operand-parts or-again
or-digits-lt or-one pack-equal pack-from pack-of-images packed-back packed-few packed-form packed-past
packed-spelt packed-whole parts-few parts-of passed-all passed-more past-test place-from present-arity
present-row put-more read-is-form refuses-early refuses-not refuses-one renaming-laws rest-is right-inverse
room-less root-a root-b root-i root-j root-link row-arity row-arity-at row-fits-now rows-have same-barren
same-fault same-link same-only seen-from seen-has seen-lawful seen-lt settled-one sheet-in sheet-more sheet-of
shifted-exchange solve-left solve-right sound-add spelt-of stays-root stop-cut stop-end stop-unknown
swap-inverses swap-lawful swept-add swept-skip take-told takes-marked to-b told-one told-some told-suc top-i
top-j tuple-now tuple-row tuple-tree turn-lt turned-image two-off untold-rest used-by-arity used-by-row
value-at variable-row variables-fit way-chain way-i way-j way-lawful way-more way-move way-one way-root way-to
well-sorted well-sorted-arity well-sorted-row when-seen when-unseen whole-cut whole-known wide-here wide-split
width-most with-fair with-from with-instead with-map with-new with-old with-sound with-to x-lawful xor-back
xor-digits-lt y-lawful
""".split()

NAMES = {**{word: word.replace("-", "_") for word in WORDS}, **FACTS, **JOINED}
TOKEN = re.compile(r"[^\s(){}\[\];,.λ|:`]+")


def respelled(text: str) -> str:
    return TOKEN.sub(lambda m: NAMES.get(m.group(), m.group()), text)


def main() -> None:
    files = [p for kind in ("*.antt", "*.rt") for p in sorted(pathlib.Path("crates").rglob(kind))]
    for path in files:
        if "out" in path.parts:
            continue
        old = path.read_text()
        new = respelled(old)
        if new != old:
            path.write_text(new)


if __name__ == "__main__":
    main()
