#!/usr/bin/env python3
"""Spells the repository's own definitions and lemmas as today's Rattle does: words in snake case. Run once, at the top, after port.py.

It reads crates/: every .antt and .rt file (code has no such names, so a word of a clause or a comment is told by its letters alone) and
every must-fail edit. A name in camel case that begins with a small letter gets underscores; FALLEN has the names that would fall
together with another, or with a word of the language.
"""

import glob
import re
import sys

WORD = re.compile(r"(?<![\w'₀-₉])[a-z][\w'₀-₉]*")
# units and words of the texts
KEPT = {"eRPM", "mAh"}
# what the prover makes, as uint_Lawful
MADE = re.compile(r"_[A-Z]")

# In all files: a count is named as no field of the statistics is; `first_of` is a tactic.
FALLEN = {
    "requestsQueued": "queued_requests",
    "requestsStarted": "started_requests",
    "mismatchedAcks": "acks_mismatched",
    "unsolicitedFrames": "frames_unsolicited",
    "first_of": "kind_number",
}
# In one file: a lemma that has the name of the definition that it is about.
FALLEN_IN = {
    "crates/hex_lines/proofs/RoundTrip.antt": {"all_digits": "all_digits-hex_of"},
    "crates/booking/proofs/WireBytes.antt": {"one_more": "one_more-sized"},
    "crates/attribution/proofs/Within.antt": {"no_bytes": "no_bytes-none"},
}
NUMBERS_OF = "crates/esc_records/proofs/"


def spelt(path, word):
    one = FALLEN_IN.get(path, {}).get(word) or FALLEN.get(word)
    if one:
        return one
    if path.startswith(NUMBERS_OF) and word == "numbers_of":
        return "numbers_of-fields"
    if word in KEPT or MADE.search(word) or not re.search(r"[A-Z]", word):
        return word
    return re.sub(r"(?<=[a-z0-9])[A-Z]", lambda m: "_" + m.group(0).lower(), word)


def main():
    paths = [p for end in ("antt", "rt") for p in glob.glob(f"crates/**/*.{end}", recursive=True)]
    paths += glob.glob("crates/*/must-fail/*.edit")
    changed = 0
    for path in sorted(p for p in paths if "/out/" not in p):
        with open(path, encoding="utf-8") as file:
            before = file.read()
        after = WORD.sub(lambda m: spelt(path, m.group(0)), before)
        if after != before:
            changed += 1
            with open(path, "w", encoding="utf-8") as file:
                file.write(after)
    print(f"respell: {changed} of {len(paths)} files")
    return 0


if __name__ == "__main__":
    sys.exit(main())
