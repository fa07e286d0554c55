#!/usr/bin/env python3
"""Brings the repository's own definitions and lemmas to one spelling: snake case.

usage: python3 tools/spell.py [FOLDER]

It was run once, right after the toolchain's port script, and is kept as the record of what was renamed. It collects the names that
specs/ and proofs/ declare, spells isFirst as is_first and step-in-range as step_in_range, and writes each use of them: in specs/,
in proofs/, in the clauses of src/, and in comments and documents. A lemma that would get the name of a definition ends in _lem.
Functions of src/, types, fields that come from src/, strings, inputs and outputs keep their names. It prints the names that fall together
with another one; there must be none.
"""

import collections
import glob
import os
import re
import sys

PART = r"[^\s(){}\[\],;.«»`\"]+"
COMMENT = re.compile(r"(?m)(?:(?<=\s)|^)(?:--|//)(?=\s|$).*$")
DECLARED = re.compile(rf"(?m)^[ \t]*(?:(?:abbrev|unfoldable|pub|data|record)[ \t]+)*({PART}(?:[ \t]+{PART})*?)[ \t]+:(?=\s)")
BOUND = re.compile(rf"\blet ({PART})(?= [:=])")
CAMEL = re.compile(r"[a-z][\w']*[A-Z][\w']*")
KEBAB = re.compile(r"[a-z][\w']*(?:-[\w']+)+")
# What the port script spelled alike in code, and documents still have as it was.
PORTED = """above-low add-a add-at add-start addressOf all-append all-done all-have all-more all-same and-both and-l and-r answerOf array-back
as-read asSigned asked-low asked-of at-address body-ok body-own bodyOf both-is bytesOf cleared-more core-at coreOf deedOf each-append each-at
endOf ends-with endsAt false-of fields-read fieldsOf filled-at filled-more filled-next filled-none first-holds firstOf flat-rows flip-is
four-bytes front-length goes-to goes-with has-ended has-room header-read held-by high-fits in-order inRange isTaken isWhole kept-at kept-run
kept-step known-at last-more last-none lastEnd left-alone left-out length-exchanged length-from length-front length-last length-removed
lengthOf lentAt lies-within lineOf lines-fit linesFrom minus-one mul-at next-low no-fields none-left none-more not-back not-eqb number-behind
numberAt offset-near offset-read offsetOf on-one one-holds one-more or-assoc or-elim or-l or-r orElse over-none owed-none part-length
pass-kept passedBy plain-back put-all put-back put-in put-then put-two rank-below restOf room-at roomFor row-now row-other run-sound
same-first same-length same-self same-taken servedAt span-fits spanOf start-spec stateOf stays-moved step-left step-spec stepOf stepsOf
stops-at stored-at sum-fits take-spec touch-is true-of whole-from withNext within-low words-append write-read write-spec written-none""".split()
# A lemma about the definition of that name, or one beside it.
LEMMAS = """binding-at client-acts client-fits config-read is-client is-script lead-at may-lead no-config sent-at server-acts server-in-range
unless-full with-binding with-clients with-reserved with-server in-range ends-at""".split()
# Spelled by the port script, and now beside a definition of that name; in these files alone.
BESIDE = {"crates/script/proofs/Records.antt": {"fields_read": "fields_read_lem"}, "crates/rules/proofs/Ranges.antt": {"at_address": "at_address_lem", "row_now": "row_now_lem"}}
# After a function of the library that has another name now.
OTHER = {"getD-from": "get_or_from"}


def read(path):
    with open(path, encoding="utf-8") as f:
        return f.read()


def spelled(name):
    if name in OTHER:
        return OTHER[name]
    plain = re.sub(r"(?<=[a-z0-9])(?=[A-Z])", "_", name).replace("-", "_").lower()
    return plain + "_lem" if name in LEMMAS else plain


def names(paths):
    found = set()
    for path in paths:
        text = COMMENT.sub("", read(path))
        each = [n for group in DECLARED.findall(text) for n in group.split()] + BOUND.findall(text)
        found |= {n for n in each if CAMEL.fullmatch(n) or KEBAB.fullmatch(n)}
    return found


def main(root):
    os.chdir(root)
    shared = sorted(glob.glob("crates/*/specs/**/*.antt", recursive=True) + glob.glob("crates/*/proofs/*.antt"))
    of_functions = sorted(glob.glob("crates/*/proofs/*/*.antt"))
    sources = sorted(glob.glob("crates/*/src/*.rt"))
    table = {n: spelled(n) for n in sorted(names(shared))}
    together = collections.defaultdict(list)
    for old, new in table.items():
        together[new].append(old)
    for new, each in together.items():
        if len(each) > 1:
            print(f"fall together: {' '.join(each)} -> {new}")

    word = re.compile(rf"(?<![^\s(){{}}\[\],;.«»`\"]){PART}")

    def turn(text, table, more={}):
        return word.sub(lambda m: more.get(m[0]) or table.get(m[0], m[0]), text)

    camel = {a: b for a, b in table.items() if "-" not in a}

    def turned(text, more={}):
        """Code whole; of a comment what is in camel case, and what stands between backticks."""
        out, at = [], 0
        for m in COMMENT.finditer(text):
            note = re.sub(r"`[^`\n]*`", lambda q: turn(q[0], table), turn(m[0], camel))
            out += [turn(text[at : m.start()], table, more), note]
            at = m.end()
        return "".join(out + [turn(text[at:], table, more)])

    documents = table | {n: spelled(n) for n in PORTED}
    for path in shared + of_functions + sources:
        text = read(path)
        new = turned(text, BESIDE.get(path, {}))
        if new != text:
            with open(path, "w", encoding="utf-8") as f:
                f.write(new)
    for path in sorted(glob.glob("*.md") + glob.glob("docs/*.md")):
        if os.path.basename(path).startswith("PORT"):
            continue
        text = read(path)
        new = re.sub(r"`[^`\n]*`", lambda q: turn(q[0], documents), text)
        if new != text:
            with open(path, "w", encoding="utf-8") as f:
                f.write(new)


if __name__ == "__main__":
    main(sys.argv[1] if len(sys.argv) > 1 else ".")
