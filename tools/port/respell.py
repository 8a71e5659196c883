#!/usr/bin/env python3
"""Respells the repository's own antt names: words and lemmas in snake case, facts and types in camel case.

usage: python3 tools/port/respell.py [--dry] [FOLDER]

FOLDER (this folder, if none is given) has crates/. To be run once, after the kit's port.py and before any edit by hand.
A name is respelled where it is declared in a file of specs/ or proofs/ (a definition, a lemma, a field or a constructor, but
not a goal of a function's proof, whose name the kit makes), and wherever it stands as a whole word in an .antt file or an
.rt file. Names of the code keep their spelling. A new name that stands somewhere already gets another, from OTHER.
"""

import os
import re
import sys

# Names whose snake case is taken, and what they are called in its place: a lemma beside a definition ends in _lem, a
# definition beside a function of the code in _of.
OTHER = {
    "admit-check": "admit_check_lem",
    "advance-after": "advance_after_lem",
    "at-work": "at_work_lem",
    "cap-in": "cap_in_lem",
    "caps-over": "caps_over_lem",
    "ended-at-rest": "ended_at_rest_lem",
    "ended-early": "ended_early_lem",
    "ended-late": "ended_late_lem",
    "forecast-early": "forecast_early_lem",
    "last-actions": "last_actions_lem",
    "late-server": "late_server_lem",
    "leave-check": "leave_check_lem",
    "never-ended": "never_ended_lem",
    "never-late": "never_late_lem",
    "not-released": "not_released_lem",
    "not-served": "not_served_lem",
    "one-tick-more": "one_tick_more_lem",
    "past-count": "past_count_lem",
    "record-bytes": "record_bytes_lem",
    "refused-freely": "refused_freely_lem",
    "row-due": "row_due_lem",
    "served-at-rest": "served_at_rest_lem",
    "serves-at-work": "serves_at_work_lem",
    "start-check": "start_check_lem",
    "bit-and": "bit_and_lem",
    "bit-or": "bit_or_lem",
    "read-plan": "read_plan_lem",
    "word-bytes": "word_bytes_lem",
    "actionLine": "action_line_of",
    "firstAmount": "first_amount_of",
    "firstBoundary": "first_boundary_of",
    "forecastLine": "forecast_line_of",
    "lineText": "line_text_of",
    "planFault": "plan_fault_of",
    "refusalNumber": "refusal_number_of",
    "scriptFault": "script_fault_of",
    "serverLine": "server_line_of",
    "untilEnd": "until_end_of",
    "marksLead": "marks_lead_of",
    "endOrZero": "end_or_zero_of",
    "serverOrZero": "server_or_zero_of",
}

NAME = r"[A-Za-zℕμ][\w'ℕμ′]*(?:-[\w'ℕμ′≡≤<∷]+)*"
WORD = re.compile(r"(?<![\w'-])" + NAME + r"(?![\w'-])")
DECLARED = re.compile(r"^(\s*)(?:(?:pub|abbrev|unfoldable|record|data|ruleset|module)\s+)*(" + NAME + r")\s*(?:[:({]|$)")

# Names of the library that a line of a proof can begin with, so that they look declared there.
LIBRARY = {"All-from_get_or", "All-weaker", "cond-true", "le_of_mul-le-mul_right"}


def files(root, ending):
    for folder, dirs, names in os.walk(os.path.join(root, "crates")):
        dirs[:] = sorted(d for d in dirs if d != "out")
        for name in sorted(names):
            if name.endswith(ending):
                yield os.path.join(folder, name)


def read(path):
    with open(path, encoding="utf-8") as file:
        return file.read()


def declared(path):
    """The names that a file declares, but for the goals that it answers."""
    for line in read(path).splitlines():
        if line.lstrip().startswith(("--", "use ", "pub use ", "unfolding", "let ", "open ")) or "=" in line.split(":")[0]:
            continue
        found = DECLARED.match(line)
        if not found or found.group(2) in ("mod", "use", "abbrev", "elim", "record", "let", "module"):
            continue
        if re.search(r":\s*(goal|need|given)\.", line):
            continue
        yield found.group(2)


def respelled(name):
    if name[0].isupper():
        return "".join(part[0].upper() + part[1:] for part in name.split("-")) if "-" in name else name
    parts = re.sub(r"(?<=[a-z0-9])([A-Z])", r"-\1", name).split("-")
    return "_".join(part if not part[0].isupper() else part.lower() for part in parts)


def main(argv):
    dry = "--dry" in argv
    root = ([a for a in argv if a != "--dry"] or ["."])[0]
    antt, rust = list(files(root, ".antt")), list(files(root, ".rt"))
    own = {name for path in antt for name in declared(path)} - LIBRARY
    turned = {}
    for name in sorted(own):
        new = OTHER.get(name, respelled(name))
        if new != name:
            turned[name] = new
    words = {}
    for path in antt + rust:
        for found in WORD.finditer(read(path)):
            words.setdefault(found.group(), set()).add(os.path.relpath(path, root))
    news = {}
    for name, new in turned.items():
        news.setdefault(new, []).append(name)
    for new, names in sorted(news.items()):
        if len(names) > 1:
            print(f"two names fall together: {', '.join(names)} as {new}")
        if new in words and new not in OTHER.values():
            print(f"taken: {', '.join(names)} as {new}, in {', '.join(sorted(words[new])[:6])}")
    print(f"{len(turned)} names")
    if dry:
        return
    for path in antt + rust:
        text = read(path)
        new = WORD.sub(lambda found: turned.get(found.group(), found.group()), text)
        if new != text:
            with open(path, "w", encoding="utf-8") as file:
                file.write(new)


if __name__ == "__main__":
    main(sys.argv[1:])
