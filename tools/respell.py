#!/usr/bin/env python3
"""Brings the repository's own definitions and lemmas to snake case, as the library spells its own. usage: tools/respell.py [ROOT]

Run once, straight after port.py. It renames what the .antt files of specs/ and proofs/ declare, and binders with a dash, in every .antt and .rt file. Functions of
src/ and names of the library stay. Names that the rule alone would make fall together with another one are in TOGETHER and IN_FILES.
"""

import os
import re
import sys

TOKEN = re.compile(r"[A-Za-zα-ωΑ-Ω_][A-Za-z0-9_'′α-ωΑ-Ω₀-₉ℕℤ-]*")
DECLARES = re.compile(r"^\s*(?:abbrev |unfoldable )?(?:pub )?((?:[^\W\d][^\s:(){}]*)(?: [a-z][^\s:(){}]*)*) (?:: |\{)")
USES = re.compile(r"(?m)^(?:ghost )?(?:pub )?use ([^\s{;]+)\.\{([^}]*)\}")
CRATES = ["axis", "mesh", "maps", "files", "cases", "pump", "table", "calls"]

# A lemma beside the definition that it is about, and parts of a theorem named after a definition that they speak of.
TOGETHER = {
    "scaled-hat": "scaled_hat_lem",
    "scaled-weight": "scaled_weight_lem",
    "same-triple": "same_triple_lem",
    "least-of": "least_of_lem",
    "isFile": "file_here",
    "changed-by": "changed_by_lem",
    "good-ends": "good_ends_there",
    "first-four": "first_four_lem",
    "looks-good": "looks_good_lem",
    "looks-sound": "looks_sound_lem",
    "step-on": "step_on_lem",
    "new-anchors": "counts_new_anchors",
    "blends-of": "blends_of_lem",
    "refused-step": "refused_step_lem",
    "no-split": "no_split_there",
    "values-set": "values_set_lem",
    "but-marks": "but_marks_lem",
    "kept-mark": "kept_mark_lem",
    "table-values": "table_values_lem",
    "in-domain": "in_domain_lem",
}
# The same for names that port.py has turned already, in these files alone.
IN_FILES = {
    "maps/proofs/Changing.antt": {"first_step": "first_step_lem", "split_step": "split_step_lem"},
    "mesh/proofs/Weights.antt": {"scaled_value": "scaled_value_lem"},
    "maps/proofs/ExactSums.antt": {"scaled_value": "scaled_value_lem"},
    "pump/proofs/ByLines.antt": {"in_buffer": "in_buffer_lem"},
    "pump/proofs/Demand3.antt": {"in_buffer": "in_buffer_lem"},
}
# Calls of src/ whose names a proof's folder repeats with dashes are the check's own names: they are left.


def snake(name):
    name = name.replace("-", "_")
    return re.sub(r"([a-z0-9])([A-Z])", lambda m: m.group(1) + "_" + m.group(2).lower(), name)


def read(path):
    with open(path, encoding="utf-8") as f:
        return f.read()


def main(root):
    files = []
    for folder, dirs, names in os.walk(os.path.join(root, "crates")):
        dirs[:] = sorted(d for d in dirs if d != "out")
        files += [os.path.join(folder, n) for n in sorted(names) if n.endswith((".antt", ".rt"))]
    library, own = set(), set()
    for path in files:
        text = read(path)
        for use in USES.finditer(text):
            crate = re.match(r"Rattle\.(\w+)\.", use.group(1))
            if not crate or crate.group(1) not in CRATES:
                library |= {w.strip() for n in use.group(2).split(",") for w in n.split(" as ")}
        # A proof of a function declares only names of the check's own making.
        if path.endswith(".antt") and not path.endswith("/Proof.antt"):
            for line in text.split("\n"):
                found = DECLARES.match(line)
                if found:
                    own |= set(found.group(1).split())
                if not line.lstrip().startswith("--") and not line.startswith("use "):
                    own |= {w for w in TOKEN.findall(line) if "-" in w}
    turn = {n: TOGETHER.get(n, snake(n)) for n in own - library if n[0].islower() and ("-" in n or re.search("[a-z][A-Z][a-z]", n))}
    for path in files:
        text = read(path)
        here = turn | next((v for k, v in IN_FILES.items() if path.endswith("crates/" + k)), {})
        new = "\n".join(l if l.lstrip().startswith(("--", "//")) and path.endswith(".rt") else TOKEN.sub(lambda m: here.get(m.group(0), m.group(0)), l) for l in text.split("\n"))
        if new != text:
            with open(path, "w", encoding="utf-8") as f:
                f.write(new)
    print(f"{len(turn)} names")


if __name__ == "__main__":
    main(sys.argv[1] if len(sys.argv) > 1 else ".")
