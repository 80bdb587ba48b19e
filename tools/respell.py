#!/usr/bin/env python3
"""Brings the repository's own names to the spelling of today's Rattle, after its port.py: words in snake case.

usage: python3 tools/respell.py        at the top of the repository, once

A definition, a constructor or a field that was written in camel case (`streamOf`) is written in snake case (`stream_of`)
in specs/, proofs/, the clauses of src/, the must-fail edits and the pages. A lemma keeps its hyphens, as the library's do.
Where port.py wrote a lemma with underscores and a definition now has that very name, the lemma has its hyphens back.
A cycle of functions has a short name.
"""

import os
import re
import subprocess

# lemmas that port.py wrote in snake case, where a definition falls on the same name
LEMMAS = """args_at bits_below bits_of_bytes called_is entries_fit field_in found_ok in_three is_state left_in left_is
number_is on_store operands_of read_cell run_out size_is slice_fits take_in two_is with_first""".split()

# the cycles of functions, which port.py named after all their members
CYCLES = {
    "scan_expr_scan_exprs": "expressions",
    "scan_stmt_scan_stmts": "statements",
    "judge_args_judge_call_judge_expr_judge_operands": "expressions",
    "judge_branches_judge_if_judge_stmt_judge_stmts": "statements",
    "count_branches_count_call_count_expr_count_exprs_count_run_count_stmt_count_stmts": "constructs",
    "run_select_run_state_run_transition": "states",
    "run_action_run_apply_run_arg_run_args_run_assign_run_block_run_body_run_call_run_call_stmt_run_expr_run_if_run_keys"
    "_run_one_run_return_run_stmt_run_stmts_run_table_run_two_run_value_run_verify": "constructs",
}

# a name of the library's, in the texts of edits
LIBRARY = {"getElem"}

TOKEN = re.compile(r"(?<![\w'-])[^\W\d][\w'-]*")
CAMEL = re.compile(r"[a-z][a-z0-9]*[A-Z]")


def snake(word):
    return re.sub(r"([a-z0-9])([A-Z])", lambda m: m.group(1) + "_" + m.group(2).lower(), word)


def files(suffixes):
    for folder, dirs, names in os.walk("crates"):
        dirs[:] = sorted(d for d in dirs if d != "out")
        for name in sorted(names):
            if name.endswith(suffixes):
                yield os.path.join(folder, name)


def rewrite(path, turn):
    with open(path, encoding="utf-8") as f:
        text = f.read()
    new = turn(text)
    if new != text:
        with open(path, "w", encoding="utf-8") as f:
            f.write(new)


def hyphens(text):
    """A lemma's name gets its hyphens back, but where it is a part of a path."""
    names = "|".join(LEMMAS)
    return re.sub(rf"(?<![\w'.-])({names})(?![\w'.-])", lambda m: m.group(1).replace("_", "-"), text)


def words(text):
    def turn(m):
        word = m.group(0)
        return snake(word) if CAMEL.match(word) and word not in LIBRARY else word

    return TOKEN.sub(turn, text)


def cycles():
    for folder, dirs, _ in os.walk("crates", topdown=False):
        for name in dirs:
            if name.startswith("+") and name[1:] in CYCLES:
                os.rename(os.path.join(folder, name), os.path.join(folder, "+" + CYCLES[name[1:]]))

    def turn(text):
        return re.sub(r"(?<=[(+])(\w+)(?=[).])", lambda m: CYCLES.get(m.group(1), m.group(1)), text)

    for path in files((".antt", ".rt")):
        rewrite(path, turn)


def named(text, known):
    return TOKEN.sub(lambda m: snake(m.group(0)) if CAMEL.match(m.group(0)) and snake(m.group(0)) in known else m.group(0), text)


def main():
    cycles()
    for path in files((".antt",)):
        rewrite(path, hyphens)
    known = set()
    for path in files((".antt", ".rt", ".edit")):
        rewrite(path, words)
        with open(path, encoding="utf-8") as f:
            known.update(TOKEN.findall(f.read()))
    pages = ["README.md"] + [os.path.join(d, n) for d in ("docs", "tests", "tools") for n in sorted(os.listdir(d)) if n.endswith(".md")]
    for path in pages:
        rewrite(path, lambda text: named(text, known))
    for crate in sorted(os.listdir("crates")):
        subprocess.run(["rt", "fmt"], cwd=os.path.join("crates", crate), stdout=subprocess.DEVNULL, check=False)


if __name__ == "__main__":
    main()
