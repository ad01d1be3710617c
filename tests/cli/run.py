"""What only real files show, tables of worked rows, files of real forms, mutated texts and the examples of the pages: runs the
program on files in temporary folders.

usage: run.py PATH_OF_YQ [WORD]      with WORD, only the checks and rows whose names hold it
Mutated texts and random edits of real forms have another seed in each run, which is printed; YQ_SEED in the environment sets it. Its
last line is `N passed, N failed` (and `, N skipped` where the machine lacks what a check needs).
"""

import os
import sys

sys.path.insert(0, os.path.dirname(os.path.abspath(__file__)))

import arguments
import compared
import completions
import concurrency
import containers
import diffs
import disks
import docs_agree
import edits
import explaining
import external_writes
import failures
import fault_injection
import forms
import help_examples
import installing
import journal_folder
import journal_trust
import journals
import limits
import links
import lists
import memory
import mutations
import other_users
import owners
import random_edits
import reads
import same_tick
import shells
import slow_texts
import stacks
import swaps
import temp_files
from harness import run_all
from pages import run_pages
from tables import run_tables

CHECKS = [
    edits, diffs, arguments, explaining, help_examples, completions, docs_agree, compared, installing, failures, links, lists, owners,
    other_users, journal_folder, journal_trust, swaps, temp_files, limits, stacks, slow_texts, disks, containers, reads, shells,
    random_edits, forms, mutations, journals, concurrency, external_writes, same_tick, fault_injection, memory,
]

if __name__ == "__main__":
    sys.exit(run_all(CHECKS, [run_tables, run_pages], sys.argv))
