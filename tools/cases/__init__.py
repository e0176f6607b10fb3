"""The stored cases of crates/cases, a file a module.

A module has NAME, its file; SEED; and `records`, which takes a random.Random made from the seed and a function for remarks, and gives
the records in order. It may have `files`, the stored files that its records name, and OFTEN, how often an answer has to occur. A new
file of cases is a new module and its name in `cases.FILES`.
"""
from . import caps, carriers, checks, formula, graph, programs, reading, refutations, runs, solver, upgrading

FILES = (reading, upgrading, runs, formula, checks, graph, carriers, refutations, caps, solver, programs)
