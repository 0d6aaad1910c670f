#!/usr/bin/env python3
"""Makes the stored test of cap_vectors: standard input (records, each a call) and the output that is expected. Each group of them has its
script; tests/records.py has the format.

Run: /usr/bin/python3 -B tests/make_vectors.py crates/cap_vectors
"""
import sys

from make_descriptors import descriptors
from make_gate import gate
from make_ids import ids
from make_items import items
from make_leases import leases
from make_matching import matching
from make_narrowing import narrowing
from make_store import store
from records import Vectors
from runs import Run

v = Vectors()
# one image for all calls on one, as the program has it
r = Run(v)
GROUPS = (
    ("Items", items, v),
    ("Matching", matching, v),
    ("Descriptors", descriptors, v),
    ("Narrowing", narrowing, v),
    ("The gate", gate, r),
    ("Leases", leases, r),
    ("The store of a thousand", store, r),
    ("Ids", ids, r),
)
for name, group, to in GROUPS:
    v.heading("# " + name)
    before = v.cases
    group(to)
    print(f"{name}: {v.cases - before} cases")
v.save(sys.argv[1])
