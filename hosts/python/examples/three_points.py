#!/usr/bin/env python3
"""All transformations of three points, step by step: python3 three_points.py

Each step prints what it finds; the comment in front of it says what that means.
"""

# %% The table. Its 27 elements are the ways to send each of three points to one of them, in list order.
from collections import Counter
from itertools import product

from tickdrizzle import Table

everything = Table.transformations(3)
lists = list(product((1, 2, 3), repeat=3))
print("order:", everything.order)

# %% The product is composition from left to right: first the row's transformation, then the column's.
swap, cycle = lists.index((2, 1, 3)) + 1, lists.index((2, 3, 1)) + 1
print("(2, 1, 3) then (2, 3, 1) is", lists[everything[swap, cycle] - 1])

# %% Index and period: after so many steps the powers of an element repeat, and every so many.
kinds = Counter((powers.index, powers.period) for powers in map(everything.index_period, range(1, 28)))
for (index, period), count in sorted(kinds.items()):
    print(f"index {index}, period {period}: {count} elements")

# %% The units, which can be undone, are the six permutations: a table of its own, the symmetric group.
symmetric = everything.part([swap, cycle])
print("units:", [lists[element - 1] for element in symmetric.elements])
print("its symmetries:", sum(1 for _ in symmetric.table.isomorphisms(symmetric.table)))

# %% The symmetries of the whole table: one for each way to rename the three points.
symmetries = list(everything.isomorphisms(everything))
print("symmetries of all:", len(symmetries))

# %% A reversed isomorphism would exchange the factors. There is none: constants absorb from one side alone.
print("reversed symmetries:", sum(1 for _ in everything.reversed_isomorphisms(everything)))

# %% The table of two points lies in that of three, in so many ways, and on so many different sets of elements.
two = Table.transformations(2)
print("embeddings of two points:", sum(1 for _ in two.embeddings(everything)), "on", two.copies(everything), "sets")

# %% Each part needs so many points; the units need three, what one swap generates needs two.
print("points:", symmetric.table.degree(), everything.part([swap]).table.degree())
