#!/usr/bin/env python3
"""Prints the table of X(m), m from 101 to 2000, as it stands in crates/powers/src/power_table.rt.

X(m) is the least whole number X with m x X^50 at least 100 x (X + 1,000,000)^50 (document 01, 'Curve numbers').
Nothing rests on this script: the check computes the rule over the table itself (`table_rule`, in crates/powers/proofs/PowerTable.antt,
is over `X_TABLE`).
"""


def enough(m, x):
    return m * x**50 >= 100 * (x + 1_000_000) ** 50


def least(m):
    low, high = 0, 1
    while not enough(m, high):
        low, high = high, 2 * high
    while low + 1 < high:
        middle = (low + high) // 2
        low, high = (low, middle) if enough(m, middle) else (middle, high)
    return high


for m in range(101, 2001):
    print(f"    {least(m)},")
