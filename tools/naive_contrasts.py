#!/usr/bin/env python3
"""Writes what crates/contrasts has to print: for pairs of random descriptions, whether the first suits the second.

The answers come from a search for an element that satisfies the first description and not the second. It goes by what
docs/LANGUAGE.md says that a description means, over trees: which of the parts of a description an element can satisfy
together, tried with every set of atoms, every reading and every number of fillers up to one more than is written.
There are no forms in it. Run it from the top of the repository.
"""
import itertools
import sys

THING, NOTHING, PRIM, WITHIN, AND, ALL, AT_LEAST, AT_MOST = range(8)
LINES, PAIRS_IN_LINE = 100, 100


# The descriptions, as the program makes them.

class Chance:
    def __init__(self, state):
        self.state = state

    def below(self, n):
        self.state = (self.state * 1664525 + 1013904223) % 2**32
        return (self.state >> 16) % max(n, 1)

    def op(self, lower):
        return [THING, NOTHING, PRIM, WITHIN, WITHIN, AT_LEAST, AT_LEAST, AT_MOST, AT_MOST,
                ALL, ALL, AND, AND, AND, AND, AND][self.below(16 if lower else 9)]

    def node(self, i):
        op, which, count = self.op(i > 0), self.below(2), self.below(3)
        left, right = self.below(i), max(i - 1, 0)
        low, high = self.below(4), self.below(4)
        return op, which, count, left, right, low, high


def pair(chance):
    length = chance.below(7) + 1
    changed = chance.below(length)
    first, second = [], []
    for i in range(length):
        node = chance.node(i)
        first.append(node)
        second.append(chance.node(i) if i == changed else node)
    return concept(first), concept(second)


def concept(nodes):
    """What the last node describes, as a tuple that starts with its op."""
    made = []
    for op, which, count, left, right, low, high in nodes:
        made.append({
            PRIM: (PRIM, which),
            WITHIN: (WITHIN, low, high),
            AND: (AND, made[left] if made else None, made[right] if made else None),
            ALL: (ALL, which, made[left] if made else None),
            AT_LEAST: (AT_LEAST, which, count),
            AT_MOST: (AT_MOST, which, count),
        }.get(op, (op,)))
    return made[-1]


# The search.

def parts(whole):
    """A description and its conjuncts."""
    yield whole
    if whole[0] == AND:
        yield from parts(whole[1])
        yield from parts(whole[2])


def ways(wanted):
    """The sets of what is wanted that one element can satisfy, with nothing else of it."""
    flat = {part for whole in wanted for part in parts(whole) if part[0] != AND}
    atoms = sorted({part[1] for part in flat if part[0] == PRIM})
    ends = {part[1] for part in flat if part[0] == WITHIN} | {part[2] for part in flat if part[0] == WITHIN}
    readings = sorted({end + step for end in ends for step in (-1, 0, 1)} | {0})
    own = {frozenset(part for part in flat
                     if part[0] == THING
                     or part[0] == PRIM and part[1] in chosen
                     or part[0] == WITHIN and part[1] <= reading <= part[2])
           for n in range(len(atoms) + 1) for chosen in itertools.combinations(atoms, n) for reading in readings}
    for role in sorted({part[1] for part in flat if part[0] in (ALL, AT_LEAST, AT_MOST)}):
        own = {before | more for before in own for more in role_ways(role, flat)}
    return {frozenset(whole for whole in wanted if holds(whole, sure)) for sure in own}


def holds(whole, sure):
    return all(part in sure for part in parts(whole) if part[0] != AND)


def role_ways(role, flat):
    """The same of what is said of one role: every number of fillers, and every set of those that may be among them."""
    said = [part for part in flat if part[0] in (ALL, AT_LEAST, AT_MOST) and part[1] == role]
    below = {part[2] for part in said if part[0] == ALL}
    most = max([part[2] for part in said if part[0] != ALL], default=0) + 1
    # What all fillers satisfy, of one filler, of two, and so on.
    one = ways(below)
    shared = {0: {frozenset(below)}, 1: one}
    for n in range(2, most + 1):
        shared[n] = shared[n - 1] | {a & b for a in shared[n - 1] for b in one}
    return {frozenset(part for part in said
                      if part[0] == ALL and part[2] in common
                      or part[0] == AT_LEAST and n >= part[2]
                      or part[0] == AT_MOST and n <= part[2])
            for n in range(most + 1) for common in shared[n]}


def letter(first, second):
    found = ways({first, second})
    if not all(any(whole in sure for sure in found) for whole in (first, second)):
        return 'c'
    return 'n' if any(first in sure and second not in sure for sure in found) else 'y'


def main():
    chance = Chance(1)
    lines = [''.join(letter(*pair(chance)) for _ in range(PAIRS_IN_LINE)) for _ in range(LINES)]
    with open('crates/contrasts/stdout', 'w') as out:
        out.write('\n'.join(lines) + '\n')
    print({which: ''.join(lines).count(which) for which in 'ync'}, file=sys.stderr)


main()
