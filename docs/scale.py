#!/usr/bin/env python3
"""Counts the rounds and bytes by which rows that are equal in pairs become one on many machines.

    docs/scale.py [--largest N] [--partitions P]

N is the most rows, 10,000,000 by default, and P the number of machines, 64. Needs numpy and scipy, and for the default
some 3 GB of memory. Rows are names of 8 bytes, and each lives on the machine that its hash names. The pairs lie
anywhere. In a round

  1. each machine joins the pairs that it has, as on one machine, and sends for each row of a class but the least
     the least one, to the machine where the row lives: 16 bytes, where that is another machine;
  2. each machine takes for each row the least one that it was sent, or had before, for its parent, and keeps a pair of
     it with each other one that it was sent or had, for the next round.

Once the pairs that are left are no more than a P-th of the rows, each row asks its parent for the parent's parent,
until nothing changes: a round is a question and an answer, 16 bytes each, and a machine asks once for each parent.
Then the pairs, each of two rows that have no parent, go to one machine, which joins them and answers; and each row
asks anew. The outcome is compared with the components that scipy finds. Printed are for each graph the rounds of
joining and of asking, the bytes over the network for each row, what the busiest machine receives in the heaviest
round, as a multiple of the mean, and the bytes in all. Rows marked `reckoned` weren't simulated: they have the bytes a
row of the largest size, and for each factor of ten as many rounds more as from a tenth to that size.
"""
import argparse

import numpy
from scipy.sparse import coo_matrix
from scipy.sparse.csgraph import connected_components

MESSAGE = 16
PAPER = 1_000_000_000


def owner_of(rows, machines):
    """The machine on which a row lives."""
    mixed = rows.astype(numpy.uint64) * numpy.uint64(0x9E3779B97F4A7C15)
    return ((mixed >> numpy.uint64(40)) % numpy.uint64(machines)).astype(numpy.int32)


def graph(kind, size, chance):
    """Pairs of rows, whose names have nothing to do with their places."""
    names = chance.permutation(size)
    if kind == "pairs":
        return names[0 : size - 1 : 2], names[1:size:2]
    if kind == "chain":
        return names[:-1], names[1:]
    if kind == "star":
        return numpy.full(size - 1, names[0]), names[1:]
    return chance.integers(0, size, size), chance.integers(0, size, size)


def stars(left, right, machine, machines):
    """What each machine sends in step 1: the row, the least one of its class there, and the sender."""
    order = numpy.argsort(machine, kind="stable")
    ends = numpy.searchsorted(machine[order], numpy.arange(machines + 1))
    found = []
    for number in range(machines):
        own = order[ends[number] : ends[number + 1]]
        if len(own) == 0:
            continue
        rows, places = numpy.unique(numpy.concatenate([left[own], right[own]]), return_inverse=True)
        ones = numpy.ones(len(own), dtype=numpy.int8)
        links = coo_matrix((ones, (places[: len(own)], places[len(own) :])), shape=(len(rows), len(rows)))
        _, classes = connected_components(links, directed=False)
        _, firsts = numpy.unique(classes, return_index=True)
        least = rows[firsts[classes]]
        others = rows != least
        found.append((rows[others], least[others], numpy.full(others.sum(), number, dtype=numpy.int32)))
    return [numpy.concatenate(one) for one in zip(*found)]


class Network:
    """Counts what is sent from machine to machine."""

    def __init__(self, machines):
        self.machines, self.sent, self.busiest, self.heaviest = machines, 0, 0.0, 0

    def send(self, senders, receivers):
        away = receivers[senders != receivers]
        self.sent += MESSAGE * len(away)
        if len(away) > self.heaviest:
            self.heaviest = len(away)
            self.busiest = numpy.bincount(away, minlength=self.machines).max() * self.machines / len(away)


def join(parent, left, right, machines, network, chance):
    """Joins in rounds until few pairs are left, and gives their number and these pairs."""
    machine = chance.integers(0, machines, len(left)).astype(numpy.int32)
    rounds = 0
    while len(left) > len(parent) // machines:
        rounds += 1
        rows, least, senders = stars(left, right, machine, machines)
        network.send(senders, owner_of(rows, machines))
        known = numpy.unique(rows)
        known = known[parent[known] != known]
        rows, least = numpy.concatenate([rows, known]), numpy.concatenate([least, parent[known]])
        order = numpy.lexsort((least, rows))
        rows, least = rows[order], least[order]
        is_first = numpy.r_[True, rows[1:] != rows[:-1]]
        is_new = is_first | numpy.r_[True, least[1:] != least[:-1]]
        leasts = least[is_first][numpy.cumsum(is_first) - 1]
        parent[rows[is_first]] = least[is_first]
        kept = is_new & ~is_first
        left, right, machine = leasts[kept], least[kept], owner_of(rows[kept], machines)
    return rounds, left, right, machine


def finish(parent, left, right, machine, machines, network):
    """Joins the pairs that are left on one machine. The rows have the roots of their trees for parents."""
    for rows in (left, right):
        network.send(machine, owner_of(rows, machines))
        network.send(owner_of(rows, machines), machine)
    first = numpy.zeros_like(machine)
    network.send(machine, first)
    left, right = parent[left], parent[right]
    apart = left != right
    if not apart.any():
        return
    rows, least, senders = stars(left[apart], right[apart], first[apart], machines)
    network.send(senders, owner_of(rows, machines))
    parent[rows] = least


def jump(parent, machines, network):
    """Each row gets the root of its tree for its parent. Gives the rounds."""
    rounds = 0
    asking = numpy.flatnonzero(parent != numpy.arange(len(parent)))
    while len(asking):
        rounds += 1
        parents = parent[asking]
        questions = numpy.unique(owner_of(asking, machines) * numpy.int64(len(parent)) + parents)
        own, asked = (questions // len(parent)).astype(numpy.int32), owner_of(questions % len(parent), machines)
        network.send(own, asked)
        network.send(asked, own)
        further = parent[parents]
        parent[asking] = further
        asking = asking[further != parents]
    return rounds


def simulate(kind, size, machines):
    chance = numpy.random.default_rng(size)
    left, right = graph(kind, size, chance)
    parent, network = numpy.arange(size), Network(machines)
    rounds, *pairs = join(parent, left, right, machines, network, chance)
    asked = jump(parent, machines, network)
    if len(pairs[0]):
        finish(parent, *pairs, machines, network)
        rounds, asked = rounds + 1, asked + 1 + jump(parent, machines, network)
    links = coo_matrix((numpy.ones(len(left), dtype=numpy.int8), (left, right)), shape=(size, size))
    _, classes = connected_components(links, directed=False)
    _, firsts = numpy.unique(classes, return_index=True)
    if not numpy.array_equal(parent, firsts[classes]):
        raise SystemExit(f"{kind} {size}: other components than scipy's")
    return rounds, asked, network.sent / size, network.busiest


def main():
    words = argparse.ArgumentParser()
    words.add_argument("--largest", type=int, default=10_000_000)
    words.add_argument("--partitions", type=int, default=64)
    words = words.parse_args()
    print("| graph | rows | rounds of joining | rounds of asking | bytes a row | busiest machine | bytes in all |")
    print("|---|---|---|---|---|---|---|")
    for kind in ("pairs", "chain", "star", "random"):
        size, before, last = 10_000, None, None
        while size <= words.largest:
            before, last = last, simulate(kind, size, words.partitions)
            rounds, jumps, each, busiest = last
            whole = f"{each * size / 2**20:,.0f} MiB"
            print(f"| {kind} | {size:,} | {rounds} | {jumps} | {each:.1f} | {busiest:.2f} | {whole} |", flush=True)
            size *= 10
        more, decades = before or last, 0
        while size <= PAPER:
            decades, whole = decades + 1, f"{last[2] * size / 2**30:,.0f} GiB"
            rounds, jumps = (last[n] + decades * max(0, last[n] - more[n]) for n in (0, 1))
            print(f"| {kind}, reckoned | {size:,} | {rounds} | {jumps} | {last[2]:.1f} |  | {whole} |")
            size *= 10


main()
