#!/usr/bin/env python3
"""times.py JUDGE BENCH: times the crate (`judge bench`) and ours (the program `test_bench`) on the same items and prints a table.

Ours runs with N and with 2N repetitions: the processor time of the second less that of the first is that of N, without start-up. The crate times
itself in batches. The runs take turns, so that both meet the same load, and the best of the rounds counts. Both print a sum over what came out,
which must be the same."""
import os, resource, subprocess, sys
from items import CALLS, CODEC, PAIR, SEND

ROUNDS = 7


def children():
    used = resource.getrusage(resource.RUSAGE_CHILDREN)
    return (used.ru_utime + used.ru_stime) * 1e9


def ours_once(program, item, count):
    """The processor time in nanoseconds, and the sum that was printed."""
    before = children()
    said = subprocess.run([program], input=item.record(count), stdout=subprocess.PIPE, check=True).stdout
    return children() - before, int(said)


def crate_once(judge, item):
    said = subprocess.run([judge, "bench", item.name, str(item.count)], stdout=subprocess.PIPE, check=True).stdout
    nanoseconds, total = said.split()
    return float(nanoseconds), int(total)


def measured(judge, program, item):
    crate, once, twice = [], [], []
    for _ in range(ROUNDS):
        nanoseconds, crate_sum = crate_once(judge, item)
        crate.append(nanoseconds)
        nanoseconds, our_sum = ours_once(program, item, item.count)
        once.append(nanoseconds)
        twice.append(ours_once(program, item, 2 * item.count)[0])
        if our_sum != crate_sum:
            sys.exit(f"bench: {item.name}: the crate's sum is {crate_sum}, ours {our_sum}: not the same work")
    return min(crate), (min(twice) - min(once)) / item.count


def row(label, crate, ours):
    print(f"| {label:48} | {crate:8.1f} | {ours:8.1f} | {ours / crate:6.2f} |", flush=True)


def main():
    judge, program = sys.argv[1:]
    print(f"| {'item':48} | crate ns | ours ns  | ratio  |\n|{'-' * 50}|---------:|---------:|-------:|")
    found = {}
    for item in CODEC + CALLS:
        found[item] = measured(judge, program, item)
        row(item.label, *found[item])
    alone = [pair - send for pair, send in zip(found[PAIR], found[SEND])]
    row("message(InputAck), the difference of the two", *alone)
    print(f"\nload {os.getloadavg()[0]:.1f} on {os.cpu_count()} processors")


main()
