#!/usr/bin/env python3
"""Makes the stored answers of data/ (crate stored has their form).

Each answer is worked out here by plain counting from document 01, not from the code or its definitions.
Run it in this folder. A further family is a function that returns its cases, and its name in FAMILIES.
"""
import random


def room_words(length):
    """What an output of u32 holds before a call."""
    return [0xF0000000 + k % 65536 for k in range(length)]


def after(refusal, new, room):
    """What a room holds after the call: new at its front where nothing is refused, the rest kept."""
    return room if refusal else new + room[len(new):]


def case(words, values=()):
    """A case: lists of u32 (the call's numbers, its answer, inputs, outputs), lists of f64 bits (inputs, outputs)."""
    return list(words), list(values)


def text(cases):
    lines = ["%08x" % len(cases)]
    for words, values in cases:
        lines.append("%08x" % len(words))
        lines += [" ".join("%08x" % x for x in [len(numbers)] + numbers) for numbers in words]
        lines.append("%08x" % len(values))
        lines += [" ".join(["%08x" % len(numbers)] + ["%016x" % x for x in numbers]) for numbers in values]
    return "\n".join(lines) + "\n"


# The upper triangle, column by column, numbered by counting.
PAIRS = [(i, j) for j in range(256) for i in range(j + 1)]
PLACE = {pair: t for t, pair in enumerate(PAIRS)}
LARGEST = 2**32 - 1


def pair_index():
    rng = random.Random(1)
    given = [(0, 0), (0, 1), (1, 0), (2, 5), (255, 255), (5, 2), (0, 255), (255, 0), (254, 255), (255, 254), (1, 1), (128, 127)]
    given += [(rng.randrange(256), rng.randrange(256)) for _ in range(16)]
    given += [(256, 0), (0, 256), (256, 256), (255, 256), (256, 255), (LARGEST, 0), (0, LARGEST), (65536, 65536)]
    calls = [(i, j, 1 + k % 3) for k, (i, j) in enumerate(given)]
    calls += [(2, 5, 0), (255, 255, 0), (256, 0, 0), (0, 256, 0), (2, 5, 8)]
    cases = []
    for i, j, length in calls:
        refusal = 1 if max(i, j) > 255 else 11 if length < 1 else 0
        words = [] if refusal else [PLACE[min(i, j), max(i, j)]]
        cases.append(case([[i, j], [refusal], after(refusal, words, room_words(length))]))
    return cases


def pair_back():
    rng = random.Random(2)
    given = [0, 1, 2, 3, 17, 32895, 32894, 32640, 32639, 32641]
    given += [PLACE[0, j] + d for j in (3, 16, 22, 64, 127, 128, 181, 254) for d in (-1, 0, 1)]
    given += [rng.randrange(len(PAIRS)) for _ in range(16)]
    given += [len(PAIRS), len(PAIRS) + 1, 65536, LARGEST]
    calls = [(t, 2 + k % 3) for k, t in enumerate(given)]
    calls += [(3, 0), (3, 1), (32895, 1), (32896, 0), (LARGEST, 1), (3, 8)]
    cases = []
    for t, length in calls:
        refusal = 1 if t >= len(PAIRS) else 11 if length < 2 else 0
        words = [] if refusal else list(PAIRS[t])
        cases.append(case([[t], [refusal], after(refusal, words, room_words(length))]))
    return cases


def inverse():
    rng = random.Random(3)
    given = [[], [0], [1, 0], [0, 1], [2, 0, 1], [1, 2, 3, 0], list(range(300)), list(range(299, -1, -1))]
    for length in (5, 17, 64, 255, 256, 257, 700):
        given.append(rng.sample(range(length), length))
    given += [[1], [1, 1], [0, 0], [0, 2], [0, 1, 1], [2, 1, 2], [LARGEST], [0, LARGEST], [3, 0, 1, 3]]
    repeated = rng.sample(range(300), 300)
    repeated[299] = repeated[0]
    given.append(repeated)
    calls = [(p, len(p) + k % 3) for k, p in enumerate(given)]
    calls += [([0], 0), ([2, 0, 1], 2), ([1, 1], 0), ([1, 0], 5)]
    cases = []
    for p, length in calls:
        refusal = 5 if sorted(p) != list(range(len(p))) else 11 if length < len(p) else 0
        places = [] if refusal else [p.index(w) for w in range(len(p))]
        cases.append(case([[refusal], p, after(refusal, places, room_words(length))]))
    return cases


FAMILIES = [pair_index, pair_back, inverse]

if __name__ == "__main__":
    for family in FAMILIES:
        with open("data/" + family.__name__, "w") as file:
            file.write(text(family()))
