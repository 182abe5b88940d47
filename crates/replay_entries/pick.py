#!/usr/bin/env python3
"""Picks the stored answers of data/ from those of crate replay: compact cuts and joinings whose map is whole entries, up to 64.

Of each number that a call gives the first few are taken. A cut's room for the map is made whole entries, which changes no
answer. Left out is a joining's map that entries cannot say: beside the mark for none an entry has clique 0. Run it in this
folder.
"""
NONE = 0xFFFFFFFF
MOST = 64
OF_EACH = {0: 12, 12: 12}
OTHERWISE = 2


def cases(path):
    """The file's cases: the lists of u32 and of f64, as they are spelled."""
    with open(path) as file:
        lines = iter(file.read().splitlines())
    for _ in range(int(next(lines), 16)):
        yield [[next(lines) for _ in range(int(next(lines), 16))] for _ in range(2)]


def numbers(line):
    return [int(word, 16) for word in line.split()][1:]


def is_entries(words):
    pairs = zip(words[1::5], words[2::5])
    return len(words) % 5 == 0 and len(words) <= 5 * MOST and all(clique == 0 for pattern, clique in pairs if pattern == NONE)


def whole(line):
    words = line.split()[1:]
    words = words[:len(words) - len(words) % 5]
    return " ".join(["%08x" % len(words)] + words)


def pick(family, map_at):
    seen, picked = {}, []
    for words, values in cases("../replay/data/" + family):
        route, answer = numbers(words[0])[0], numbers(words[1])[0]
        if family == "cut":
            words[map_at] = whole(words[map_at])
        if route == 1 and is_entries(numbers(words[map_at])) and seen.get(answer, 0) < OF_EACH.get(answer, OTHERWISE):
            seen[answer] = seen.get(answer, 0) + 1
            picked.append((words, values))
    with open("data/" + family, "w") as file:
        print("%08x" % len(picked), file=file)
        for case in picked:
            for lists in case:
                print("%08x" % len(lists), *lists, sep="\n", file=file)
    print(family, len(picked), "cases, of each number:", dict(sorted(seen.items())))


if __name__ == "__main__":
    pick("cut", 13)
    pick("join", 4)
