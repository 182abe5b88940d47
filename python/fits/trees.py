"""Clique trees of sparse symmetric matrices. The search is not one of the proved calls: any tree that they accept will do."""
from tejiwakpa import Clique, Pattern


def clique_tree(size, pairs, orig_index=0):
    """Finds the pattern of a PSD cone whose off-diagonal entries are at `pairs`, with fill-in that makes it chordal: the vertex
    with the fewest remaining neighbours is eliminated first. Returns the pattern, whose vertices are places in that order."""
    near = [set() for _ in range(size)]
    for i, j in pairs:
        if i != j:
            near[i].add(j)
            near[j].add(i)
    ordering, later, left = [], [], set(range(size))
    while left:
        vertex = min(left, key=lambda v: (len(near[v]), v))
        left.remove(vertex)
        ordering.append(vertex)
        later.append(set(near[vertex]))
        for w in near[vertex]:
            near[w] |= near[vertex] - {w}
            near[w].discard(vertex)
    place = {vertex: k for k, vertex in enumerate(ordering)}
    higher = [sorted(place[w] for w in found) for found in later]
    return Pattern(orig_index, ordering, _cliques(higher))


def _cliques(higher):
    # a vertex joins the snode of an earlier one whose later neighbours are exactly this vertex and its later neighbours
    snodes, of = [], {}
    for vertex, found in enumerate(higher):
        number = of.get(vertex)
        if number is None:
            number = len(snodes)
            snodes.append([])
        snodes[number].append(vertex)
        if found and found[0] not in of and len(higher[found[0]]) == len(found) - 1:
            of[found[0]] = number
    holder = {vertex: number for number, snode in enumerate(snodes) for vertex in snode}
    # sorted by the last vertex of the snode, so that each clique comes before its parent
    rank = sorted(range(len(snodes)), key=lambda number: snodes[number][-1])
    new = {number: k for k, number in enumerate(rank)}
    cliques = []
    for number in rank:
        separator = higher[snodes[number][-1]]
        parent = new[holder[separator[0]]] if separator else len(snodes) - 1
        cliques.append(Clique(parent, snodes[number], separator))
    cliques[-1] = Clique(None, cliques[-1].snode)
    return cliques
