"""Tables as words: document 01's, and others made from a list of classes."""

T = [4, 4, 4, 4, 9, 13, 25, 41, 45, 0, 1, 2, 3, 0, 0, 1, 1, 1, 1, 2, 2, 1, 3, 3, 1,
     1, 0, 0, 0, 2, 0, 0, 1, 10, 2, 0, 2, 10, 2, 2, 3, 0, 0, 0, 1, 0, 1, 2, 3]
LOOP = [1, 1, 2, 1, 9, 10, 13, 21, 22, 0, 0, 0, 2, 1, 0, 0, 0, 5, 1, 0, 0, 0, 0, 1]
EMPTY = [0, 0, 0, 0, 9, 9, 9, 9, 9]


def table(find, classes):
    """The words of a table: the find list, and for each class its nodes (operator, children...)."""
    i, c = len(find), len(classes)
    ids = [x for x in range(i) if find[x] == x]
    records, nodes, kids, keys = [], [], [], []
    for cid, members in zip(ids, classes):
        records += [cid, len(keys), len(members)]
        for op, *children in sorted(members, key=lambda m: (m[0], len(m) - 1, m[1:])):
            nodes += [op, len(children), len(kids), cid]
            kids += children
            keys.append((op, len(children), children))
    n, k = len(keys), len(kids)
    index = sorted(range(n), key=lambda x: keys[x])
    a = 9 + i
    b = a + 3 * c
    d = b + 4 * n
    return [i, c, n, k, 9, a, b, d, d + k] + find + records + nodes + kids + index


def parts(t):
    """The starts of a good table's areas."""
    i, c, n, k = t[:4]
    return {"find": 9, "classes": 9 + i, "nodes": 9 + i + 3 * c, "children": 9 + i + 3 * c + 4 * n,
            "index": 9 + i + 3 * c + 4 * n + k}


# Seven ids of which 2 and 5 are not canonical; leaves, a class of three, a chain, an arity of eight.
RICH = table([0, 1, 1, 3, 4, 4, 6],
             [[(1,)], [(2,), (3,)], [(10, 0, 0), (10, 0, 1), (11, 1)], [(10, 1, 0), (12, 3)],
              [(20, 0, 1, 3, 4, 6, 0, 1, 3), (21, 6)]])


def wide(count):
    """A class of `count` nodes g(x), over as many leaves, and one h beside them."""
    return table(list(range(count + 1)), [[(100 + x,)] for x in range(count)] + [[(7, x) for x in range(count)] + [(9,)]])
