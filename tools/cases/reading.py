"""A plain reading of document 01, apart from the library: what each entry must answer."""

U32 = 2**32


def refusal_of_table(t):
    """The table's number, 0 to 6."""
    if len(t) < 9:
        return 1
    i, c, n, k = t[:4]
    if i > 65536 or c > 65536 or n > 65536 or k > 262144:
        return 2
    find, classes, nodes, children, index = 9, 9 + i, 9 + i + 3 * c, 9 + i + 3 * c + 4 * n, 9 + i + 3 * c + 4 * n + k
    if t[4:9] != [find, classes, nodes, children, index] or len(t) != index + n:
        return 1
    f = t[find:classes]
    if any(x >= i or f[x] != x for x in f):
        return 3
    canonical = [x for x in range(i) if f[x] == x]
    records = [t[classes + 3 * j:classes + 3 * j + 3] for j in range(c)]
    if [r[0] for r in records] != canonical:
        return 4
    at = 0
    for _, first, count in records:
        if count < 1 or first != at:
            return 4
        at += count
    if at != n:
        return 4
    recs = [t[nodes + 4 * x:nodes + 4 * x + 4] for x in range(n)]
    at = 0
    for _, arity, first, _ in recs:
        if arity > 8 or first != at:
            return 5
        at += arity
    if at != k:
        return 5
    kids = t[children:index]
    known = set(canonical)
    if any(x not in known for x in kids):
        return 5
    keys = [(op, arity, kids[first:first + arity]) for op, arity, first, _ in recs]
    for cid, first, count in records:
        for x in range(first, first + count):
            if recs[x][3] != cid:
                return 5
            if x > first and not keys[x - 1] < keys[x]:
                return 5
    names = t[index:]
    if any(x >= n for x in names):
        return 6
    if any(not keys[names[x - 1]] < keys[names[x]] for x in range(1, n)):
        return 6
    return 0
