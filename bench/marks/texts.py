"""Writes units of one function with arrays that are updated and read, as IF1 text. The arguments: the file, the kind, the
size, and for shuffled labels a number. Kinds: chain (so many updates, one after another), read (each update with a reader
beside it), one (one array with so many readers and an update), many (so many arrays with as many readers each, and an
update of each), back (so many readers of one array, each with the one before on its ordering list, and the last two on each
other's), ring (the same, but the first has the last on its list, so all are on one cycle)."""
import random
import sys

path, kind, size = sys.argv[1], sys.argv[2], int(sys.argv[3])
seed = int(sys.argv[4]) if len(sys.argv) > 4 else None

nodes = []  # (operation, [(source node's place or 0, its port)], number of integer literals)
before = {}  # of a node's place, those on its ordering list


def update(array):
    nodes.append((113, array, 2))
    return (len(nodes), 1)


def reader(array):
    nodes.append((105, array, 1))


arrays = 1
results = []
if kind in ('chain', 'read'):
    last = (0, 1)
    for _ in range(size):
        if kind == 'read':
            reader(last)
        last = update(last)
    results = [last]
elif kind == 'one':
    for _ in range(size):
        reader((0, 1))
    results = [update((0, 1))]
elif kind in ('back', 'ring'):
    for place in range(1, size + 1):
        reader((0, 1))
        before[place] = [place - 1] if place > 1 else []
    if kind == 'back':
        before[size - 1].append(size)
    else:
        before[1].append(size)
    results = [(0, 1)]
else:
    arrays = size
    turns = [k for k in range(size) for _ in range(size + 1)]
    random.Random(7).shuffle(turns)
    left = {}
    for k in turns:
        left[k] = left.get(k, 0) + 1
        if left[k] == size // 2:
            results.append(update((0, k + 1)))
        else:
            reader((0, k + 1))

# The order of labels need not be that of the edges.
order = list(range(1, len(nodes) + 1))
if seed is not None:
    random.Random(seed).shuffle(order)
label = {0: 0}
for place, number in enumerate(order):
    label[place + 1] = number

text = ['T 1 1 3', 'T 2 0 1']
# the last of a list of types first
types = 3
following = 0
for _ in range(max(arrays, len(results))):
    text.append('T %d 8 2 %d' % (types, following))
    following = types
    types += 1
arguments = 3 + arrays - 1
returned = 3 + len(results) - 1
text.append('T %d 3 %d %d' % (types, arguments, returned))
text.append('X %d "main"' % types)
lines = {}
for place, (op, source, literals) in enumerate(nodes, 1):
    n = label[place]
    listed = '%%bf=%s' % ','.join(str(label[k]) for k in before[place]) if before.get(place) else ''
    lines[n] = [('N %d %d %s' % (n, op, listed)).rstrip(), 'E %d %d %d 1 2' % (label[source[0]], source[1], n)]
    for port in range(2, 2 + literals):
        lines[n].append('L %d %d 1 "%d"' % (n, port, port))
for n in sorted(lines):
    text += lines[n]
for port, source in enumerate(results, 1):
    text.append('E %d %d 0 %d 2' % (label[source[0]], source[1], port))
open(path, 'w').write('\n'.join(text) + '\n')
