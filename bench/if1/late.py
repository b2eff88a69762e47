"""Writes as IF1 text a unit with so many builds of a union of as many tags, each at the last one, or with so many
replaces of the last field of a record of as many fields. The arguments are the file, the word union or record, and the
number."""
import sys

path, kind, width = sys.argv[1], sys.argv[2], int(sys.argv[3])
first = {'union': 7, 'record': 2}[kind]
text = ['T 1 1 3']
for i in range(width):
    text.append('T %d %d 1 %d' % (10 + i, first, 11 + i if i + 1 < width else 0))
if kind == 'union':
    rest = 10 + width
    text.append('T 2 9 10')
    text += ['T %d 8 2 %d' % (rest + i, rest + i + 1 if i + 1 < width else 0) for i in range(width)]
    text += ['T 3 3 0 %d' % rest, 'X 3 "main"']
    for label in range(1, width + 1):
        text += ['N %d 143' % label, 'L %d %d 1 "%d"' % (label, width, label)]
    text += ['E %d 1 0 %d 2' % (label, label) for label in range(1, width + 1)]
else:
    text += ['T 2 5 10', 'T 3 8 2 0', 'T 4 3 0 3', 'X 4 "main"', 'N 1 143']
    text += ['L 1 %d 1 "%d"' % (i + 1, i) for i in range(width)]
    for label in range(2, width + 2):
        text += ['N %d 145' % label, 'E %d 1 %d 1 2' % (label - 1, label), 'L %d %d 1 "%d"' % (label, width + 1, label)]
    text.append('E %d 1 0 1 2' % (width + 1))
with open(path, 'w') as out:
    out.write('\n'.join(text) + '\n')
