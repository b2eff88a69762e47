"""Writes types in chains of arrays and streams 62 deep as IF1 text, no two chains alike. The arguments are the file,
the word first or last, by where the part of a type stands, and the number of types."""
import sys

path, side, types = sys.argv[1], sys.argv[2], int(sys.argv[3])
DEEP = 62
label = (lambda i: i + 1) if side == 'first' else (lambda i: types - i)
text = [(label(0), 'T %d 1 3' % label(0))]
for i in range(1, types):
    chain, depth = divmod(i - 1, DEEP)
    code = 6 if chain >> depth % 16 & 1 else 0
    text.append((label(i), 'T %d %d %d' % (label(i), code, label(i - 1 if depth else 0))))
with open(path, 'w') as out:
    out.write('\n'.join(line for _, line in sorted(text)) + '\n')
