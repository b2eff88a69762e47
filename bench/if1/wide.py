"""Writes a wide unit as IF1 text: a record that is built of so many fields, or a function of so many
results. The arguments are the file, the word record or function, and the number."""
import sys

path, kind, width = sys.argv[1], sys.argv[2], int(sys.argv[3])
code = 2 if kind == 'record' else 8
text = ['T 1 1 3']
for i in range(width):
    text.append('T %d %d 1 %d' % (10 + i, code, 11 + i if i + 1 < width else 0))
if kind == 'record':
    text += ['T 2 5 10', 'T 3 8 2 0', 'T 4 3 0 3', 'X 4 "main"', 'N 1 143']
    text += ['L 1 %d 1 "%d"' % (i + 1, i) for i in range(width)]
    text.append('E 1 1 0 1 2')
else:
    text += ['T 2 3 0 10', 'X 2 "main"']
    text += ['L 0 %d 1 "%d"' % (i + 1, i) for i in range(width)]
with open(path, 'w') as out:
    out.write('\n'.join(text) + '\n')
