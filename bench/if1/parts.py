"""Writes a unit of one function with so many Selects, one after another, as IF1 text: each alternative replaces an element of
an array that it owns by one of an array that it is lent. The arguments are the file and the number."""
import sys

path, selects = sys.argv[1], int(sys.argv[2])
text = ['T 1 1 3', 'T 2 0 1', 'T 3 8 2 0', 'T 4 8 2 3', 'T 5 8 1 4', 'T 6 3 5 3', 'X 6 "main"']
alternative = ['G 0', 'N 1 105', 'E 0 3 1 1 2', 'L 1 2 1 "1"', 'N 2 113', 'E 0 2 2 1 2', 'L 2 2 1 "1"', 'E 1 1 2 3 1', 'E 2 1 0 1 2']
for label in range(1, selects + 1):
    text += ['{ Compound %d 1' % label, 'G 0', 'E 0 1 0 1 1'] + alternative + alternative + ['} %d 1 3 0 1 2' % label]
    text += ['E 0 1 %d 1 1' % label, 'E %d %d %d 2 2' % (label - 1, 2 if label == 1 else 1, label), 'E 0 3 %d 3 2' % label]
text.append('E %d 1 0 1 2' % selects)
with open(path, 'w') as out:
    out.write('\n'.join(text) + '\n')
