"""Writes a unit of one function with 65,535 nodes as IF1 text, and an XML file that says the same:
an element for each node and for each edge or literal. The arguments are the two files."""
import sys

NODES = 65535
text = ['T 1 1 3', 'T 2 8 1 0', 'T 3 3 2 2', 'X 3 "main"']
xml = ['<unit>']
for label in range(1, NODES + 1):
    text.append('N %d 141' % label)
    text.append('E %d 1 %d 1 1' % (label - 1, label))
    text.append('L %d 2 1 "%d"' % (label, label))
    xml.append('<node label="%d" op="141">' % label)
    xml.append('<edge from="%d" out="1" node="%d" port="1" type="1"/>' % (label - 1, label))
    xml.append('<literal node="%d" port="2" type="1">%d</literal></node>' % (label, label))
text.append('E %d 1 0 1 1' % NODES)
xml.append('<edge from="%d" out="1" node="0" port="1" type="1"/></unit>' % NODES)
open(sys.argv[1], 'w').write('\n'.join(text) + '\n')
open(sys.argv[2], 'w').write('\n'.join(xml) + '\n')
