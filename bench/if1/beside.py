"""Parses an XML file and serialises it, as often as the second argument says; prints the least time in milliseconds."""
import sys
import time
import xml.etree.ElementTree as tree

data = open(sys.argv[1], 'rb').read()
least = None
for _ in range(int(sys.argv[2])):
    begin = time.perf_counter()
    out = tree.tostring(tree.fromstring(data))
    took = time.perf_counter() - begin
    least = took if least is None else min(least, took)
print('%.1f' % (least * 1000))
