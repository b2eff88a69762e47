"""Times json.loads and json.dumps on the list of `bench_pool values-long`: prints what that prints of its
text, and the nanoseconds on standard error."""
import json
import sys
import time

count = 1_000_000 if "long" in sys.argv else 1000
numbers = [i * 2_654_435_761 % 2**32 - 2**31 for i in range(count)]
text = json.dumps(numbers)
begin = time.perf_counter_ns()
printed = json.dumps(json.loads(text))
taken = time.perf_counter_ns() - begin
assert printed == text
value = "[1: " + printed[1:-1].replace(",", "") + "]"
checksum = 0
for byte in value.encode():
    checksum = (checksum * 31 + byte) % 2**64
print(f"{len(value)} bytes, checksum {checksum}")
if count > 1000:
    print(taken, file=sys.stderr)
