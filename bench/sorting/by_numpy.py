"""Numbers sorted, or without repetitions, by numpy: by_numpy.py NUMBERS QUESTION COUNT."""
import sys

import numpy

kind, question, count = sys.argv[1], sys.argv[2], int(sys.argv[3])
at = numpy.arange(count, dtype=numpy.int64)
hashes = at * numpy.int64(6364136223846793005)
numbers = {'random': lambda: hashes ^ (hashes.view(numpy.uint64) >> numpy.uint64(32)).view(numpy.int64),
           'few': lambda: (hashes.view(numpy.uint64) >> numpy.uint64(32)).view(numpy.int64) & 1023,
           'reversed': lambda: -at, 'ascending': lambda: at + 1}[kind]()
if question == 'distinct':
    print(f'q = {len(numpy.unique(numbers))}')
else:
    numbers.sort()
    print(f'q = [{", ".join(map(str, numbers[:10]))}]' if question == 'limit' else f'q = OptionalLong[{numbers[count // 2]}]')
