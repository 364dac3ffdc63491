"""Another implementation of the table of parity weights (document 02, W-206).

`python3 model.py stdout` writes what the program must print.
"""
import math
import sys

P = 65521


def weight(n, i):
    """The field word whose product with the factorials of i - 1 and n - i is 1 if n - i is even, and 65520 if it is odd."""
    factorials = math.factorial(i - 1) * math.factorial(n - i)
    wanted = 65520 if (n - i) % 2 else 1
    words = [w for w in range(P) if w * factorials % P == wanted]
    assert len(words) == 1
    return words[0]


if sys.argv[1] == "stdout":
    for n in range(3, 32, 2):
        for i in range(1, n + 1):
            print("%d\t%d\t%d" % (n, i, weight(n, i)))
