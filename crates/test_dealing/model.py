"""Another implementation of dealing (documents 01 and 02), with what src/main.rt deals.

`python3 model.py stdout` writes what the program must print.
"""
import sys

P = 65521


def value(coefficients, x):
    return sum(c * x ** k for k, c in enumerate(coefficients)) % P


def deal(t, day, secret, random, shares):
    """Number and buffer."""
    n, d = 2 * t + 1, len(secret)
    if not 1 <= t <= 15:
        return 1, shares
    if not 1 <= d <= 64:
        return 2, shares
    if not 1 <= day <= 65520:
        return 32, shares
    if len(random) != t * d + 2 * n * n:
        return 3, shares
    if len(shares) != n * (d + 3 * n):
        return 4, shares
    if max(secret) >= P:
        return 5, shares
    if max(random) >= P:
        return 6, shares
    pairs = random[t * d:]
    keys = {(i, j): pairs[2 * (i * n + j):][:2] for i in range(n) for j in range(n)}
    dealt = []
    for i in range(n):
        words = [value([secret[k]] + random[k * t:(k + 1) * t], i + 1) for k in range(d)]
        tags = []
        for j in range(n):
            alpha, beta = keys[j, i]
            tags.append((beta + sum(w * pow(alpha, k, P) for k, w in enumerate([day] + words, 1))) % P)
        dealt += words + tags + [x for j in range(n) for x in keys[i, j]]
    return 0, dealt


def scrambled(count, seed):
    words = []
    for _ in range(count):
        seed = (12345 + 25173 * seed) % P
        words.append(seed)
    return words


def shown(words):
    print("".join("%d " % w for w in words))


C5 = [3, 1, 1, 1, 2, 1, 3, 2, 1, 2, 2, 2, 3, 3, 1, 3, 2, 3, 3]
REFUSED = [
    (0, 1, [250], [0] * 19, 30),
    (16, 1, [250], [0] * 19, 30),
    (1, 1, [], [0] * 19, 30),
    (1, 0, [250], [0] * 19, 30),
    (1, 65521, [250], [0] * 19, 30),
    (1, 65535, [250], [0] * 19, 30),
    (1, 1, [250], [0] * 18, 30),
    (1, 1, [250], [0] * 19, 29),
    (1, 1, [65521], [0] * 19, 30),
    (1, 1, [250], [0] * 18 + [65521], 30),
]

if sys.argv[1] == "stdout":
    number, dealt = deal(1, 1, [250], C5, [9] * 30)
    shown([number] + dealt)
    number, dealt = deal(15, 65520, scrambled(64, 1), scrambled(2882, 2), [0] * 4867)
    shown([number] + dealt[::101])
    shown([sum(w * pow(31, k, P) for k, w in enumerate(dealt)) % P])
    for t, day, secret, random, room in REFUSED:
        number, left = deal(t, day, secret, random, [9] * room)
        shown([number] + left)
