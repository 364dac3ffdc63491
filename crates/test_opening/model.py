"""Another implementation of the program `opening` (documents 01 and 02), with the texts that src/main.rt prints the answers of.

`python3 model.py stdin` writes the text on standard input, `python3 model.py stdout` what the program must print.
"""
import itertools
import re
import sys

P = 65521
PLAIN = "D\t1\t1\t0\t1\n"
BY_TWO = "D\t1\t1\t2\t1\n"
ONE = "P\t1\t253\t255\t1015\t2281\t1\t1\t1\t2\t1\t3\n"
TWO = "P\t2\t256\t259\t1028\t2309\t2\t1\t2\t2\t2\t3\n"
THREE = "P\t3\t300\t263\t1041\t2337\t3\t1\t3\t2\t3\t3\n"
ANOTHER = "D\t1\t1\t0\t2\n"
DEALT = "P\t3\t259\t263\t1041\t2337\t3\t1\t3\t2\t3\t3\n"
SECOND = "P\t3\t259\t264\t1043\t2340\t3\t1\t3\t2\t3\t3\n"
ZEROS = "\t0" * 9


def zeros(changed):
    """t = 2, d = 2, all shares zero, but for the words changed: member and place from 0."""
    lines = ["D\t2\t2\t0\t1"]
    for i in range(1, 6):
        lines.append("\t".join(["P", str(i)] + [str(int((i, k) in changed)) for k in range(17)]))
    return "\n".join(lines) + "\n"


TEXTS = [
    # opened: the sample, C12, C13, two words
    PLAIN + ONE + TWO + THREE,
    BY_TWO + TWO + ONE,
    zeros([(4, 0)]),
    "D\t1\t2\t2\t1\nP\t1\t5\t65520" + ZEROS + "\nP\t3\t5\t65520" + ZEROS + "\n",
    # refused: 13, twice; 14, nobody, C11, C12 with quorum 0, a word above 65520; 15; 16, C10 and C14
    "D\t1\t1\t1\t1\n",
    "D\t1\t1\t4\t1\n" + ONE + TWO + DEALT,
    PLAIN,
    PLAIN + ONE,
    PLAIN + TWO + ONE,
    BY_TWO + ONE + "P\t2\t256\t259\t1028\t2309\t2\t1\t2\t2\t2\t65521\n",
    BY_TWO + ONE + "P\t2\t256\t0\t1028\t2309\t2\t1\t2\t2\t2\t3\n",
    PLAIN + "P\t1\t253" + ZEROS + "\nP\t2\t256" + ZEROS + "\nP\t3\t300" + ZEROS + "\n",
    zeros([(4, 0), (5, 1)]),
    # another day: 15; member 3's share of day 2 beside two of day 1, opened for day 1 and for day 2
    ANOTHER + ONE + TWO + DEALT,
    PLAIN + ONE + TWO + SECOND,
    ANOTHER + ONE + TWO + SECOND,
    # refused: 22, 23, 24
    "",
    "D\t1\t1\t0\t1",
    "D\t1\t1\t0\n",
    "D\t1\t1\t0\t0\n",
    "D\t1\t1\t0\t65521\n",
    PLAIN + ONE + "\n",
    PLAIN + ONE + TWO + ONE,
]


def tag(words, alpha, beta):
    return (sum(w * pow(alpha, k + 1, P) for k, w in enumerate(words)) + beta) % P


def largest():
    """t = 15 and d = 64: member 20 is absent, member 7 has altered a word, and member 31 has a word that is none."""
    t, n, d, day = 15, 31, 64, 65520
    curves = [[(1 + k * 977 + j * j * 6151) * 31337 % P for j in range(t + 1)] for k in range(d)]
    words = {i: [sum(c * i ** j for j, c in enumerate(f)) % P for f in curves] for i in range(1, n + 1)}
    keys = {(i, j): ((i * 1009 + j) % P, (j * 2003 + i * i) % P) for i in words for j in words}
    lines = ["\t".join(map(str, ["D", t, d, 17, day]))]
    for m in range(n):
        i = m * 7 % n + 1
        share = list(words[i])
        share += [tag([day] + words[i], *keys[j, i]) for j in range(1, n + 1)]
        share += [x for j in range(1, n + 1) for x in keys[i, j]]
        if i == 7:
            share[63] = (share[63] + 1) % P
        if i == 31:
            share[100] = 65535
        if i != 20:
            lines.append("\t".join(map(str, ["P", i] + share)))
    return "\n".join(lines) + "\n"


def numerals(fields):
    if all(re.fullmatch("0|[1-9][0-9]{0,4}", f) and int(f) < 65536 for f in fields):
        return [int(f) for f in fields]
    return None


def line_of(letter, count, line):
    fields = line.split("\t")
    if fields[0] != letter or len(fields) != count + 1:
        return None
    return numerals(fields[1:])


def read(text):
    """A refusal's number, or t, d, the quorum, the day and the shares."""
    if len(text) > 40000:
        return 21
    *lines, rest = text.split("\n")
    first = line_of("D", 4, lines[0]) if lines else None
    if first is None or not 1 <= first[0] <= 15 or not 1 <= first[1] <= 64 or not 1 <= first[3] <= 65520:
        return 22
    t, d, quorum, day = first
    shares = {}
    for line in lines[1:]:
        numbers = line_of("P", 1 + d + 3 * (2 * t + 1), line)
        if numbers is None:
            return 23
        if not 1 <= numbers[0] <= 2 * t + 1 or numbers[0] in shares:
            return 24
        shares[numbers[0]] = numbers[1:]
    return 23 if rest else (t, d, quorum, day, shares)


def through(points, x):
    """The value at x of the polynomial through the points."""
    total = 0
    for a, b in points:
        for c, _ in points:
            if c != a:
                b = b * (x - c) * pow(a - c, -1, P) % P
        total += b
    return total % P


def mask(members):
    return sum(2 ** (i - 1) for i in members)


def opened(t, d, quorum, day, shares):
    """A refusal's number and the survivors, or the survivors, the agreeing survivors and the secret."""
    n = 2 * t + 1
    if quorum != 0 and not t + 1 <= quorum <= n:
        return 13, []
    able = [i for i in shares if max(shares[i]) < P]
    if len(able) < (quorum or t + 2):
        return 14, []

    def accepts(j, i):
        alpha, beta = shares[j][d + n + 2 * i - 2:d + n + 2 * i]
        return shares[i][d + j - 1] == tag([day] + shares[i][:d], alpha, beta)
    left = able
    while True:
        kept = [i for i in left if sum(accepts(j, i) for j in left) > t]
        if kept == left:
            break
        left = kept
    if not left:
        return 15, []
    left.sort()
    need = t + 1 + (len(left) - t - 1 + 1) // 2
    for some in itertools.combinations(left, t + 1):
        points = [[(i, shares[i][k]) for i in some] for k in range(d)]
        agree = [i for i in left if all(through(points[k], i) == shares[i][k] for k in range(d))]
        if len(agree) >= need:
            return left, agree, [through(p, 0) for p in points]
    return 16, left


def printed(text):
    answer = read(text)
    if isinstance(answer, int):
        return "REFUSED\t%d\t0\n" % answer
    answer = opened(*answer)
    if len(answer) == 2:
        return "REFUSED\t%d\t%d\n" % (answer[0], mask(answer[1]))
    survivors, agreeing, secret = answer
    words = "".join("WORD\t%d\t%d\n" % (k + 1, w) for k, w in enumerate(secret))
    return "OPEN\t%d\t%d\n" % (mask(survivors), mask(agreeing)) + words


if __name__ == "__main__":
    if sys.argv[1] == "stdin":
        sys.stdout.write(largest())
    elif sys.argv[1] == "stdout":
        for text in [largest(), "\0" * 40001] + TEXTS:
            sys.stdout.write(printed(text))
