"""Another implementation of the reader and the writer of hand-in text (documents 01 and 02), with what src/main.rt reads and writes.

`python3 model.py stdin` writes the text on standard input, `python3 model.py stdout` what the program must print.
"""
import re
import sys

PLAIN = "D\t1\t1\t0\t1\n"
ONE = "P\t1\t253\t255\t1015\t2281\t1\t1\t1\t2\t1\t3\n"
TWO = "P\t2\t256\t259\t1028\t2309\t2\t1\t2\t2\t2\t3\n"
THREE = "P\t3\t300\t263\t1041\t2337\t3\t1\t3\t2\t3\t3\n"
ZEROS = "\t0\t0\t0\t0\t0\t0\t0\t0\t0\t0"

TEXTS = [
    # read: the sample, nobody, another order, the largest numerals
    PLAIN + ONE + TWO + THREE,
    PLAIN,
    PLAIN + THREE + ONE,
    "D\t1\t2\t65535\t65520\nP\t2\t65535\t65521\t0\t0\t0\t0\t0\t0\t0\t0\t9\n",
    # no D line
    "",
    "D\t1\t1\t0\t1",
    "\n",
    "D\t0\t1\t0\t1\n",
    "D\t16\t1\t0\t1\n",
    "D\t1\t65\t0\t1\n",
    "D\t1\t1\t65536\t1\n",
    "D\t01\t1\t0\t1\n",
    "D\t1\t1\t0\t1\r\n",
    "d\t1\t1\t0\t1\n",
    "D\t1\t1\t0\t1\t0\n" + ONE,
    "D\t1\t1\t:\t1\n",
    # no good day
    "D\t1\t1\t0\n",
    "D\t1\t1\t0\t\n",
    "D\t1\t1\t0\t0\n",
    "D\t1\t1\t0\t65521\n",
    "D\t1\t1\t0\t65535\n",
    "D\t1\t1\t0\t65537\n",
    "D\t1\t1\t0\t01\n",
    # no P line
    PLAIN + ONE + "P\t0\t0\t0\t0\t0\t0\t0\t0\t0\t0\n",
    PLAIN + ONE + "P\t1" + ZEROS + "\t\n",
    PLAIN + ONE + PLAIN,
    PLAIN + ONE + "\n",
    PLAIN + ONE + "P\t2" + ZEROS,
    PLAIN + "P\t65536" + ZEROS + "\n",
    PLAIN + ONE + "P\t1\t0\t0\t0\t0\t0\t0\t0\t0\t0\t00\n",
    PLAIN + ONE + "x\n" + ONE,
    # members that are not 1 to n, or met before
    PLAIN + "P\t0" + ZEROS + "\n",
    PLAIN + "P\t4" + ZEROS + "\n",
    PLAIN + "P\t65535" + ZEROS + "\n",
    PLAIN + ONE + TWO + ONE,
    PLAIN + ONE + ONE + "x\n",
]


def largest():
    """31 shares of five-digit words, in a mixed order."""
    lines = ["D\t15\t64\t65535\t65520"]
    for k in range(31):
        member = k * 7 % 31 + 1
        words = [str(10000 + (member * 157 + j) * 7919 % 55536) for j in range(157)]
        lines.append("\t".join(["P", str(member)] + words))
    return "\n".join(lines) + "\n"


def numerals(fields):
    if all(re.fullmatch("0|[1-9][0-9]{0,4}", f) and int(f) < 65536 for f in fields):
        return [int(f) for f in fields]
    return None


def line_of(letter, count, line):
    fields = line.split("\t")
    if fields[0] != letter or len(fields) != count + 1:
        return None
    return numerals(fields[1:])


def read(text, size):
    """Number, t, d, quorum, day, mask and buffer."""
    def refused(number):
        return number, 0, 0, 0, 0, 0, [0] * size
    if size != 4867:
        return refused(25)
    if len(text) > 40000:
        return refused(21)
    *lines, rest = text.split("\n")
    first = line_of("D", 4, lines[0]) if lines else None
    if first is None or not 1 <= first[0] <= 15 or not 1 <= first[1] <= 64 or not 1 <= first[3] <= 65520:
        return refused(22)
    t, d, quorum, day = first
    n = 2 * t + 1
    width = d + 3 * n
    shares = {}
    for line in lines[1:]:
        numbers = line_of("P", 1 + width, line)
        if numbers is None:
            return refused(23)
        if not 1 <= numbers[0] <= n or numbers[0] in shares:
            return refused(24)
        shares[numbers[0]] = numbers[1:]
    if rest:
        return refused(23)
    words = sum((shares.get(i, [0] * width) for i in range(1, n + 1)), [])
    return 0, t, d, quorum, day, sum(2 ** (i - 1) for i in shares), words + [0] * (4867 - len(words))


def shown(text, size=4867):
    *numbers, words = read(text, size)
    check = 0
    for w in words:
        check = (31 * check + w + 1) % 65521
    return "\t".join(map(str, numbers + [check]))


def write(t, d, quorum, day, present, words, room):
    """Number, count and buffer; the buffer is full of dots at first."""
    dots = "." * room
    n = 2 * t + 1
    width = d + 3 * n
    if not 1 <= t <= 15:
        return 1, 0, dots
    if not 1 <= d <= 64:
        return 2, 0, dots
    if not 1 <= day <= 65520:
        return 32, 0, dots
    if len(words) != n * width:
        return 11, 0, dots
    if present >> n:
        return 12, 0, dots
    lines = [["D", t, d, quorum, day]]
    lines += [["P", i + 1] + words[i * width:(i + 1) * width] for i in range(n) if present >> i & 1]
    text = "".join("\t".join(map(str, line)) + "\n" for line in lines)
    if len(text) > room:
        return 31, 0, dots
    return 0, len(text), text + dots[len(text):]


def written(*given):
    number, count, buffer = write(*given)
    return f"{number}\t{count}\n{buffer}"


SAMPLE = read(PLAIN + ONE + TWO + THREE, 4867)[6][:30]
WRITTEN = [
    (1, 1, 0, 1, 7, SAMPLE, 120),
    (1, 1, 0, 1, 5, SAMPLE, 120),
    (1, 1, 2, 1, 0, SAMPLE, 120),
    (1, 1, 65535, 1, 2, [65535] * 30, 120),
    (1, 1, 0, 65520, 0, SAMPLE, 20),
    (1, 1, 0, 1, 7, SAMPLE, 112),
    (1, 1, 0, 1, 7, SAMPLE, 111),
    (1, 1, 0, 1, 7, SAMPLE, 0),
    (0, 1, 0, 1, 0, SAMPLE, 20),
    (16, 65, 0, 1, 0, SAMPLE, 20),
    (1, 0, 0, 1, 0, SAMPLE, 20),
    (1, 65, 0, 0, 0, [], 20),
    (1, 1, 0, 0, 8, [0] * 31, 20),
    (1, 1, 0, 65521, 0, SAMPLE, 20),
    (1, 1, 0, 65535, 0, SAMPLE, 20),
    (1, 1, 0, 1, 8, [0] * 31, 20),
    (1, 1, 0, 1, 8, SAMPLE, 20),
    (1, 1, 0, 1, 7, SAMPLE, 20),
]

if sys.argv[1] == "stdin":
    sys.stdout.write(largest())
elif sys.argv[1] == "stdout":
    print(shown(largest()))
    print(written(15, 64, 65535, 65520, 2 ** 31 - 1, read(largest(), 4867)[6], 29368))
    print(shown(PLAIN, 4866))
    print(shown("\0" * 40001))
    for text in TEXTS:
        print(shown(text))
    for given in WRITTEN:
        print(written(*given))
