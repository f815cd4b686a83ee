"""Texts of results files: a table of what each comes to, and texts by chance."""
from decimals import MANTISSA_LIMIT, decimal_of
from number_texts import spelled

# A text and its values, each as it is written in a table.
VALUES = [
    (b"1.5 obj_fn", "1.5"),
    (b"6.500000000000000e+00 obj_fn\n", "6.5"),
    (b"                     6.5\n", "6.5"),
    (b"1 f\n2 g\n3 h\n", "1 2 3"),
    (b"1 2 3", "1 2 3"),
    (b"1\nf\n2", "1 2"),
    (b"1 f 2\n3 h", "1 2 3"),
    (b"1 other_label", "1"),
    (b"1 _", "1"),
    (b"1 fail", "1"),
    (b"1 nan", "1"),
    (b"1 e5", "1"),
    (b"1 ASV_1:f='x',[2]\xff\0", "1"),
    (b"1 f\r\n2 g\r\n", "1 2"),
    (b"\t1\tf\t2\tg\t", "1 2"),
    (b"# c\n3e2", "300"),
    (b"#fail\n1", "1"),
    (b"1 #x", "1"),
    (b"1#2\n", "1"),
    (b"1 f# 2 g\n2 g#", "1 2"),
    (b"#\r1\n2", "2"),
    (b"##\n#\n1\n#2", "1"),
    (b"+.5 -5. 007", "0.5 -5 7"),
    (b"1E+05 1e-05 -2.5000000E-01", "100000 0.00001 -0.25"),
    (b"-0 0e99999 .0", "0 0 0"),
    (b"1e9999 1e-9999", "1e+9999 1e-9999"),
    (b"1234567890123456789012345678901234", "1234567890123456789012345678901234"),
    (b"1234567890123456789012345678901234000", "1.234567890123456789012345678901234e+36"),
    (b"0." + b"0" * 60000 + b"1e60000", "0.1"),
    (b"1" + b" " * 65535, "1"),
    (b"1#" + b"2 " * 32767, "1"),
    (b"", ""),
    (b" \t\r\n# none", ""),
]

# A text that is a failure, and of how many responses.
FAILURES = [
    (b"FAIL\n", 1),
    (b"fail", 1),
    (b"fAiL", 1),
    (b"  FAILURE at step 3", 1),
    (b"\t\r\n Failed\n1 f\n", 1),
    (b"FAIL\n1 f\n", 1),
    (b"FAIL#", 1),
    (b"fail", 0),
    (b"# c\nfail", 1),
    (b"fai", 1),
    (b"error", 1),
    (b"", 1),
    (b" \t\r\n", 1),
    (b"# 1\n", 1),
    (b"1", 2),
    (b"1 f", 2),
    (b"1 f g", 2),
    (b"1 2", 1),
    (b"1 f 2 g", 1),
    (b"1 f g", 1),
    (b"f 1", 1),
    (b"f", 0),
    (b"1", 0),
    (b"1 2x", 1),
    (b"1 'a'", 1),
    (b"1 [f]", 1),
    (b"1 -", 1),
    (b"nan", 1),
    (b"NaN f", 1),
    (b"-nan f", 1),
    (b"inf", 1),
    (b"-inf f", 1),
    (b"Infinity", 1),
    (b"1 f inf g", 2),
    (b"1.5D+00", 1),
    (b"1.5d0 f", 1),
    (b"1.5-100", 1),
    (b"1.5+100 f", 1),
    (b"******** f", 1),
    (b"1,5", 1),
    (b"1, 2", 2),
    (b"1 000", 1),
    (b"1_000", 1),
    (b"0x10", 1),
    (b"[1]", 1),
    (b"1e", 1),
    (b"e5", 1),
    (b".", 1),
    (b"--1", 1),
    (b"1/2", 1),
    (b"[ 1 2 ]", 2),
    (b"1e10000", 1),
    (b"1e-10000", 1),
    (b"12345678901234567890123456789012345", 1),
    (b"0.12345678901234567890123456789012345", 1),
    (b"9" * 65536, 1),
    (b"1" + b" " * 65536, 1),
    (b"\xef\xbb\xbf1", 1),
    (b"1\xc2\xa0f", 1),
    (b"1\x0c", 1),
    (b"1\x0bf", 1),
    (b"1\0", 1),
    (b"1 \\\n", 1),
    (b"// c\n1", 1),
    (b"% c\n1", 1),
    (None, 1),
    (None, 0),
]

# What makes a failure of a results file, wherever it stands among the pieces.
SPOILING = [b"2x", b"'a'", b"-inf", b"1,5", b"1.5D+00", b"1.5-100", b"1\0", b"[", b"*****", b"1e10000", b"%"]


def space_of(random):
    """White space with comments, which parts two pieces."""
    return random.choice([b" ", b"\n", b"\t", b"\r\n", b"  \n\n ", b"# c\n", b" #1 f\n", b"\n##'\xff\0fail\n\t"])


def label_of(random):
    return random.choice([b"f", b"_", b"obj_fn", b"response_fn_1", b"fail", b"nan", b"e5", b"E", b"x'\"=,\xc3\xa9", b"F" * 300])


def value_of(random):
    """A decimal, and a text of it."""
    mantissa = random.choice([0, 1, 65, random.randrange(10**16), random.randrange(MANTISSA_LIMIT)]) * random.choice([1, -1])
    exponent = random.randrange(-40, 40)
    return decimal_of(mantissa, exponent), spelled(random, mantissa, exponent).encode()


def pieces_by_chance(random):
    """Values and the pieces of a text of them, some with a label."""
    values, pieces = [], []
    for _ in range(random.choice([1, 1, 2, 3, random.randrange(20)])):
        value, text = value_of(random)
        values.append(value)
        pieces += [text] + [label_of(random)] * (random.random() < 0.6)
    return values, pieces


def spoiled(random, values, pieces):
    """So many responses that a text isn't results for, and its pieces then."""
    way = random.randrange(4)
    if way == 0:
        return len(values) + random.choice([1, 2, 50]), pieces
    if way == 1 and values:
        return random.randrange(len(values)), pieces
    if way == 2:
        return len(values), [random.choice([b"fail", b"FAIL", b"Failure"])] + pieces
    place = random.randrange(len(pieces) + 1)
    return len(values), pieces[:place] + [random.choice(SPOILING)] + pieces[place:]


def results_text(random):
    """A text by chance, the number of responses, and its values or none."""
    values, pieces = pieces_by_chance(random)
    count, wanted = len(values), values
    if random.random() < 0.4:
        (count, pieces), wanted = spoiled(random, values, pieces), None
    front = b" \t\n"[: random.randrange(4)] if pieces and pieces[0].lower().startswith(b"fail") else space_of(random)
    return front + b"".join(piece + space_of(random) for piece in pieces), count, wanted
