"""Texts of numbers, by chance."""

WRONG_NUMBERS = (
    "+ - . +. -.e1 e e1 E5 1e 1e+ 1e- 1.e .e1 1..2 1.2.3 --1 +-1 1+ 1- 1e5.0 1e1e1 1e--1 1e+-1 0x10 1_000 1,5 1f 1d0 "
    "inf nan Infinity NaN -inf 1/2 (1) '1' 1% $1 1; 1\0 \0 \x0b1 1\x0c \u0661 \uff11 1\u00a0 \u22121 \ufeff1 ½"
).split(" ")
WRONG_COUNTS = "+5 -5 -0 5.0 5. .5 1e1 5e0 0x5 five 5_0 5, '5' 10001 99999 010001 18446744073709551616 ٣ 5\0".split(" ")


def spelled(random, mantissa, exponent):
    """A text of mantissa * 10**exponent, with zeros, a point and an exponent where chance puts them."""
    sign = "-" if mantissa < 0 else random.choice(["", "", "", "+"])
    if mantissa == 0:
        sign = random.choice(["", "", "+", "-"])
        exponent = random.choice([0, 0, exponent, 99999, -99999, 10**30, -(10**30)])
    zeros = random.choice([0, 0, 0, 1, 2, random.randrange(40)])
    digits = str(abs(mantissa)) + "0" * zeros
    exponent -= zeros
    way = random.randrange(4)
    if way == 0 and 0 <= exponent < 60:
        digits += "0" * exponent
        exponent = 0
    point = random.randrange(len(digits) + 1)
    if way == 1 and -60 < exponent < 0:
        digits = digits.rjust(random.choice([1, 0]) - exponent, "0")
        point = len(digits) + exponent
    elif way == 2:
        point = len(digits)
    digits = "0" * random.choice([0, 0, 0, 1, random.randrange(40)]) + digits[:point] + "." + digits[point:]
    exponent += len(digits) - digits.index(".") - 1
    if digits.endswith(".") and len(digits) > 1 and random.random() < 0.7:
        digits = digits[:-1]
    if exponent or random.random() < 0.1:
        shown = str(abs(exponent)).rjust(random.choice([1, 1, 2, 3, 9]), "0")
        plus = random.choice(["", "+"]) if exponent > 0 else random.choice(["", "+", "-"])
        digits += random.choice("eE") + ("-" if exponent < 0 else plus) + shown
    return sign + digits


def digits_of(random, count):
    """A number of so many digits, with a sign."""
    number = random.randrange(10 ** (count - 1), 10**count)
    return random.choice([number, number, -number])


def limit_text(random):
    """A number's text at a limit: of its digits, of its exponent, or of its length."""
    many = random.choice([100, 400, 401, 5000, 100000])
    return random.choice(
        [
            spelled(random, digits_of(random, random.choice([33, 34, 35, 36])), random.randrange(-40, 10)),
            spelled(random, digits_of(random, random.choice([1, 2, 34])), random.choice([-435, -401, -400, 366, 399, 400, 401])),
            f"{random.choice(['1', '9', '10', '0.1', '.01'])}e{random.choice([398, 399, 400, 401, 402, -398, -399, -400, -401])}",
            f"{random.choice(['1', '25'])}e{random.choice([9998, 9999, 10000, -9998, -9999, -10000, 2**31, 2**63, -(2**64)])}",
            "1" + "0" * random.choice([399, 400, 401, 9999, many]),
            "0." + "0" * random.choice([398, 399, 400, many]) + "1",
            "0" * many + str(random.randrange(100)),
            f"1.{'0' * many}",
            f"{'0' * many}1{'0' * 300}e-{random.choice([290, 300, 310])}",
            f"0.{'0' * many}5e{many}",
            f"{'7' * 34}{'0' * random.choice([0, 1, many])}e-{random.choice([0, 20, 34, many])}",
            "1e" + "0" * many + "3",
            "1e-" + "9" * many,
            "0e" + "9" * many,
            "-0." + "0" * many,
        ]
    )
