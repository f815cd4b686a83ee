"""Exact decimals. A decimal is a pair (m, e) with the value m * 10**e, where |m| < 10**34 and 10 doesn't divide m, or
(0, 0)."""
import re

MANTISSA_DIGITS = 34
MANTISSA_LIMIT = 10**MANTISSA_DIGITS
EXPONENT_LIMIT = 9999

NUMBER = re.compile(rb"([+-]?)([0-9]*)(?:\.([0-9]*))?(?:[eE]([+-]?)([0-9]+))?")


def leading(decimal):
    """The exponent of the first digit of a decimal that isn't zero."""
    mantissa, exponent = decimal
    return exponent + len(str(abs(mantissa))) - 1


def decimal_of(mantissa, exponent):
    """The decimal with this value, or none where it has none."""
    if mantissa == 0:
        return (0, 0)
    if abs(mantissa) >= MANTISSA_LIMIT:
        return None
    while mantissa % 10 == 0:
        mantissa //= 10
        exponent += 1
    return (mantissa, exponent) if abs(leading((mantissa, exponent))) <= EXPONENT_LIMIT else None


def product(a, b):
    if a[0] == 0 or b[0] == 0:
        return (0, 0)
    return decimal_of(a[0] * b[0], a[1] + b[1])


def scaled(decimal, exponent):
    """The mantissa of a decimal that isn't zero, written with a smaller exponent; none where it is too long."""
    by = decimal[1] - exponent
    if by >= MANTISSA_DIGITS:
        return None
    mantissa = decimal[0] * 10**by
    return mantissa if abs(mantissa) < MANTISSA_LIMIT else None


def total(a, b):
    if a[0] == 0:
        return b
    if b[0] == 0:
        return a
    exponent = min(a[1], b[1])
    mantissas = scaled(a, exponent), scaled(b, exponent)
    return None if None in mantissas else decimal_of(sum(mantissas), exponent)


def difference(a, b):
    return total(a, (-b[0], b[1]))


def is_less(a, b):
    """Whether a is less than b, in whole numbers."""
    exponent = min(a[1], b[1])
    return a[0] * 10 ** (a[1] - exponent) < b[0] * 10 ** (b[1] - exponent)


def rosenbrock(x1, x2):
    """100 * (x2 - x1**2)**2 + (1 - x1)**2 in seven steps, or none where one of them has no value."""
    a = product(x1, x1)
    b = a and difference(x2, a)
    c = b and product(b, b)
    d = c and product((1, 2), c)
    f = difference((1, 0), x1)
    g = f and product(f, f)
    return total(d, g) if d and g else None


def text_of(decimal):
    mantissa, exponent = decimal
    if mantissa == 0:
        return "0"
    sign, digits, first = "-" if mantissa < 0 else "", str(abs(mantissa)), leading(decimal)
    if not -6 <= first <= 33:
        tail = f".{digits[1:]}" if digits[1:] else ""
        return f"{sign}{digits[0]}{tail}e{'-' if first < 0 else '+'}{abs(first):02}"
    if exponent >= 0:
        return sign + digits + "0" * exponent
    digits = digits.rjust(1 - exponent, "0")
    return f"{sign}{digits[:exponent]}.{digits[exponent:]}"


def number_of(text):
    """The decimal that a number's text says, or none where it says none."""
    spelled = NUMBER.fullmatch(text)
    if not spelled or not (spelled[2] or spelled[3]):
        return None
    sign, whole, part, exponent_sign, exponent_digits = (it or b"" for it in spelled.groups())
    digits = (whole + part).lstrip(b"0")
    kept = digits.rstrip(b"0")
    if not kept:
        return (0, 0)
    if len(kept) > MANTISSA_DIGITS:
        return None
    # An exponent of ten digits or more is beyond every limit, since a text has about a million bytes.
    exponent = int(exponent_digits.lstrip(b"0")[:10] or b"0")
    exponent = (-exponent if exponent_sign == b"-" else exponent) - len(part) + len(digits) - len(kept)
    return decimal_of(int(sign + kept), exponent)
