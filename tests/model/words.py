"""MIX words, their fields and their arithmetic, with bytes of 0 to 63 (1.3.1)."""

from tests.model.texts import rows

# A word is a pair (sign, magnitude): the sign "+" or "-", the magnitude below 64^5. So +0 and -0
# are two words.
FULL = 64**5
ZERO = ("+", 0)

# The characters of the codes 0 to 55; ~ [ # stand for the Greek delta, sigma and pi.
CHARACTERS = "".join(character for _, character, *_ in rows("characters.tsv")).encode()

# The fields: the code 8L+R stands for (L:R). Every other code is no field.
FIELDS = {8 * left + right: (left, right) for right in range(6) for left in range(right + 1)}


def number(word):
    sign, magnitude = word
    return magnitude if sign == "+" else -magnitude


def word_of(n, sign_of_zero="+"):
    """The word of a number below 64^5 in magnitude; the number 0 doesn't say its sign."""
    if n == 0:
        return (sign_of_zero, 0)
    return ("+" if n > 0 else "-", abs(n))


def negated(word):
    sign, magnitude = word
    return ("-" if sign == "+" else "+", magnitude)


def bytes_of(word):
    """Bytes 1 to 5."""
    return [word[1] // 64**at % 64 for at in (4, 3, 2, 1, 0)]


def joined(sign, five):
    magnitude = 0
    for byte in five:
        magnitude = 64 * magnitude + byte
    return (sign, magnitude)


def written(word, first=1):
    """The sign, and bytes `first` to 5 as two digits each."""
    return word[0] + "".join(" %02d" % byte for byte in bytes_of(word)[first - 1:])


def number_text(word):
    """A decimal number, with its sign where that is minus: -0 too."""
    return ("-" if word[0] == "-" else "") + str(word[1])


def instruction(word):
    """Sign, AA, I, F and C: the sign, bytes 1 and 2 as one number, and bytes 3, 4 and 5."""
    one, two, index, f, c = bytes_of(word)
    return word[0], 64 * one + two, index, f, c


def field_value(word, code):
    """The bytes of the field, moved to the right end of a zero word; the sign is + where the field leaves it out."""
    left, right = FIELDS[code]
    field = bytes_of(word)[max(left, 1) - 1:right]
    return joined(word[0] if left == 0 else "+", field)


def put_field(word, code, value):
    """The rightmost bytes of the value take the place of the field's bytes."""
    left, right = FIELDS[code]
    before, five = max(left, 1) - 1, bytes_of(word)
    five[before:right] = bytes_of(value)[5 - (right - before) :]
    return joined(value[0] if left == 0 else word[0], five)


def add(a, v):
    """The sum and whether it overflows. A zero sum has the sign of the first word."""
    total = number(a) + number(v)
    if total == 0:
        return (a[0], 0), False
    return ("+" if total > 0 else "-", abs(total) % FULL), abs(total) >= FULL


def sub(a, v):
    return add(a, negated(v))


def mul(a, v):
    """The ten bytes of the product, as two words of the same sign."""
    sign = "+" if a[0] == v[0] else "-"
    high, low = divmod(a[1] * v[1], FULL)
    return (sign, high), (sign, low)


def div(a, x, v):
    """Quotient and remainder of the ten bytes of a and x by v, or None where the quotient has no room."""
    if v[1] == 0 or a[1] >= v[1]:
        return None
    quotient, remainder = divmod(a[1] * FULL + x[1], v[1])
    return ("+" if a[0] == v[0] else "-", quotient), (a[0], remainder)


def shift(kind, a, x, m):
    """A shift by m bytes: SLA and SRA move a alone, the others the ten bytes of a and x. The signs stay."""
    is_alone, is_left = kind in ("SLA", "SRA"), kind[1] == "L"
    moved = bytes_of(a) if is_alone else bytes_of(a) + bytes_of(x)
    if kind in ("SLC", "SRC"):
        cut = m % 10 if is_left else -m % 10
        moved = moved[cut:] + moved[:cut]
    else:
        zeros = [0] * min(m, len(moved))
        moved = moved[m:] + zeros if is_left else zeros + moved[: len(moved) - len(zeros)]
    return joined(a[0], moved[:5]), x if is_alone else joined(x[0], moved[5:])


def num(a, x):
    """The number that ten digit characters spell, in the width of a word, and whether it is too wide for it."""
    spelt = int("".join(str(byte % 10) for byte in bytes_of(a) + bytes_of(x)))
    return (a[0], spelt % FULL), spelt >= FULL


def to_char(a, x):
    """The ten characters of the digits of |a|."""
    codes = [30 + int(digit) for digit in "%010d" % a[1]]
    return joined(a[0], codes[:5]), joined(x[0], codes[5:])


def compare(a, v, code):
    """L, E or G: the field of the first word against the same field of the second, as numbers."""
    first, second = number(field_value(a, code)), number(field_value(v, code))
    return "L" if first < second else "G" if first > second else "E"


def char_of(code):
    return CHARACTERS[code] if code < len(CHARACTERS) else ord("?")


def code_of(byte):
    """The code of a byte of a text, small letters read as capitals; None where it is no MIX character."""
    if ord("a") <= byte <= ord("z"):
        byte -= 32
    found = CHARACTERS.find(bytes([byte]))
    return None if found < 0 else found
