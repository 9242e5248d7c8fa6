"""A model of printf formats: what they print, and which of them can be read back."""

import re
from typing import NamedTuple

NUMBERS = {"u8": (8, False), "u16": (16, False), "u32": (32, False), "u64": (64, False), "usize": (64, False)}
NUMBERS.update({"i8": (8, True), "i16": (16, True), "i32": (32, True), "i64": (64, True), "isize": (64, True)})
KINDS = [*NUMBERS, "word", "char"]
SPACES = " \t\n\r"
GREATEST_I32 = 2147483647
# Wider than any number's text: a format reads back or not whichever of such widths it has.
WIDE = 60


# --- what a format prints

SPEC = re.compile(r"%([#0\- +]*)(\*|[0-9]*)(?:(\.)(\*|[0-9]*))?(?:hh|h|ll|l|q|L|j|z|Z|t)?([diuoxXpeEfFgGcCsS%])")
PREFIX = {"o": "0", "x": "0x", "X": "0X"}
BASES = {"o": 8, "x": 16, "X": 16}


class Field(NamedTuple):
    flags: str
    width: object
    precision: object
    conversion: str
    behind: str = ""


class Format(NamedTuple):
    front: str
    fields: list


class TooWide(Exception):
    """A text that is too long for the model."""


class Fault(Exception):
    """A template has no text over some values: the name of its fault."""


def numeric(digits, otherwise):
    return otherwise if digits is None else digits if digits == "*" else int(digits or "0")


def field_of(found):
    """A field from a match of SPEC, or None where a number is too large."""
    flags, width, point, precision, conversion = found.groups()
    conversion = {"i": "d", "u": "d", "C": "c", "S": "s", "p": "x"}.get(conversion, conversion)
    usual = GREATEST_I32 if conversion == "s" else 6
    it = Field(flags + "#" * (found[5] == "p"), numeric(width, 0), numeric(precision if point else None, usual), conversion)
    return None if any(n != "*" and n > GREATEST_I32 for n in (it.width, it.precision)) else it


def elements_of(text):
    """The literal runs and the fields of a format, in order, or None where the text is no format."""
    found, at = [], 0
    while at < len(text):
        end = text.find("%", at)
        if end != at:
            end = len(text) if end < 0 else end
            found.append(text[at:end])
        else:
            spec = SPEC.match(text, at)
            field = field_of(spec) if spec else None
            if field is None:
                return None
            found.append(field)
            end = spec.end()
        at = end
    return found


def format_of(text):
    """The format that a text spells, or None where it spells none."""
    elements = elements_of(text)
    if elements is None:
        return None
    front, fields = "", []
    for it in elements:
        if isinstance(it, Field) and it.conversion != "%":
            fields.append(it)
            continue
        literal = it if isinstance(it, str) else "%"
        if fields:
            fields[-1] = fields[-1]._replace(behind=fields[-1].behind + literal)
        else:
            front += literal
    return Format(front, fields)


def suits(kind, conversion):
    return conversion in {"word": "s", "char": "c"}.get(kind, "doxX")


def padded(flags, width, head, body, zeros=True):
    """Lead, token and trail of a field's text."""
    room = max(0, width - len((head + body).encode()))
    if room > 100000:
        raise TooWide
    if "-" in flags:
        return "", head + body, " " * room
    if "0" in flags and zeros:
        return "", head + "0" * room + body, ""
    return " " * room, head + body, ""


def parts(field, kind, value):
    if kind in ("word", "char"):
        return padded(field.flags, field.width, "", value, zeros=False)
    bits, signed = NUMBERS[kind]
    if field.conversion != "d":
        head = PREFIX[field.conversion] if "#" in field.flags else ""
        return padded(field.flags, field.width, head, format(value % (1 << bits), field.conversion))
    sign = "-" if value < 0 else "" if not signed else "+" if "+" in field.flags else " " if " " in field.flags else ""
    return padded(field.flags, field.width, sign, str(abs(value)))


def row_of(form, kinds, values):
    """The printed text of values over which the format has its kinds."""
    texts = ("".join(parts(*it)) + it[0].behind for it in zip(form.fields, kinds, values))
    return form.front + "".join(texts)


# --- what is read back


def stop_of(field, kind):
    return field.behind[:1] if kind in ("word", "char") else ""


def fits(field, kind, value):
    if kind in NUMBERS:
        bits, signed = NUMBERS[kind]
        return -(1 << bits - 1) <= value < 1 << bits - 1 if signed else 0 <= value < 1 << bits
    stop = stop_of(field, kind)
    banned = SPACES + stop
    return value != "" and not any(c in banned for c in value) and (kind == "word" or len(value) == 1)


def greatest_length(field, kind):
    """The greatest length of sign, prefix and digits over a number kind."""
    bits, signed = NUMBERS[kind]
    if field.conversion == "d":
        return len(str((1 << bits) - 1)) if not signed else 1 + len(str(1 << bits - 1))
    prefix = len(PREFIX[field.conversion]) if "#" in field.flags else 0
    return prefix + -(-bits // (3 if field.conversion == "o" else 4))


def is_exact(field, kind):
    is_padded = kind in NUMBERS and "0" in field.flags and not set(field.flags) & {"-", " "}
    return is_padded and field.width >= greatest_length(field, kind)


def takes(field, kind, c):
    if kind in NUMBERS:
        return c in ("0123456789abcdefABCDEFx" if field.conversion in "xX" else "0123456789")
    return c not in SPACES and c != stop_of(field, kind)


def runs_on(fields, kinds, values, at):
    """Whether over these values the text behind the token of the field at this place begins with a character that it takes."""
    if is_exact(fields[at], kinds[at]) or not all(map(fits, fields, kinds, values)):
        return False
    behind = parts(fields[at], kinds[at], values[at])[2] + fields[at].behind
    if not behind and at + 1 < len(fields):
        behind = "".join(parts(fields[at + 1], kinds[at + 1], values[at + 1])) + fields[at + 1].behind
    return behind != "" and takes(fields[at], kinds[at], behind[0])


def other_than(stop, first, second):
    return second if stop == first else first


def long_value(field, kind):
    bits, signed = NUMBERS[kind]
    if field.conversion == "d":
        return -(1 << bits - 1) if signed else (1 << bits) - 1
    if field.conversion == "o":
        return -1 if signed else (1 << bits) - 1
    return 1 << bits - 4 if not signed else (1 << bits - 4)


def value_next(field, kind):
    """What a field that is right behind another has in the list that shows whether that one runs on."""
    stop, width = stop_of(field, kind), max(1, field.width)
    if kind == "word":
        return other_than(stop, "1", "2") * width
    if kind == "char":
        if "-" in field.flags or width == 1:
            return other_than(stop, "1", "2")
        return other_than(stop, "\U00010000", "\U00010001")
    flags = set(field.flags)
    if flags & {"-", "0"}:
        return -1 if "".join(parts(field, kind, 0)).startswith(" ") and NUMBERS[kind][1] else 0
    if field.conversion == "d" and NUMBERS[kind][1] and not flags & {"+", " "} and field.width < greatest_length(field, kind):
        return (1 << NUMBERS[kind][0] - 1) - 1
    return long_value(field, kind)


def shows(form, kinds, at):
    """The list of values that shows whether the field at this place runs on."""
    values = [0 if kind in NUMBERS else other_than(stop_of(field, kind), "a", "b") for field, kind in zip(form, kinds)]
    field, kind = form[at], kinds[at]
    if "-" in field.flags:
        if kind in NUMBERS:
            values[at] = long_value(field, kind)
        elif fits(field, kind, "a") and kind == "word":
            values[at] = "a" * max(1, field.width)
        elif fits(field, kind, "\U00010000"):
            values[at] = "\U00010000"
    if not field.behind and at + 1 < len(form):
        values[at + 1] = value_next(form[at + 1], kinds[at + 1])
    return values


def refusal_of(form, kinds):
    """Why a format can't be read back over kinds: the message's end, or None."""
    fields = form.fields
    for at in range(max(len(fields), len(kinds))):
        if at >= min(len(fields), len(kinds)) or "*" in fields[at][1:3] or not suits(kinds[at], fields[at].conversion):
            return f"field {at + 1}: kind"
    for at, (field, kind) in enumerate(zip(fields, kinds)):
        if kind == "word" and field.precision != GREATEST_I32:
            return f"field {at + 1}: lossy"
    narrow = [it._replace(width=min(it.width, WIDE)) for it in fields]
    for at in range(len(fields)):
        if runs_on(narrow, kinds, shows(narrow, kinds, at), at):
            return f"field {at + 1}: runs on"
    return None


def doubled(text):
    return text.replace("{", "{{").replace("}", "}}")


def planned(form, kinds):
    out = doubled(form.front)
    for field, kind in zip(form.fields, kinds):
        if kind in NUMBERS:
            prefix = "0X" if field.conversion == "X" and "#" in field.flags else ""
            limit = str(field.width - len(prefix)) if is_exact(field, kind) else ""
            out += f"{prefix}{{{limit}{'d' if field.conversion in 'do' else 'x'}}}"
        else:
            out += "{}" if field.behind else "{s}"
        out += doubled(field.behind)
    return out


def value_of(field, kind, token):
    """The value that a token reads to, or None."""
    if kind not in NUMBERS:
        return token if token != "" and (kind == "word" or len(token) == 1) else None
    bits, signed = NUMBERS[kind]
    if field.conversion == "d":
        value = int(token) if re.fullmatch("[+-]?[0-9]+" if signed else r"\+?[0-9]+", token) else None
        return value if value is not None and fits(field, kind, value) else None
    base = BASES[field.conversion]
    if not re.fullmatch("[0-7]+" if base == 8 else "[0-9a-fA-F]+", token) or int(token, base) >= 1 << bits:
        return None
    value = int(token, base)
    return value - (1 << bits) if signed and value >> bits - 1 else value


def is_row(form, kinds, line, tokens):
    """Whether a line is a row, by the tokens that the planned text takes from it."""
    if len(tokens) != len(kinds):
        return False
    values = [value_of(*it) for it in zip(form.fields, kinds, tokens)]
    if any(it is None for it in values) or not all(map(fits, form.fields, kinds, values)):
        return False
    try:
        return row_of(form, kinds, values) == line
    except TooWide:
        return False
