"""Models of templates: what one of each dialect prints over values, and how a printf format is written in braces."""

import re
from typing import NamedTuple

from random_cases.printf import GREATEST_I32, NUMBERS, PREFIX, Fault, TooWide, doubled, format_of, parts, suits

DIALECTS = ["printf", "strfmt", "formatx"]
GREATEST_USIZE = 18446744073709551615


def as_i32(value):
    if not isinstance(value, int) or not -(1 << 31) <= value < 1 << 31:
        raise Fault("WrongType")
    return max(0, value)


def as_character(kind, value):
    """What %c prints of a number."""
    bits, signed = NUMBERS[kind]
    if value < 0 or bits > 32 or (signed and bits > 8) or (bits == 8 and value > 127):
        raise Fault("WrongType")
    if 0xD800 <= value < 0xE000 or value > 0x10FFFF:
        raise Fault("WrongType")
    return chr(value)


def field_text(field, kind, value):
    if field.conversion not in "doxXcs" or field.conversion == "s" and kind != "word":
        raise Fault("WrongType")
    if field.conversion == "c":
        if kind == "word":
            raise Fault("WrongType")
        value, kind = as_character(kind, value) if kind in NUMBERS else value, "char"
    elif field.conversion == "s":
        value = value.encode()[: field.precision].decode(errors="ignore")
    elif kind not in NUMBERS:
        raise Fault("WrongType")
    return "".join(parts(field, kind, value)) + field.behind


def printf_text(form, kinds, values):
    """What a printf template prints over any values."""
    left, out = list(zip(kinds, values)), form.front

    def take():
        if not left:
            raise Fault("NotEnoughArgs")
        return left.pop(0)

    for field in form.fields:
        width = as_i32(take()[1]) if field.width == "*" else field.width
        precision = as_i32(take()[1]) if field.precision == "*" else field.precision
        out += field_text(field._replace(width=width, precision=precision), *take())
    if left:
        raise Fault("TooManyArgs")
    return out


class Hole(NamedTuple):
    """A place in a template in braces; `argument`, `width` and `precision` as they are written."""

    argument: str
    fill: str = ""
    align: str = ""
    sign: str = ""
    alternate: str = ""
    zero: str = ""
    width: str = ""
    precision: str = ""
    type: str = ""

    def __str__(self):
        spec = "".join(self[1:7]) + ("." + self.precision if self.precision else "") + self.type
        return "{" + self.argument + (":" + spec if spec else "") + "}"


def aligned(body, width, fill, align):
    room = max(0, width - len(body))
    if room > 100000:
        raise TooWide
    left = {"<": 0, ">": room, "^": room // 2}[align]
    return fill * left + body + fill * (room - left)


def strfmt_pad(hole, body, usual):
    fill, align = hole.fill or " ", hole.align or usual
    if hole.zero and not hole.fill:
        fill, align = "0", "="
    width = int(hole.width or 0)
    if hole.precision:
        body = body[: int(hole.precision)]
    if align == "=":
        if width > len(body):
            raise Fault("Invalid")
        return body
    return aligned(body, width, fill, align)


def strfmt_number(hole, kind, value):
    if hole.type not in ("", *"boxX") or hole.precision:
        raise Fault("TypeError")
    if hole.fill == "0" and hole.align == ">" or hole.alternate and not hole.type:
        raise Fault("Invalid")
    head = "+" if hole.sign == "+" and value >= 0 else ""
    if not hole.type:
        return head + strfmt_pad(hole, str(value), ">")
    if hole.alternate:
        head += "0" + hole.type.lower()
    return head + strfmt_pad(hole, format(value % (1 << NUMBERS[kind][0]), hole.type), ">")


def strfmt_text(hole, kinds, values, state):
    if hole.argument == "":
        raise Fault("Invalid")
    if hole.type and hole.type not in "boxXeEfF%s?":
        raise Fault("TypeError")
    at = place_of(hole.argument, state["names"])
    if at is None or str(at) != hole.argument and hole.argument not in state["names"] or at >= len(values):
        raise Fault("KeyError")
    kind, value = kinds[at], values[at]
    if kind in NUMBERS:
        return strfmt_number(hole, kind, value)
    if hole.type not in ("", "s") or hole.alternate or hole.sign:
        raise Fault("TypeError")
    return strfmt_pad(hole, value, "<")


def usize_of(text):
    if not re.fullmatch(r"\+?[0-9]+", text) or int(text) > GREATEST_USIZE:
        raise Fault("Parse")
    return int(text)


def place_of(argument, names):
    """The place that a position or a name stands for, or None where there is no such name."""
    if re.fullmatch("[0-9]+", argument):
        return int(argument)
    return names.index(argument) if argument in names else None


def count_of(text, values, names):
    """A width or precision of formatx as a number."""
    if not text.endswith("$"):
        return int(text)
    at = place_of(text[:-1], names)
    if at is None or at >= len(values):
        raise Fault("Parse")
    return usize_of(str(values[at]))


def quoted(value, quote):
    named = {"\0": "\\0", "\t": "\\t", "\r": "\\r", "\n": "\\n", "\\": "\\\\", quote: "\\" + quote}
    plain = (named.get(c) or (f"\\u{{{ord(c):x}}}" if c < " " or c == "\x7f" else c) for c in value)
    return quote + "".join(plain) + quote


def formatx_body(hole, kind, value, precision):
    """A value's text before it is padded, and its shape."""
    debug = "?" in hole.type
    if kind not in NUMBERS:
        if debug:
            return quoted(value, '"' if kind == "word" else "'"), "raw"
        return value if precision is None else value[:precision], "text"
    if hole.type in ("x?", "X?"):
        return format(value % (1 << NUMBERS[kind][0]), hole.type[0]), "styled"
    return ("+" if hole.sign == "+" and value >= 0 else "") + str(value), "number"


def formatx_text(hole, kinds, values, state):
    def implicit():
        state["next"] = state.get("next", 0) + 1
        return state["next"] - 1

    precision = None
    if hole.precision == "*":
        at = implicit()
        if at >= len(values):
            raise Fault("Parse")
        precision = usize_of(str(values[at]))
    elif hole.precision:
        precision = count_of(hole.precision, values, state["names"])
    at = implicit() if hole.argument == "" else place_of(hole.argument, state["names"])
    if at is None or at >= len(values):
        raise Fault("MissingArgument")
    width = count_of(hole.width, values, state["names"]) if hole.width else 0
    if hole.type not in ("", "?", "x?", "X?"):
        raise Fault("UnsupportedTrait")
    body, shape = formatx_body(hole, kinds[at], values[at], precision)
    if hole.align:
        return aligned(body, width, hole.fill or " ", hole.align)
    if shape == "number" and hole.zero:
        sign = body[: body[:1] in ("+", "-")]
        return sign + aligned(body[len(sign) :], width - len(sign), "0", ">")
    return aligned(body, width, " ", ">" if shape == "number" else "<") if shape in ("number", "text") else body


HOLE_TEXT = {"strfmt": strfmt_text, "formatx": formatx_text}
NAME = "[A-Za-z_][A-Za-z0-9_]*"
COUNT = rf"(?:[0-9]+\$?|{NAME}\$)"
FORMATX = re.compile(
    rf"(?:\{{\{{|\}}\}}|[^{{}}]|\{{(?:[0-9]+|{NAME})?"
    rf"(?::(?:[^}}]?[<^>])?[+-]?#?(?:0(?=[0-9}}.?oxXbeEp]))?{COUNT}?(?:\.(?:{COUNT}|\*))?(?:[xX]?\?|[oxXbeEp])?)?\}})*",
    re.DOTALL,
)


def are_names(names, count):
    """Whether these are names for so many fields."""
    return len(names) == count == len(set(names)) and all(re.fullmatch(NAME, it) for it in names)


def is_template(dialect, text):
    """Whether a template is in its dialect's grammar. None where the model doesn't say: a number might be too large."""
    if dialect == "printf":
        return format_of(text) is not None
    if dialect == "strfmt":
        return True
    if any(int(it) > GREATEST_USIZE for it in re.findall("[0-9]+", text)):
        return None
    return FORMATX.fullmatch(text) is not None


# --- translations


def translated_number(field, kind, at, target):
    flags, width, is_formatx = field.flags, field.width, target == "formatx"
    if field.conversion == "d":
        signed = NUMBERS[kind][1]
        head, prefix, letter, sign = "", "", "", "+" if signed and "+" in flags else ""
        if signed and " " in flags and not sign:
            return None
    else:
        prefix, sign, letter = PREFIX[field.conversion] if "#" in flags else "", "", field.conversion + "?" * is_formatx
        if is_formatx and field.conversion == "o":
            return None
    if width <= 1 + len(prefix) + len(sign):
        return f"{prefix}{{{at}:{sign}{letter}}}" if sign + letter else f"{{{at}}}"
    if sign and not is_formatx:
        return None
    if "-" in flags:
        return f"{prefix}{{{at}:<{sign}{width - len(prefix)}{letter}}}"
    if "0" in flags:
        zeros = f"{sign}0{width}" if not letter else f"0>{width - len(prefix)}{letter}"
        return f"{prefix}{{{at}:{zeros}}}" if is_formatx else None
    return None if prefix else f"{{{at}:>{sign}{width}{letter}}}"


def translated_field(field, kind, at, target):
    """A field in braces, or None where it has no translation."""
    if "*" in (field.width, field.precision) or not suits(kind, field.conversion):
        return None
    if kind in NUMBERS:
        return translated_number(field, kind, at, target)
    spec = f".{field.precision}" if kind == "word" and field.precision != GREATEST_I32 else ""
    if field.width > (kind == "char"):
        spec = ("<" if "-" in field.flags else ">") + str(field.width) + spec
    return f"{{{at}:{spec}}}" if spec else f"{{{at}}}"


def translated(elements, kinds, target):
    """The template of a format in braces, or the place of the first element that has none."""
    out, at = "", 0
    for place, it in enumerate(elements, 1):
        if isinstance(it, str) or it.conversion == "%":
            out += doubled(it) if isinstance(it, str) else "%"
            continue
        text = translated_field(it, kinds[at], at, target) if at < len(kinds) else None
        if text is None:
            return place
        out, at = out + text, at + 1
    return out if at == len(kinds) else len(elements) + 1
