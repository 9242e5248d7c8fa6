"""Random cases: headers with rows, and whole inputs."""

import dataclasses

from random_cases.printf import GREATEST_I32, KINDS, NUMBERS, Field, TooWide
from random_cases.printf import doubled, fits, format_of, greatest_length, refusal_of, row_of, stop_of
from random_cases.templates import DIALECTS, Hole, are_names

LITERALS = [*",;:=|-+. x0a7fX'\"\\{}$é€\U00010000\t\r\v\x01\x7f\u00a0", "--", "{}", "}{", "{d}", " = ", "0x", "0X", ", ", "a=", "{{"]
LETTERS = "ab019fxX-+.,:=|{}[]%'\"\\/é€\U00010000\U0010ffff\x00\x01\x0b\x0c\x1f\x7f\x85\u00a0\u07ff\u0800\u2028\ud7ff\ue000\ufeff\u0301"
WIDTHS = ["", "", "", *map(str, range(1, 26)), "40", "70", "300"]
NAMES = ["id", "Id", "name", "_", "__", "_0", "x", "X", "b", "e2", "p", "o", "u8", "word", "a" * 70]
LETTERS_OF_NAMES = frozenset("_abcdefghijklmnopqrstuvwxyzABCDEFGHIJKLMNOPQRSTUVWXYZ")
BAD_NAMES = ["1x", "na-me", "\u00e9", "a\u0301", "$", "0", "a.b", "{id}", "id,"]
LENGTHS = ["", "", "", "", "h", "hh", "l", "ll", "q", "L", "j", "z", "Z", "t"]


def some_text(chance, letters, most):
    return "".join(chance.choice(letters) for _ in range(chance.randint(0, most)))


def some_value(chance, field, kind):
    """A value that fits, often at an edge of its kind."""
    if kind in NUMBERS:
        bits, signed = NUMBERS[kind]
        low, high = (-(1 << bits - 1), (1 << bits - 1) - 1) if signed else (0, (1 << bits) - 1)
        edge = chance.choice([0, low, high, 1 << chance.randrange(bits), 10 ** chance.randrange(20), 16 ** chance.randrange(16)])
        near = chance.choice([edge, -edge, edge + chance.randint(-2, 2), chance.randint(low, high), chance.randint(-9, 9)])
        return near if low <= near <= high else chance.randint(low, high)
    letters = [c for c in chance.choice(["ab1", "0123456789abcdefx", LETTERS]) if c != stop_of(field, kind)] or ["b"]
    length = 1 if kind == "char" else chance.choice([1, 1, 2, 3, chance.randint(1, 12), chance.randint(1, 80 if chance.random() < 0.99 else 9000)])
    return "".join(chance.choice(letters) for _ in range(length))


def some_width(chance, kind, conversion, flags):
    if kind in NUMBERS and conversion in "diuoxXp" and chance.random() < 0.5:
        length = greatest_length(Field(flags, 0, 6, {"i": "d", "u": "d", "p": "x"}.get(conversion, conversion)), kind)
        return str(max(1, length + chance.randint(-1, 1)))
    return "*" if chance.random() < 0.01 else chance.choice(WIDTHS) if chance.random() < 0.995 else str(GREATEST_I32)


def some_field(chance, kind):
    right = {"word": "ssS", "char": "ccC"}.get(kind, "diuoxXp")
    conversion = chance.choice(right if chance.random() < 0.985 else "diouxXpcsCSeEfFgG")
    flags = some_text(chance, "-+ 0#", 2) if chance.random() < 0.7 else some_text(chance, "0#", 3)
    precision = ""
    if chance.random() < (0.03 if kind == "word" else 0.1):
        precision = "." + chance.choice(["", "0", "3", "2147483647", "*" if chance.random() < 0.2 else "6"])
    return "%" + flags + some_width(chance, kind, conversion, flags) + precision + chance.choice(LENGTHS) + conversion


def some_literal(chance):
    if chance.random() < 0.4:
        return []
    return [chance.choice(["%%", "%5%", "%-*.3l%"]) if chance.random() < 0.08 else chance.choice(LITERALS)]


def some_items(chance, kinds):
    """The pieces of a format, each a field or a part of a literal."""
    items = some_literal(chance)
    for kind in kinds:
        items += [some_field(chance, kind), *some_literal(chance)]
    return items


def some_kinds(chance):
    count = chance.choice([0, 1, 1, 2, 2, 2, 3, 3, 4, 5, chance.randint(0, 30)])
    return [chance.choice(KINDS) if chance.random() < 0.6 else chance.choice(["word", "char", "u8", "i8"]) for _ in range(count)]


def changed_text(chance, text, letters):
    """A text with a few places changed."""
    for _ in range(chance.choice([1, 1, 1, 2, 3])):
        at, other = chance.randint(0, len(text)), chance.choice(letters)
        end = at + chance.choice([0, 1, 1, 2])
        text = text[:at] + chance.choice([other, other, "", text[at:end] * 2, text[end:], text[at:end].swapcase()]) + text[end:]
    return text


def some_names(chance, count):
    """Names for so many fields, at times names that are refused."""
    names = [*NAMES, *(f"n{k}" for k in range(count))]
    names = chance.sample(names, count) if chance.random() < 0.9 else names[-count:] if count else []
    if chance.random() < 0.04:
        at = chance.randint(0, count)
        names[at : at + chance.choice([0, 1])] = [chance.choice([*BAD_NAMES, *names[:2], "id"])]
    return names


def some_argument(chance, count, names):
    """What a place in a template prints, mostly a field of the row."""
    if chance.random() < 0.05:
        return chance.choice(["", "", "01", "00", str(count), "name", "Name", "18446744073709551615"])
    return chance.choice(names) if names and chance.random() < 0.5 else str(chance.randrange(max(1, count)))


def some_hole(chance, dialect, count, names):
    """A place in a template in braces, mostly one that prints."""
    wild = chance.random() < 0.3
    it = {"argument": some_argument(chance, count, names)}
    if chance.random() < 0.5:
        it["align"] = chance.choice("<^>" + "=" * (dialect == "strfmt"))
        it["fill"] = chance.choice(["", " ", "*", "0", "é", "<", "\U00010000", "+", ":"])
    it["sign"] = chance.choice(["", "", "+", "-", " " * (dialect == "strfmt")]) if wild else ""
    it["alternate"], it["zero"] = chance.choice(["", "", "#"]) if wild else "", chance.choice(["", "", "0"])
    it["width"] = chance.choice(["", "", "1", "5", "21", "70"])
    if wild:
        it["precision"] = chance.choice(["", "", "0", "2", "30"])
        it["type"] = chance.choice(["", "x", "X", "o", "b", "s", "?"] if dialect == "strfmt" else ["", "?", "x?", "X?"])
    if wild and chance.random() < 0.1:
        it["type"] = chance.choice([*"eEfF%kq"] if dialect == "strfmt" else [*"oxXbeEp"])
    if wild and dialect == "formatx" and chance.random() < 0.2:
        it[chance.choice(["width", "precision"])] = chance.choice([f"{chance.randint(0, count)}$", "w$", *(f"{name}$" for name in names)])
        it["precision"] = chance.choice([it["precision"], "*"])
        it["zero"] = it["zero"] if it["width"][:1] not in LETTERS_OF_NAMES or chance.random() < 0.1 else ""
    return Hole(**it)


def some_pieces(chance, dialect, kinds, items, names=()):
    """A template: literal texts, and holes in braces or items of a printf format."""
    if dialect == "printf":
        own = items if chance.random() < 0.3 else some_items(chance, kinds)
        return own if chance.random() < 0.9 else some_items(chance, some_kinds(chance))
    pieces = []
    for _ in range(chance.choice([0, 1, 2, 3, 4, 8])):
        pieces.append(some_hole(chance, dialect, len(kinds), names) if chance.random() < 0.7 else doubled(chance.choice(LITERALS)))
    return pieces


# --- cases


@dataclasses.dataclass(frozen=True)
class Case:
    """A header with rows. `names` is those of version 2, and None in version 1; `changed` is lines that may be rows, `behind`
    what follows the format where nothing judges it, and `seed` decides places and sizes."""

    names: tuple
    kinds: tuple
    items: tuple
    values: tuple
    changed: tuple
    dialect: str
    pieces: tuple
    behind: bytes
    seed: int

    @property
    def form(self):
        return format_of("".join(self.items))

    @property
    def format_line(self):
        return 2 if self.names is None else 4

    @property
    def first_row(self):
        """The number of the line after the headers."""
        return self.format_line + 3

    def up_to_format(self):
        kinds, form = " ".join(self.kinds), "".join(self.items)
        return [kinds, form] if self.names is None else ["#2", kinds, " ".join(self.names), form]

    def front(self):
        return "".join(line + "\n" for line in self.up_to_format()).encode() + self.behind

    def headers(self, dialect="printf", template=None):
        lines = [*self.up_to_format(), dialect, "".join(self.items) if template is None else template]
        return "".join(line + "\n" for line in lines).encode()

    def front_fault(self, plans=True):
        """The message of the first line up to the format that is refused, or None; without `plans` the format need not read back."""
        if self.names is not None and not are_names(self.names, len(self.kinds)):
            return "line 3: bad header"
        why = "not a printf format" if self.form is None else refusal_of(self.form, self.kinds) if plans else None
        return why and f"line {self.format_line}: {why}"

    def is_readable(self):
        return self.front_fault() is None and all(
            len(it) == len(self.kinds) and all(map(fits, self.form.fields, self.kinds, it)) for it in self.values)

    def rows(self):
        """The rows, or None where the format can't be read back or is too wide to be printed."""
        try:
            return [row_of(self.form, self.kinds, it) for it in self.values] if self.is_readable() else None
        except TooWide:
            return None

    def simpler(self):
        if self.names is not None:
            yield dataclasses.replace(self, names=None)
        yield from without_chunks(self, "values")
        yield from without_chunks(self, "changed")
        yield from without_chunks(self, "pieces")
        yield from without_chunks(self, "behind")
        yield from without_a_field(self)
        yield from without_chunks(self, "items")
        yield from without_chunks(self, "kinds")
        yield from with_simpler_parts(self)


def without_chunks(case, name):
    """The case with parts of one of its lists left out, large parts first."""
    whole = getattr(case, name)
    size = len(whole)
    while size:
        for at in range(0, len(whole), size):
            yield dataclasses.replace(case, **{name: whole[:at] + whole[at + size :]})
        size //= 2


def without_a_field(case):
    at = [k for k, it in enumerate(case.items) if it.startswith("%") and not it.endswith("%")]
    for k in range(min(len(at), len(case.kinds))):
        values = tuple(it[:k] + it[k + 1 :] for it in case.values)
        items = case.items[: at[k]] + case.items[at[k] + 1 :]
        names = None if case.names is None else case.names[:k] + case.names[k + 1 :]
        yield dataclasses.replace(case, names=names, kinds=case.kinds[:k] + case.kinds[k + 1 :], items=items, values=values)


def replaced(whole, at, part):
    return (*whole[:at], part, *whole[at + 1 :])


def with_simpler_parts(case):
    for name in ("items", "changed"):
        for at, text in enumerate(getattr(case, name)):
            for k in range(len(text)):
                yield dataclasses.replace(case, **{name: replaced(getattr(case, name), at, text[:k] + text[k + 1 :])})
    for row, values in enumerate(case.values):
        for at, value in enumerate(values):
            for other in {0, 1, value // 10} if isinstance(value, int) else {"a", value[: len(value) // 2], value[1:]}:
                if other != value and other != "":
                    yield dataclasses.replace(case, values=replaced(case.values, row, replaced(values, at, other)))


@dataclasses.dataclass(frozen=True)
class Input:
    """A whole input of a command."""

    words: tuple
    data: bytes

    def simpler(self):
        yield from without_chunks(self, "data")


def some_case(chance, rows):
    kinds = some_kinds(chance)
    items = some_items(chance, kinds)
    if chance.random() < 0.04:
        items = [changed_text(chance, "".join(items), "%dxsc*.0-+# hlqy9")]
    if chance.random() < 0.02:
        kinds = kinds[1:] if chance.random() < 0.5 else kinds + ["u8"]
    dialect, names = chance.choice(DIALECTS), tuple(some_names(chance, len(kinds))) if chance.random() < 0.45 else None
    pieces = some_pieces(chance, dialect, kinds, items, names or ())
    behind = chance.choice([b"", b"\xff\n\0", b"u8", b"\n" * 5000])
    case = Case(names, tuple(kinds), tuple(items), (), (), dialect, tuple(pieces), behind, chance.getrandbits(32))
    if not case.is_readable():
        return case
    values = tuple(tuple(map(lambda *it: some_value(chance, *it), case.form.fields, kinds)) for _ in range(rows))
    case = dataclasses.replace(case, values=values)
    printed = case.rows() or ["7", ""]
    changed = tuple(changed_text(chance, chance.choice(printed), LETTERS + "   \t\r") for _ in range(rows))
    return dataclasses.replace(case, changed=changed)


def some_scan(chance):
    """A scanning format, at times one that ends early."""
    fields = ["{d}", "{2d}", "{0x}", "{x}", "{f}", "{3f}", "{s}", "{}", "{*s}", "{[a-f0-9]}", "{[^ ,]}", "{[]-]}", "{e}"]
    fields += ["{/[a-z]+/}", "{/(\\d+)-?/}", "{/(a|b)*/}", "{/(/}", "{5}", "{d", "{/a", "{{", "}}", "}", "{[", "é", " ", "-", "a"]
    return "".join(chance.choice(fields) for _ in range(chance.randint(0, 6)))


def some_input(chance):
    """A small input of a command with bytes changed, or none of them."""
    case = some_case(chance, chance.randint(0, 6))
    template = "".join(map(str, case.pieces))
    if chance.random() < 0.2:
        template = changed_text(chance, template, "{}:<^>=+-#0159$.*?xX%ds é")
    data = case.headers(case.dialect, template) + "".join(it + "\n" for it in case.rows() or case.changed).encode()
    for _ in range(chance.choice([0, 1, 1, 2, 3])):
        data = changed_bytes(chance, data)
    words = chance.choice([["rewrite"]] * 6 + [["plan"], ["translate", chance.choice(["strfmt", "formatx"])], ["scan", some_scan(chance)]])
    return Input(tuple(words), data)


BAD = [b"\xff", b"\x80", b"\xc0\x80", b"\xc3", b"\xe2\x82", b"\xed\xa0\x80", b"\xf4\x90\x80\x80", b"\xf0\x9f"]
GOOD = [b"\n", b"\n", b"\r", b"\0", b" ", b"%", b"{", b"}", b"\xef\xbb\xbf", b"\r\n", b"\xf4\x8f\xbf\xbf"]


def changed_bytes(chance, data):
    lines, at = data.split(b"\n"), chance.randint(0, len(data))
    k = chance.randrange(len(lines))
    some = chance.choice(BAD + GOOD * 2)
    return chance.choice([
        lambda: data[:at] + some + data[at:],
        lambda: data[:at] + some + data[at + 1 :],
        lambda: data[:at],
        lambda: b"\n".join(lines[:k] + lines[k + 1 :]),
        lambda: b"\n".join(lines[:k] + [lines[k]] + lines[k:]),
        lambda: data.replace(b"\n", b"\r\n"),
        lambda: data[: max(0, len(data) - 1)],
        lambda: data[:at] + some * chance.choice([4090, 4096, 5000, 20000]) + data[at:],
        lambda: b"\n".join(lines[:k] + [chance.choice([b"", b"u8", b"printf x", b" formatx ", b"#2", b"\t#2 ", b"id id", b"_ a1"])] + lines[k + 1 :]),
    ])()
