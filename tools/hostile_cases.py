"""The cases of tools/hostile: inputs of hostile sizes, and how each must end. What may be held is what docs/reformat.1 states."""

from typing import Callable, NamedTuple

KIB, MIB = 1 << 10, 1 << 20
LIMIT = 256 * MIB
# Bytes that are held for each byte of a header line, a row and its text, at most. docs/reformat.1 states them.
KINDS, NAMES, PLANNED, SCANNED, PRINTF, STRFMT, FORMATX = 4, 40, 64, 256, 40, 80, 192
LINE, TEXT = 3, 2


class Case(NamedTuple):
    """An input and how it ends: `peak` bytes above the start at most, so many seconds, and no more than `memory` to be had."""

    name: str
    words: tuple
    input: Callable
    status: int
    errors: bytes
    output: Callable
    peak: int
    seconds: int
    memory: int


def size_of(blocks):
    return sum(map(len, blocks))


def of(*parts):
    """A maker of blocks: bytes stand for themselves, and a pair for a text that is repeated up to a length."""

    def blocks():
        for part in parts:
            if isinstance(part, bytes):
                yield part
                continue
            unit, length = part
            block = unit * (MIB // len(unit))
            for _ in range(length // len(block)):
                yield block
            yield block[: length % len(block)]

    return blocks


NOTHING = of()


def case(name, words, given, output=NOTHING, peak=0, status=0, errors=b"", seconds=60, memory=None):
    return Case(name, tuple(words.split(" ")), given, status, errors, output, peak, seconds, memory or 256 * MIB + 3 * peak)


def headers(*lines):
    return "".join(line + "\n" for line in lines).encode()


def no_memory(name, given, memory):
    return case(name, "rewrite", given, status=6, errors=b"no memory\n", memory=memory, peak=memory)


# --- widths


def widths():
    for dialect, template, held in (("printf", "%{}d", 1), ("strfmt", "{{0:{}}}", 2), ("formatx", "{{0:{}}}", 1)):
        wide, real = (of(headers("u8", "%d", dialect, template.format(it), "7")) for it in (2000000000, 200000000))
        yield no_memory(f"a width of 2,000,000,000, {dialect}, 400 MiB to be had", wide, 400 * MIB)
        text = of((b" ", 199999999), b"7\n")
        yield case(f"a width of 200,000,000, {dialect}", "rewrite", real, text, peak=TEXT * 200000000)
    given, text = of(headers("u8", "%d", "printf", "%100000d"), (b"7\n", 4000)), of((b" " * 99999 + b"7\n", 2000 * 100001))
    yield case("2,000 short rows with a width of 100,000", "rewrite", given, text, peak=TEXT * 100000)
    given = of(headers("u8", "%2000000000d", "printf", "%d", "7"))
    yield case("a width of 2,000,000,000 in the format", "rewrite", given, status=1, errors=b"line 5: not a row\n")
    given = of(headers("u32 u8", "%d %d", "printf", "%*d", "2000000000 7"))
    yield no_memory("a width of 2,000,000,000 from a value, printf, 400 MiB to be had", given, 400 * MIB)
    given = of(headers("#2", "u32", "w", "%d", "formatx", "{w:w$}", "2000000000"))
    yield no_memory("a width of 2,000,000,000 from a name, formatx, 400 MiB to be had", given, 400 * MIB)


# --- a long line


def long_lines():
    for dialect, template in (("printf", "%s"), ("strfmt", "{0}"), ("formatx", "{0}")):
        front = headers("word", "%s", dialect, template)
        length = LIMIT - len(front) - 1
        given, text = of(front, (b"a", length), b"\n"), of((b"a", length), b"\n")
        yield case(f"a row of 256 MiB, {dialect}", "rewrite", given, text, peak=(LINE + TEXT) * LIMIT)
    front = headers("word", "%s", "printf", "%s")
    given = of(front, (b"a", LIMIT - len(front)), b"\n")
    yield case("a row of 256 MiB, a byte past the limit", "rewrite", given, status=3, errors=b"input past the limit\n", peak=LINE * LIMIT)
    front = headers("u64", "%d", "printf", "%d")
    given = of(front, (b"7", LIMIT - len(front)))
    yield case("a number of 256 MiB", "rewrite", given, status=1, errors=b"line 5: not a row\n", peak=LINE * LIMIT)
    behind = headers("u8", "%d", "printf", "%d", "7")
    given = of((b" ", LIMIT - len(behind)), behind)
    yield case("a line of kinds of 256 MiB, spaces", "rewrite", given, of(b"7\n"), peak=LINE * LIMIT)
    front = headers("u8", "%d")
    given = of(front, (b"a", LIMIT - len(front)))
    yield case("256 MiB behind the format, plan", "plan", given, of(b"{d}\n"), peak=LINE * LIMIT)
    yield case("a line of 256 MiB, scan {s}", "scan {s}", of((b"a", LIMIT)), of((b"a", LIMIT), b"\n"), peak=(LINE + TEXT) * LIMIT)
    yield case("a line of 256 MiB, scan {d}", "scan {d}", of((b"7", LIMIT)), of((b"7", LIMIT), b"\n"), peak=(LINE + TEXT) * LIMIT)
    given = of((b"a", 4 * MIB))
    yield case("a line of 4 MiB, scan {/(a*)*b/}", "scan {/(a*)*b/}", given, of(b"\n"), peak=16 * MIB)


def line_feeds():
    feeds = (b"\n", 64 * MIB)
    yield case("64 MiB of line feeds, rewrite", "rewrite", of(feeds), status=1, errors=b"line 3: bad header\n")
    yield case("64 MiB of line feeds, plan", "plan", of(feeds), of(b"\n"))
    yield case("64 MiB of line feeds, scan {d}", "scan {d}", of(feeds), of(feeds), seconds=120)
    yield case("64 MiB of line feeds as rows", "rewrite", of(b"\n\nprintf\n\n", feeds), of(feeds), seconds=120)


# --- many fields


def row_of(count):
    return ",".join(["7"] * count)


def held_by(kinds, form, template, a_byte, names=""):
    """What header lines may take, and what is read and printed for a row of a byte and a comma for each field."""
    return KINDS * len(kinds) + NAMES * len(names) + SCANNED * len(form) + a_byte * len(template)


def many_fields():
    count = 100000
    kinds, form, row = " ".join(["u8"] * count), ",".join(["%d"] * count), row_of(count)
    planned = of(",".join(["{d}"] * count).encode() + b"\n")
    peak = KINDS * len(kinds) + PLANNED * len(form)
    yield case("a format of 100,000 fields, plan", "plan", of(headers(kinds, form)), planned, peak=peak)
    places = ",".join("{%d}" % at for at in range(count))
    for dialect, template, a_byte in (("printf", form, PRINTF), ("strfmt", places, STRFMT), ("formatx", places, FORMATX)):
        given, peak = of(headers(kinds, form, dialect, template, row)), held_by(kinds, form, template, a_byte)
        yield case(f"100,000 fields and placeholders, {dialect}", "rewrite", given, of(headers(row)), peak=peak)
        if dialect != "printf":
            given, peak = of(headers("u8", "%d", dialect, "{0}" * count, "7")), a_byte * 3 * count
            yield case(f"a field and 100,000 placeholders, {dialect}", "rewrite", given, of((b"7", count), b"\n"), peak=peak)
    given = of(headers(kinds, form))
    yield case("a format of 100,000 fields, translate", "translate formatx", given, of(headers(places)), peak=KINDS * len(kinds) + PLANNED * len(form))


def many_kinds():
    count = 10000
    kinds, form, row = " ".join(["u8"] * count), ",".join(["%d"] * count), row_of(count)
    names = " ".join(f"n{at}" for at in range(count))
    for dialect, place, a_byte in (("strfmt", "{%s}", STRFMT), ("formatx", "{%s}", FORMATX)):
        template = ",".join(place % name for name in names.split())
        peak = held_by(kinds, form, template, a_byte, names)
        given = of(headers("#2", kinds, names, form, dialect, template, row))
        yield case(f"10,000 kinds with names, {dialect}", "rewrite", given, of(headers(row)), peak=peak)
    given, peak = of(headers(kinds, form, "printf", form, row)), held_by(kinds, form, form, PRINTF)
    yield case("10,000 kinds, printf", "rewrite", given, of(headers(row)), peak=peak)
    given = of(headers(" ".join(["u8"] * (count + 1)), form))
    yield case("10,001 kinds for 10,000 fields", "plan", given, status=1, errors=b"line 2: field 10001: kind\n", peak=4 * MIB)


def long_names():
    name = "n" * MIB
    for dialect, template in (("strfmt", "{%s}"), ("formatx", "{%s}"), ("formatx", "{0:%s$}")):
        given = of(headers("#2", "u8", name, "%d", dialect, template % name, "7"))
        text = of(b"7\n" if "$" not in template else b"      7\n")
        yield case(f"a name of 1 MiB, {dialect}, {template % 'n..'}", "rewrite", given, text, peak=(NAMES + STRFMT) * MIB)
    given = of(headers("#2", "u8 u8", f"{name} {name}", "%d"))
    yield case("a name of 1 MiB twice", "plan", given, status=1, errors=b"line 3: bad header\n", peak=2 * NAMES * MIB)


# --- scanning formats and literal lines


def patterns():
    for depth, found in ((10000, b"\n"), (200, b"a\n")):
        pattern = "(" * depth + "a" + ")" * depth
        yield case(f"a pattern that nests {depth:,} deep", "scan {/" + pattern + "/}", of(b"a\n"), of(found), peak=SCANNED * len(pattern))
    form = "scan {/a{1000}{1000}{1000}/}"
    yield case("a pattern of a thousand million characters", form, of(b"a\n"), status=6, errors=b"no memory\n", peak=64 * MIB)
    text = 100000
    yield case("a scanning format of 100,000 characters", "scan " + "a" * text, of((b"a", text), b"\n"), of(b"\n"), peak=SCANNED * text)
    given = of((b"7,", text), b"\n")
    tokens = of(b"\t".join([b"7"] * (text // 4)), b"\n")
    yield case("a scanning format of 25,000 fields", "scan " + "{d}," * (text // 4), given, tokens, peak=SCANNED * text)


def literal_lines():
    text = "a" * 2000000
    yield case("a format of 2 MB of text, plan", "plan", of(headers("", text)), of(headers(text)), peak=PLANNED * len(text))
    given = of(headers("", text, "printf", "x", text))
    yield no_memory("a format of 2 MB of text, 96 MiB to be had", given, 96 * MIB)
    yield case("a format of 2 MB of text", "rewrite", given, of(b"x\n"), peak=SCANNED * len(text), memory=4096 * MIB)
    for dialect, template, a_byte in (("printf", text + "%d", PRINTF), ("strfmt", text + "{0}", STRFMT), ("formatx", text + "{0}", FORMATX)):
        given = of(headers("u8", "%d", dialect, template, "7"))
        yield case(f"a template of 2 MB of text, {dialect}", "rewrite", given, of(headers(text + "7")), peak=a_byte * len(text))
    for dialect, template, shown, a_byte in (("printf", "%%", "%", PRINTF), ("strfmt", "{{", "{", STRFMT), ("formatx", "{{", "{", FORMATX)):
        given = of(headers("", "", dialect, template * 1000000, ""))
        yield case(f"a template of 1,000,000 times {template}, {dialect}", "rewrite", given, of(headers(shown * 1000000)), peak=a_byte * 2000000)


CASES = [*widths(), *long_lines(), *line_feeds(), *many_fields(), *many_kinds(), *long_names(), *patterns(), *literal_lines()]
