"""Checks of headers with rows: each yields a finding where the program doesn't do as stated."""

import random
import re
from typing import NamedTuple

from random_cases.printf import Fault, TooWide, elements_of, format_of, is_row, planned, value_of
from random_cases.templates import HOLE_TEXT, Hole, is_template, printf_text, translated
from random_cases.running import Answer, refused


# How many lines that are no rows are tried for a header: each takes a run of its own.
REFUSALS_A_CASE = 8


class Finding(NamedTuple):
    rule: str
    words: tuple
    data: bytes
    wanted: object
    got: object


def check_plan(program, case):
    """A format is planned, or a line up to it refused for the first of its faults; what follows it isn't judged."""
    program.count("headers", 1)
    message = case.front_fault()
    wanted = refused(message) if message else Answer(0, planned(case.form, case.kinds).encode() + b"\n", b"")
    yield from unlike("plan", program, ("plan",), case.front(), wanted)


def unlike(rule, program, words, data, wanted):
    got = program.run(words, data)
    if got != wanted:
        yield Finding(rule, words, data, wanted, got)


def joined(rows):
    return "".join(it + "\n" for it in rows).encode()


def check_rows(program, case):
    """Rows are printed by their own format as they were; a row that is shorter than a width is refused."""
    rows = case.rows()
    if rows is None and case.is_readable():
        yield from unlike("a short row", program, ("rewrite",), case.headers() + b"7\n", refused(f"line {case.first_row}: not a row"))
    elif rows:
        program.count("rows", len(rows))
        yield from unlike("rows by their own format", program, ("rewrite",), case.headers() + joined(rows), Answer(0, joined(rows), b""))


def tokens_of(output, has_fields):
    """The tokens of each line of what a scan wrote."""
    lines = output.decode().split("\n")[:-1]
    return [it.split("\t") if has_fields else [] for it in lines]


def check_tokens(program, case):
    """The planned text reads the values back."""
    rows, form = case.rows(), case.form
    if not rows:
        return
    words, data = ("scan", planned(form, case.kinds)), joined(rows)
    got = program.run(words, data)
    program.count("rows", len(rows))
    read = [tuple(value_of(*part) for part in zip(form.fields, case.kinds, it)) for it in tokens_of(got.output, case.kinds)]
    if got.status or got.errors or read != list(case.values):
        yield Finding("tokens read to the values", words, data, f"tokens that read to {case.values!r}", got)


def hole_text(case, values, state, piece):
    if isinstance(piece, Hole):
        return HOLE_TEXT[case.dialect](piece, case.kinds, values, state)
    return piece.replace("{{", "{").replace("}}", "}")


def template_text(case, values):
    if case.dialect == "printf":
        return printf_text(format_of("".join(case.pieces)), case.kinds, values)
    state = {"names": case.names or ()}
    return "".join(hole_text(case, values, state, it) for it in case.pieces)


def template_answer(case):
    """What a run over the rows by the template answers, or None where the model doesn't say."""
    template, texts = "".join(map(str, case.pieces)), []
    is_well = is_template(case.dialect, template)
    if not is_well:
        return None if is_well is None else refused(f"line {case.first_row - 1}: not a {case.dialect} template")
    try:
        for values in case.values:
            texts.append(template_text(case, values))
    except Fault as fault:
        return refused(f"line {len(texts) + case.first_row}: template fault: {fault}", joined(texts))
    except TooWide:
        return None
    return Answer(0, joined(texts), b"")


def by_template(case, rows):
    return case.headers(case.dialect, "".join(map(str, case.pieces))) + joined(rows)


def check_template(program, case):
    """A template prints the values of each row, or the first row that it has no text for is refused."""
    rows = case.rows()
    wanted = template_answer(case) if rows is not None else None
    if wanted is not None:
        program.count("rows", len(rows))
        yield from unlike(f"a {case.dialect} template", program, ("rewrite",), by_template(case, rows), wanted)


def check_cut(program, case):
    """The outputs of two inputs that are cut between rows are together the output of the whole."""
    rows = case.rows()
    if not rows or template_answer(case) is None:
        return
    cut = random.Random(case.seed).randint(0, len(rows))
    whole, first, second = (program.run(("rewrite",), by_template(case, it)) for it in (rows, rows[:cut], rows[cut:]))
    program.count("rows", len(rows))
    if whole.errors.startswith(b"line %d:" % (case.first_row - 1)):
        wanted, got = (whole, whole), (first, second)
    elif first.status:
        wanted, got = whole, first
    else:
        number = re.match(rb"line (\d+)", second.errors)
        errors = second.errors.replace(number[0], b"line %d" % (int(number[1]) + cut)) if number else second.errors
        wanted, got = whole, Answer(second.status, first.output + second.output, errors)
    if wanted != got:
        yield Finding(f"cut before row {cut + 1}", ("rewrite",), by_template(case, rows), wanted, got)


def check_changed(program, case):
    """A line is a row exactly where the values of its tokens print to it."""
    rows, form = case.rows(), case.form
    if rows is None or not case.changed:
        return
    words, data = ("scan", planned(form, case.kinds)), joined(case.changed)
    got = program.run(words, data)
    tokens = tokens_of(got.output, case.kinds)
    program.count("changed rows", len(case.changed))
    if got.status or got.errors or len(tokens) != len(case.changed):
        yield Finding("a line of tokens for each line", words, data, f"{len(case.changed)} lines", got)
        return
    kept = [line for line, it in zip(case.changed, tokens) if is_row(form, case.kinds, line, it)]
    others = [line for line, it in zip(case.changed, tokens) if not is_row(form, case.kinds, line, it)]
    data = case.headers() + joined(kept)
    yield from unlike("lines whose tokens print to them", program, ("rewrite",), data, Answer(0, joined(kept), b""))
    before = rows[: random.Random(case.seed).randint(0, 3)]
    for line in others[: REFUSALS_A_CASE]:
        program.count("refused rows", 1)
        data, wanted = case.headers() + joined([*before, line, *rows[:1]]), refused(f"line {len(before) + case.first_row}: not a row", joined(before))
        yield from unlike("lines whose tokens don't print to them", program, ("rewrite",), data, wanted)


def check_pieces(program, case):
    """The answer is the same whatever the pieces of the input, and where it is a file."""
    chance, rows = random.Random(case.seed), case.rows()
    if not rows or template_answer(case) is None or chance.random() < 0.95:
        return
    data = by_template(case, rows)
    sizes = [chance.choice([1, 2, 7, 100, 4095, 4096, 4097]) for _ in range(chance.choice([3, 30, 200]))]
    whole = program.run(("rewrite",), data)
    program.count("inputs in pieces and as a file", 1)
    for rule, got in (("pieces", program.run(("rewrite",), data, sizes)), ("a file", program.run_on_file(("rewrite",), data)[0])):
        if got != whole:
            yield Finding(rule, ("rewrite",), data, f"{whole}\n(pieces of {sizes})", got)


def check_translated(program, case):
    """A translation is the table's, and prints ASCII rows as they are."""
    rows, message = case.rows(), case.front_fault(plans=False)
    for target in ("strfmt", "formatx") if program.can_translate else ():
        wanted = None if message else translated(elements_of("".join(case.items)), case.kinds, target)
        answer = refused(message or f"line {case.format_line}: element {wanted}: no translation")
        if isinstance(wanted, str):
            answer = Answer(0, wanted.encode() + b"\n", b"")
        program.count("headers", 1)
        yield from unlike("a translation", program, ("translate", target), case.front(), answer)
        ascii_rows = [row for row, values in zip(rows or [], case.values) if "".join(map(str, values)).isascii()]
        if ascii_rows and isinstance(wanted, str):
            program.count("rows", len(ascii_rows))
            data = case.headers(target, wanted) + joined(ascii_rows)
            yield from unlike("rows by their translation", program, ("rewrite",), data, Answer(0, joined(ascii_rows), b""))


CASE_CHECKS = [check_plan, check_rows, check_tokens, check_template, check_cut, check_changed, check_pieces, check_translated]
