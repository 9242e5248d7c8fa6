"""Checks of whole inputs and of words."""

import re

from random_cases.checks import Finding, unlike
from random_cases.printf import KINDS, SPACES, elements_of, format_of, planned, refusal_of
from random_cases.running import USAGE, Answer, refused
from random_cases.templates import DIALECTS, are_names, is_template, translated

FAULTS = {
    "printf": "WrongType|TooManyArgs|NotEnoughArgs",
    "strfmt": "Invalid|KeyError|TypeError",
    "formatx": "Parse|MissingArgument|UnsupportedTrait",
}

def text_of(line):
    try:
        return line.decode()
    except UnicodeDecodeError:
        return None


def lines_of(data):
    lines = data.split(b"\n")
    return lines if lines[-1] else lines[:-1]


def words_of(text):
    return re.findall(r"[^\0- ]+", text)


def is_second(lines):
    """Whether an input is of version 2."""
    return lines != [] and text_of(lines[0]) is not None and words_of(text_of(lines[0])) == ["#2"]


def header_fault(texts, command):
    """Why the last of these header lines is refused: the message's end; None where it is kept, and "?" where the model doesn't say."""
    words = words_of(texts[-1])
    if words_of(texts[0]) == ["#2"]:
        if len(texts) == 3:
            return None if are_names(words, len(words_of(texts[1]))) else "bad header"
        texts = texts[1:2] + texts[3:]
    if len(texts) <= 1:
        return None if not texts or all(it in KINDS for it in words) else "bad header"
    if len(texts) == 2:
        form = format_of(texts[1])
        return "not a printf format" if form is None else None if command == "translate" else refusal_of(form, words_of(texts[0]))
    if len(texts) == 3:
        return None if len(words) == 1 and words[0] in DIALECTS else "bad header"
    dialect = texts[2].strip("".join(map(chr, range(33))))
    is_well = is_template(dialect, texts[3])
    return None if is_well else "?" if is_well is None else f"not a {dialect} template"


def header_message(lines, count, command):
    """The message for the first of so many header lines that is refused, None, or "?"."""
    for number in range(1, count + 1):
        if number > len(lines):
            return f"line {number}: bad header"
        texts = [text_of(it) for it in lines[:number]]
        why = "not UTF-8" if texts[-1] is None else header_fault(texts, command)
        if why:
            return "?" if why == "?" else f"line {number}: {why}"
    return None


def header_answer(words, lines):
    """What `plan` or `translate` answers for kinds and a format that are kept."""
    at = 1 if is_second(lines) else 0
    kinds, text = words_of(text_of(lines[at])), text_of(lines[1 + 2 * at])
    if words[0] == "plan":
        return Answer(0, planned(format_of(text), kinds).encode() + b"\n", b"")
    wanted = translated(elements_of(text), kinds, words[1])
    if isinstance(wanted, str):
        return Answer(0, wanted.encode() + b"\n", b"")
    return refused(f"line {2 + 2 * at}: element {wanted}: no translation")


def is_explained(lines, headers, got, names):
    """Whether an answer past the headers has a form that is stated, and speaks of a line that can be meant."""
    texts = [text_of(it) for it in lines]
    if got.status == 0:
        return got.errors == b"" and got.output.count(b"\n") == len(lines) - headers and all(it is not None for it in texts[headers:])
    found = re.fullmatch(rf"line (\d+): (?:(not UTF-8){names})\n", got.errors.decode())
    if got.status != 1 or not found or not headers < int(found[1]) <= len(lines):
        return False
    at = int(found[1]) - 1
    is_first = all(it is not None for it in texts[headers:at]) and (texts[at] is None) == (found[2] is not None)
    return is_first and got.output.count(b"\n") == at - headers


def are_slices(line, tokens):
    """Whether tokens stand in a line, in order."""
    at = 0
    for it in tokens:
        at = line.find(it, at)
        if at < 0:
            return False
        at += len(it)
    return True


def scans_apart(program, words, lines, got):
    """Tokens stand in their line in order, and are the same whatever the other lines are."""
    kept = lines[: got.output.count(b"\n")]
    for line, out in zip(kept, got.output.split(b"\n")):
        if b"\t" not in line and not are_slices(line, out.split(b"\t")):
            yield Finding("tokens in order", words, line + b"\n", "tokens that stand in the line, in order", out)
    backwards = b"".join(it + b"\n" for it in reversed(kept))
    wanted = b"".join(it + b"\n" for it in reversed(got.output.split(b"\n")[:-1]))
    yield from unlike("lines backwards", program, words, backwards, Answer(0, wanted, b""))


def check_input(program, case):
    """Each input has an answer that is stated, and what comes after a refused line changes nothing."""
    words, lines = case.words, lines_of(case.data)
    got = program.run(words, case.data)
    headers = {"rewrite": 4, "plan": 2, "translate": 2, "scan": 0}[words[0]]
    headers += 2 if headers and is_second(lines) else 0
    program.count("inputs", 1)
    program.count("headers", 1)
    message = header_message(lines, headers, words[0])
    if message == "?":
        return
    if message or words[0] in ("plan", "translate"):
        wanted = refused(message) if message else header_answer(words, lines)
        if got != wanted:
            yield Finding("an input", words, case.data, wanted, got)
        return
    is_large = words[0] == "rewrite" and re.search(rb"[$*]|[0-9]{6}", lines[headers - 1])
    if got == Answer(6, got.output, b"no memory\n") and is_large:
        return
    names = f"|not a row|template fault: (?:{FAULTS[lines[headers - 2].decode().strip(SPACES + chr(0))]})" if words[0] == "rewrite" else ""
    program.count("rows", got.output.count(b"\n"))
    if not is_explained(lines, headers, got, names):
        yield Finding("an input's answer", words, case.data, "an answer that is stated, for a line that can be meant", got)
        return
    if words[0] == "scan":
        yield from scans_apart(program, words, lines, got)
    if got.status:
        number = int(got.errors.split()[1][:-1])
        before = b"".join(it + b"\n" for it in lines[: number - 1])
        yield from unlike("the lines before a refused one", program, words, before, Answer(0, got.output, b""))
        yield from unlike("up to a refused line", program, words, before + lines[number - 1] + b"\n", got)


def check_words(program, chance):
    """Words that are no command are refused, and nothing is read; a sample is summed up as its rows are."""
    no_command = [(), ("",), ("rewrite", "x"), ("Rewrite",), ("plan", ""), ("scan",), ("scan", "a", "b"), ("sample", "01"), ("sample", "1000001"),
                  ("sample", "+1"), ("sample", ""), ("translate",), ("translate", "printf"), ("--help",), ("scan", b"\xff"), ("rewrite\n",)]
    for words in no_command:
        got, place = program.run_on_file(words, b"u8\n%d\n")
        if got != Answer(2, b"", USAGE) or place:
            yield Finding("words that are no command", words, b"u8\n%d\n", f"{Answer(2, b'', USAGE)}, nothing read", f"{got}, {place} bytes read")
    for n in [0, 1, 2, chance.randint(3, 5000), 100000] if program.run(("sample", "0"), b"").status != 2 else []:
        values = [(k * 2654435761 % (1 << 32), -k * 1000003 if k % 2 else k * 1000003, f"w{k}") for k in range(n)]
        given = "u32 i64 word\n%08x %+d %s\nformatx\n{2} {0} {1}\n" + "".join(f"{u:08x} {i:+} {w}\n" for u, i, w in values)
        out = "".join(f"{w} {u} {i}\n" for u, i, w in values).encode()
        summary = f"rows {n} in {len(given)} out {len(out)} sum {sum(out)}\n"
        yield from unlike("a sample", program, ("sample", str(n)), b"", Answer(0, summary.encode(), b""))
