"""Runs of the program."""

import os
import subprocess
import time
from collections import Counter
from typing import NamedTuple

USAGE = b"usage: reformat rewrite | plan | scan FORMAT | translate strfmt|formatx | sample N\n"
SECONDS_A_RUN = 60


class Answer(NamedTuple):
    status: int
    output: bytes
    errors: bytes

    def __str__(self):
        output = f"output ({len(self.output)} bytes) {self.output[:2000]!r}"
        return f"status {self.status}\nerrors {self.errors[:300]!r}\n{output}"


def refused(message, output=b""):
    return Answer(1, output, message.encode() + b"\n")


class Program:
    """A built program, how often it was run, and how many cases of each sort were judged."""

    def __init__(self, path):
        self.path, self.runs, self.counts = os.path.realpath(path), 0, Counter()
        self.can_translate = self.run(("translate", "strfmt"), b"").errors != USAGE

    def count(self, sort, number):
        self.counts[sort] += number

    def run(self, words, data, sizes=()):
        """Runs the program; pieces of these sizes come first, with a pause behind each, and then the rest."""
        self.runs += 1
        words = [it if isinstance(it, bytes) else it.encode() for it in words]
        pipe, at = subprocess.PIPE, 0
        with subprocess.Popen([self.path, *words], stdin=pipe, stdout=pipe, stderr=pipe, close_fds=False) as it:
            try:
                for size in sizes:
                    os.write(it.stdin.fileno(), data[at : at + size])
                    at += size
                    time.sleep(0.0005)
                output, errors = it.communicate(data[at:], timeout=SECONDS_A_RUN)
            except BrokenPipeError:
                output, errors = it.communicate()
            except subprocess.TimeoutExpired:
                it.kill()
                return Answer(-9, it.communicate()[0], b"no answer in time")
        return Answer(it.returncode, output, errors)

    def run_on_file(self, words, data):
        """Runs the program on a file; the answer, and how much of it was read."""
        self.runs += 1
        words = [it if isinstance(it, bytes) else it.encode() for it in words]
        with open(os.memfd_create("input"), "r+b") as file:
            file.write(data)
            file.seek(0)
            it = subprocess.run([self.path, *words], stdin=file, capture_output=True, close_fds=False, timeout=SECONDS_A_RUN)
            return Answer(it.returncode, it.stdout, it.stderr), os.lseek(file.fileno(), 0, os.SEEK_CUR)
