"""Runs of the program, in a folder with the files of a case."""

import json
import os
import subprocess
from dataclasses import dataclass

ENDS = {"trap": 10, "script-ended": 11, "spent": 12, "bad-answer": 13, "too-deep": 14}


@dataclass
class Outcome:
    """What a call of the program came to: its exit status, -1 where it took too long, and what it put."""

    status: int
    out: bytes

    def lines(self):
        return [json.loads(line) for line in self.out.splitlines()]


class Program:
    def __init__(self, path, seconds=120, steps=100_000_000):
        self.path, self.seconds, self.steps = os.path.abspath(path), seconds, steps

    def call(self, folder, *words):
        try:
            ran = subprocess.run([self.path, *words], cwd=folder, stdin=subprocess.DEVNULL, stdout=subprocess.PIPE, stderr=subprocess.STDOUT, timeout=self.seconds, check=False)
        except subprocess.TimeoutExpired as late:
            return Outcome(-1, late.stdout or b"")
        return Outcome(ran.returncode, ran.stdout)

    def run(self, folder, component, script, policy=None):
        words = ["run", component, "-s", script, "--steps", str(self.steps)]
        return self.call(folder, *words, *(["-p", policy] if policy else []))

    def virt(self, folder, component, policy, out):
        return self.call(folder, "virt", component, "-p", policy, "-o", out)


def write_script(folder, name, answers, calls):
    with open(os.path.join(folder, name), "w", encoding="utf-8") as file:
        file.write(json.dumps({"answers": answers, "calls": calls}, separators=(",", ":")))


def by_calls(lines):
    """The lines that each call of the script put, each with the last line, which says how it ended."""
    found, here = [], []
    for line in lines:
        here.append(line)
        if line[0] == "return" or line[0] in ENDS:
            found.append(here)
            here = []
    return found


class Unexpected(Exception):
    """The program said what a case never leads to: the case can't go on."""
