"""Compares what an output does with what its application does under the policy."""

import os
import re
import subprocess
from collections import Counter
from dataclasses import dataclass, field

from .running import ENDS


@dataclass
class Report:
    """Counts, and what came out otherwise."""

    counts: Counter = field(default_factory=Counter)
    seen: Counter = field(default_factory=Counter)
    differences: list = field(default_factory=list)
    refused: Counter = field(default_factory=Counter)

    def add(self, other):
        self.counts += other.counts
        self.seen += other.seen
        self.refused += other.refused
        self.differences += other.differences


def differing(reference, output):
    """Where two runs differ, or nothing."""
    if reference.status == output.status and reference.out == output.out:
        return None
    a, b = reference.out.splitlines(), output.out.splitlines()
    at = next((i for i, (x, y) in enumerate(zip(a, b)) if x != y), min(len(a), len(b)))

    def line(lines):
        return lines[at][:400].decode(errors="replace") if at < len(lines) else "nothing"

    return f"status {reference.status} and {output.status}, line {at + 1}: {line(a)} | {line(b)}"


def asked(outcome):
    """The calls of the host and the drops that a run shows, without the versions of interfaces."""
    return [re.sub(rb"@0\.2\.[0-9]+", b"", line) for line in outcome.out.splitlines() if line.startswith((b'["call",', b'["drop",'))]


class Comparer:
    """Judges cases with a program; where there is only a reference, nothing is wrapped."""

    def __init__(self, program, reference_only=False, validator=None):
        self.program, self.reference_only, self.validator = program, reference_only, validator

    def case(self, case, report):
        report.counts["policies"] += 1
        whole = {}
        for app in case.apps:
            report.counts["applications"] += 1
            found = self.app(case, app, report)
            whole.update({app.file: found[script] for script in found if script.endswith(".whole.json")})
        first = next(iter(whole.values()), None)
        for file, outcome in whole.items():
            if asked(outcome) != asked(first):
                report.differences.append(f"in {case.folder}: {file} asks the host otherwise than the first one: the tool made it wrongly")

    def app(self, case, app, report):
        """Wraps an application and runs its scripts; gives back by their names what the policy says."""
        out = f"out.{app.file}"
        if not self.reference_only:
            wrapped = self.program.virt(case.folder, app.file, case.policy, out)
            if wrapped.status != 0 and app.given and wrapped == self.program.run(case.folder, app.file, app.scripts[0], case.policy):
                report.counts["refused alike"] += 1
                return {}
            if wrapped.status != 0:
                report.differences.append(self.said(case, app, None, f"virt: status {wrapped.status}: {wrapped.out[-300:].decode(errors='replace')}"))
                return {}
            report.counts["bytes added"] += os.path.getsize(os.path.join(case.folder, out)) - os.path.getsize(os.path.join(case.folder, app.file))
            if self.validator:
                self.validated(case, app, out, report)
        return {script: self.script(case, app, out, script, report) for script in app.scripts}

    def script(self, case, app, out, script, report):
        """Compares the two runs of a script; gives back the one that the policy says."""
        reference = self.program.run(case.folder, app.file, script, case.policy)
        report.counts["runs"] += 1
        report.counts[f"status {reference.status}"] += 1
        report.counts["host calls"] += reference.out.count(b'["call",')
        report.counts["drops seen"] += reference.out.count(b'["drop",')
        report.counts["returns"] += reference.out.count(b'["return"')
        if reference.status not in (0, *ENDS.values()) and not app.given:
            report.differences.append(self.said(case, app, script, f"run -p: status {reference.status}: {reference.out[-300:].decode(errors='replace')}"))
        if not self.reference_only:
            found = differing(reference, self.program.run(case.folder, out, script))
            if found:
                report.differences.append(self.said(case, app, script, found))
        return reference

    def said(self, case, app, script, what):
        words = f"{app.file} -p {case.policy} -o out.{app.file}" if script is None else f"{app.file} -s {script} -p {case.policy}"
        return f"in {case.folder}: {words}\n    {what}"

    # ---- other programs

    def validated(self, case, app, out, report):
        """Asks the validator of the output, and of the adapter in it."""
        path = os.path.join(case.folder, out)
        inner = adapter(path)
        files = {"output": path}
        if inner is not None:
            files["adapter"] = f"{path}.adapter.wasm"
            with open(files["adapter"], "wb") as file:
                file.write(inner)
        for what, file in files.items():
            ran = subprocess.run(["bash", self.validator, file], stdout=subprocess.PIPE, stderr=subprocess.STDOUT, check=False)
            said = ran.stdout.decode(errors="replace").strip()
            report.counts[f"{what}s validated"] += 1
            if ran.returncode != 0:
                report.refused[f"{what}: {re.sub(r'0x[0-9a-f]+|[0-9]+|`[^`]*`', '..', said)[:160]}"] += 1
                if what == "adapter" or "not valid to be used as export" not in said:
                    report.differences.append(self.said(case, app, None, f"{what} refused: {said[:300]}"))


def number_at(content, at):
    value = shift = 0
    while True:
        byte = content[at]
        value |= (byte & 127) << shift
        at, shift = at + 1, shift + 7
        if byte < 128:
            return value, at


def adapter(path):
    """The bytes of the first of two components that stand in the output, or nothing."""
    with open(path, "rb") as file:
        content = file.read()
    at, found = 8, []
    while at < len(content):
        kind = content[at]
        length, begin = number_at(content, at + 1)
        if kind == 4:
            found.append(content[begin : begin + length])
        at = begin + length
    return found[0] if len(found) > 1 else None
