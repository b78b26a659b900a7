"""Finds a list of calls step by step: an application that passes each call on is run under the policy, and what it gets back decides what is called next."""

import os
from dataclasses import dataclass, field

from pass_components import passes

from .application import Handle, Step
from .listed import TABLES, handles_in
from .plan import made_content
from .running import Unexpected, by_calls, write_script

# (the application that passes calls on never frees memory)
PAGES = 192
PASSING, SCRIPT, POLICY = "passing.wasm", "explore.json", "policy.toml"


@dataclass
class History:
    """Calls that were made one after another, the host's answers, and calls that end a run, each with the number of calls before it."""

    steps: list = field(default_factory=list)
    answers: list = field(default_factory=list)
    endings: list = field(default_factory=list)
    host_calls: int = 0


def spoken(value):
    """An argument as a script has it: a handle is its index."""
    if isinstance(value, Handle):
        return value.index
    return [spoken(it) for it in value] if isinstance(value, list) else value


def call_of(step):
    name = step.function.key if step.function else f"drop-{step.args[0].kind}"
    return [name, [spoken(it) for it in step.args]]


class Explorer:
    """A history in the making. `saw` is told of each call: the function, its handles, and what came of it."""

    def __init__(self, program, folder, planner, functions, drops, saw):
        self.program, self.folder, self.planner, self.saw = program, folder, planner, saw
        self.history, self.used, self.numbers = History(), [], 0
        with open(os.path.join(folder, PASSING), "wb") as file:
            file.write(passes(TABLES, {it.key for it in functions}, drops, PAGES))

    def explore(self, calls, batch, endings):
        """Makes that many calls, some at once."""
        again, tries = [], 0
        while len(self.history.steps) < calls and tries < 4 * calls:
            tries += 1
            planned = list(again)
            while len(planned) < batch:
                following = self.planner.next()
                if following is None:
                    break
                planned.append(following)
            if not planned:
                break
            again = self.attempt(planned, endings)
        return self.history

    def attempt(self, planned, endings):
        """Runs the calls so far and these; gives back what is to be tried once more."""
        steps = [*self.history.steps, *[step for step, _ in planned]]
        answers = [*self.history.answers, *[answer for _, answer in planned if answer is not None]]
        write_script(self.folder, SCRIPT, answers, [call_of(it) for it in steps])
        ran = self.program.run(self.folder, PASSING, SCRIPT, POLICY)
        if ran.status not in (0, 10, 11, 13):
            raise Unexpected(f"status {ran.status}: {ran.out[-300:]!r}")
        found = by_calls(ran.lines())[len(self.history.steps) :]
        for (step, answer), lines in zip(planned, found):
            end, called = lines[-1], any(line[0] == "call" for line in lines)
            if called != (answer is not None):
                return self.turned(step, called)
            if end[0] == "return":
                self.accept(step, answer, end, called)
            elif end[0] == "trap":
                self.trapped(step, answer, called, endings)
                return []
            else:
                raise Unexpected(f"{end} at {call_of(step)} with {answer}")
        return []

    def turned(self, step, called):
        """The same call, with an answer where there was none, and without where there was one."""
        self.revive(step)
        given = 0
        again = Step(step.function, step.args)
        if step.function is None:
            raise Unexpected(f"a drop asked the host: {call_of(step)}")
        return [(again, self.planner.answers.of(step.function, given) if called else None)]

    def revive(self, step):
        """A drop that wasn't made leaves its handle; so do the drops that were planned after it."""
        gone = {it.args[0].number for it in self.history.steps if it.function is None}
        self.planner.live = [it for it in self.used if it.number not in gone]

    def trapped(self, step, answer, called, endings):
        self.saw(step, "trap from the host" if called else "trap")
        if len(self.history.endings) < endings:
            answers = [*self.history.answers, *([answer] if answer is not None else [])]
            self.history.endings.append((len(self.history.steps), step, answers))
        self.revive(step)

    def accept(self, step, answer, end, called):
        if step.function is None:
            self.saw(step, "dropped")
            self.history.steps.append(step)
            return
        step.result = end[1] if len(end) > 1 else None
        self.bind(step, called)
        self.history.steps.append(step)
        self.history.host_calls += called
        if answer is not None:
            self.history.answers.append(answer)
        self.saw(step, outcome(step, called))

    def bind(self, step, called):
        """The handles that came: each gets a number, and stays for later calls."""
        policy = self.planner.policy
        found = list(handles_in(step.function.result, step.result))
        own = len(policy.trees) + (policy.scratch is not None)
        for i, (kind, way, index) in enumerate(found):
            content, note = self.standing(step, called, i - (len(found) - own))
            handle = Handle(self.numbers, kind, index, content, note)
            self.numbers += 1
            step.made.append((way, handle))
            self.used.append(handle)
            self.planner.live.append(handle)

    def standing(self, step, called, place):
        """What a handle that came stands for; `place` counts the folders of get-directories, from the policy's first on."""
        policy, function = self.planner.policy, step.function
        if function.key == "get-directories":
            if place < 0:
                return "Host", None
            if place < len(policy.trees):
                return "Node", self.planner.note_of(function, step.args, place)
            return "ScratchRoot", None
        if called:
            return "Host", None
        root = function.short == "open-at" and all(it in ("", ".") for it in step.args[2].split("/"))
        return made_content(function, step.args, root), self.planner.note_of(function, step.args, 0)


def outcome(step, called):
    if called:
        return "host"
    if isinstance(step.result, dict) and "err" in step.result:
        err = step.result["err"]
        return f"err {err if isinstance(err, str) else next(iter(err))}"
    return "ok"
