"""A case: a policy, a list of calls found under it, the application that passes calls on and the ones made of the list, each with its scripts."""

import os
from dataclasses import dataclass, field

from .application import Shape, application
from .explore import PASSING, POLICY, call_of
from .listed import FUNCTIONS, KINDS
from .running import write_script

VERSIONS = ["0.2.0", "0.2.0", "0.2.0", "0.2.1", "0.2.3", "0.2.6", "0.2.10", "0.2.999"]


@dataclass
class App:
    """A component's file in the case's folder, and its scripts by their files' names. One that is given may be refused."""

    file: str
    scripts: list = field(default_factory=list)
    given: bool = False


@dataclass
class Case:
    folder: str
    policy: str = POLICY
    apps: list = field(default_factory=list)


def shape(rng):
    package = {it: rng.choice(VERSIONS) for it in ["io", "cli", "clocks", "random", "filesystem", "sockets"]}
    versions = {"": rng.choice(VERSIONS)} if rng.random() < 0.7 else Packages(package)
    more = frozenset(rng.sample(sorted(FUNCTIONS), rng.randrange(1, 30))) if rng.random() < 0.4 else frozenset()
    kinds = frozenset(rng.sample(KINDS, rng.randrange(1, 6))) if rng.random() < 0.3 else frozenset()
    # (an engine refuses the adapter where an import is left out and those that use it don't show what they use)
    fewer = rng.random() < 0.2
    return Shape(versions, fewer or rng.random() < 0.6, rng.random() < 0.3, rng.random() < 0.3, rng.choice(["p", "arg", "the-value"]), more, kinds, fewer)


class Packages(dict):
    """The version of each interface by its package."""

    def get(self, interface, other=None):
        return super().get(interface.split(":")[-1].split("/")[0], other)


def cuts(history, length):
    """Where the list of calls is cut into groups: at each end of a run, and after that many calls."""
    found, since = {0, len(history.steps)} | {at for at, _, _ in history.endings}, 0
    for i in range(len(history.steps)):
        since = 0 if i in found else since + 1
        if since == length:
            found.add(i)
            since = 0
    return sorted(found)


def made_application(case, history, rng, number):
    """The application of the whole list, an exported function for each group, and one for each call that ends a run."""
    marks = cuts(history, rng.choice([1, 3, 6, 1000]))
    groups = [history.steps[a:b] for a, b in zip(marks, marks[1:])]
    ends = [[step] for _, step, _ in history.endings]
    form = shape(rng)
    content, names = application([*groups, *ends], form)
    app = App(f"made{number}.wasm")
    with open(os.path.join(case.folder, app.file), "wb") as file:
        file.write(content)
    calls = [[name, []] for name in names]
    whole = calls[: len(groups)]
    stories = {"whole": (history.answers, whole)}
    for i, (at, _, answers) in enumerate(history.endings):
        stories[f"end{i}"] = (answers, [*whole[: marks.index(at)], calls[len(groups) + i]])
    stories.update(changed(history.answers, whole, rng))
    write_all(case, app, stories)
    return app


def passing_application(case, history, rng):
    calls = [call_of(it) for it in history.steps]
    app = App(PASSING)
    stories = {"whole": (history.answers, calls)}
    for i, (at, step, answers) in enumerate(history.endings):
        stories[f"end{i}"] = (answers, [*calls[:at], call_of(step)])
    if rng.random() < 0.5:
        stories.update(changed(history.answers, calls, rng))
    write_all(case, app, stories)
    return app


def changed(answers, calls, rng):
    """The same with fewer answers, with one that is none, with a trap, and with all calls made twice."""
    found = {}
    if answers:
        at = rng.randrange(len(answers))
        found["fewer"] = (answers[:at], calls)
        found["bad"] = ([*answers[:at], rng.choice([{"value": {"neither": 1}}, {}, {"value": -1}]), *answers[at + 1 :]], calls)
        found["trap"] = ([*answers[:at], "trap", *answers[at + 1 :]], calls)
    if calls:
        at = rng.randrange(len(calls))
        found["twice"] = ([*answers, *answers], [*calls, *calls])
        found["without"] = (answers, [*calls[:at], *calls[at + 1 :]])
    chosen = rng.sample(sorted(found), min(2, len(found)))
    return {name: found[name] for name in chosen}


def write_all(case, app, stories):
    stem = app.file.removesuffix(".wasm")
    for name, (answers, calls) in stories.items():
        script = f"{stem}.{name}.json"
        write_script(case.folder, script, answers, calls)
        app.scripts.append(script)
    case.apps.append(app)
