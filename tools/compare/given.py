"""Applications that are given: components under made policies with calls and answers at random, and those with scripts and policies of their own."""

import glob
import os
import random
import shutil

from .cases import App, Case
from .component_types import Unread, exported_functions
from .listed import BY_NAME
from .policies import PROFILES
from .running import Unexpected, write_script
from .values import PARTS, Answers, anything

SCRIPT, POLICY = "given.json", "policy.toml"


def jobs(program, args):
    """Each case's name, with what makes it."""
    profiles = args.profiles.split(",")
    for file in sorted(glob.glob(os.path.join(args.given, "*.wasm"))) if args.given else []:
        name = os.path.basename(file).removesuffix(".wasm")
        for i in range(args.cases):
            profile = profiles[i % len(profiles)]
            yield f"{name}/{profile}/{i}", lambda folder, report, f=file, p=profile, n=i: at_random(program, folder, f, p, n, args, report)
    for words in args.scripts:
        component, script, policy = words.split(":")
        yield f"{os.path.basename(component)}/{os.path.basename(script)}", lambda folder, report, w=(component, script, policy): with_script(folder, *w)
    for table in args.rows:
        for words in rows_of(table):
            yield f"{words[1]}/{words[3]}", lambda folder, report, w=words, t=table: of_row(folder, t, w)


# ---- calls and answers at random


def at_random(program, folder, file, profile, number, args, report):
    """The component under a made policy; nothing where it is refused."""
    name = os.path.basename(file)
    rng = random.Random(f"{args.seed}/{name}/{profile}/{number}")
    policy = PROFILES[profile](rng)
    policy.write(folder)
    shutil.copy(file, os.path.join(folder, name))
    try:
        with open(file, "rb") as content:
            functions = exported_functions(content.read())
    except (Unread, IndexError, KeyError):
        functions = {}
    calls = [call_at_random(rng, policy, functions) for _ in range(rng.randrange(1, 9))] if functions else []
    answers = answered(program, folder, name, calls, Answers(rng, policy), args.calls)
    if answers is None:
        report.counts["refused components"] += 1
        return None
    write_script(folder, SCRIPT, answers, calls)
    case = Case(folder)
    case.apps.append(App(name, [SCRIPT], True))
    return case


def call_at_random(rng, policy, functions):
    name = rng.choice(sorted(functions))
    return [name, [text_or(rng, policy, ty) for ty in functions[name]]]


def text_or(rng, policy, ty):
    """A value; a text may be a path of a tree, and a number a small one."""
    if ty == ("prim", "string") and rng.random() < 0.8:
        there = [path for tree in policy.trees for path in tree.nodes]
        return rng.choice([*there, *PARTS])
    if ty == ("prim", "u32") and rng.random() < 0.7:
        return rng.randrange(6)
    return anything(rng, ty)


def answered(program, folder, name, calls, answers, most):
    """Answers of the calls of the host, found one after another; nothing where the component is refused."""
    found = []
    while True:
        write_script(folder, SCRIPT, found, calls)
        ran = program.run(folder, name, SCRIPT, POLICY)
        if ran.status in (2, 5, 6):
            return None
        if ran.status not in (0, 10, 11, 12, 13, 14):
            raise Unexpected(f"status {ran.status}: {ran.out[-300:]!r}")
        if ran.status != 11 or len(found) >= most:
            return found
        called = [line for line in ran.lines() if line[0] == "call"]
        _, interface, function, _ = called[-1]
        found.append(answers.of(BY_NAME[interface.split("@")[0], function], 0))


# ---- scripts that are given


def copied(folder, source):
    """The files of a folder, among which a policy's own are."""
    for it in os.listdir(source or "."):
        at, to = os.path.join(source, it), os.path.join(folder, it)
        if os.path.isdir(at):
            shutil.copytree(at, to, dirs_exist_ok=True)
        else:
            shutil.copy(at, to)


def with_script(folder, component, script, policy):
    copied(folder, os.path.dirname(policy))
    for it in (component, script):
        shutil.copy(it, folder)
    case = Case(folder, os.path.basename(policy))
    case.apps.append(App(os.path.basename(component), [os.path.basename(script)], True))
    return case


def rows_of(table):
    """The words of each stored run that has a policy."""
    with open(table, encoding="utf-8") as file:
        rows = [line.split() for line in file]
    return [words[2:] for words in rows if words[2] == "run" and "-p" in words]


def of_row(folder, table, words):
    copied(folder, os.path.dirname(table))
    case = Case(folder, words[words.index("-p") + 1])
    case.apps.append(App(words[1], [words[words.index("-s") + 1]], True))
    return case
