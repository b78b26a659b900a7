#!/usr/bin/env python3
"""Shows that what `virt` writes behaves as `run -p` says, by applications that it makes and applications that it is given.

usage: tools/compare_outputs.py [--program PATH] [--cases N] [--seed TEXT] [--jobs N] .. (--help has all)

For each application and policy the program is called as `virt APP -p POLICY -o OUT`, `run OUT -s SCRIPT` and `run APP -s SCRIPT -p POLICY`;
the two runs must put the same lines and end with the same status. A made case begins with an application that passes each listed
function on: calls are chosen one after another by what the policy answered before, with the host's answers at random. Applications in core
code are then made of the same calls. Each case is made from the seed, the name of its kind of policy and its number alone, so
`--only KIND/NUMBER` makes one of them again. Ends with 1 if a run came out otherwise.
"""

import argparse
import concurrent.futures
import os
import random
import shutil
import sys
import tempfile
import time
import traceback
from collections import Counter

from compare import given
from compare.cases import Case, made_application, passing_application
from compare.comparing import Comparer, Report
from compare.coverage import print_coverage
from compare.edges import EDGES, Director
from compare.explore import Explorer
from compare.listed import FUNCTIONS, KINDS
from compare.plan import Planner, key_of
from compare.policies import PROFILES
from compare.running import Program, Unexpected

ROOT = os.path.dirname(os.path.dirname(os.path.abspath(__file__)))


def options():
    parser = argparse.ArgumentParser(description=__doc__, formatter_class=argparse.RawDescriptionHelpFormatter)
    parser.add_argument("--program", default=os.path.join(ROOT, "wasi-virt"), help="the built program; the repository's launcher without it")
    parser.add_argument("--cases", type=int, default=40, help="how many cases are made")
    parser.add_argument("--calls", type=int, default=60, help="how many calls a made case has")
    parser.add_argument("--made", type=int, default=1, help="how many applications in core code are made of a case's calls")
    parser.add_argument("--only-made", action="store_true", help="the application that passes calls on is only explored with, not wrapped")
    parser.add_argument("--profiles", default=",".join(PROFILES), help="kinds of policies, by turns")
    parser.add_argument("--edges", action="store_true", help="also the cases at the edges: weights, full tables, links, blocks, addresses")
    parser.add_argument("--only", help="one case: KIND/NUMBER")
    parser.add_argument("--given", help="a folder of components, each of which is run under made policies")
    parser.add_argument("--scripts", action="append", default=[], help="COMPONENT:SCRIPT:POLICY, files of a program and its run; may be repeated")
    parser.add_argument("--rows", action="append", default=[], help="a table of stored runs, as in crates/engine_rows/data: those with a policy; may be repeated")
    parser.add_argument("--seed", default="1")
    parser.add_argument("--jobs", type=int, default=2)
    parser.add_argument("--validate", help="the path of a script that validates a component: each output, and the adapter in it, is put to it")
    parser.add_argument("--reference-only", action="store_true", help="only `run -p`: no output is made")
    parser.add_argument("--minutes", type=float, help="after so long no further case is begun")
    parser.add_argument("--keep", help="a folder in which the files of all cases stay; without it those of cases that differ stay")
    return parser.parse_args()


def chosen_functions(rng, profile):
    """All functions, or those of some interfaces."""
    if profile == "edges" or rng.random() < 0.35:
        return list(FUNCTIONS.values())
    some = set(rng.sample(sorted({it.interface for it in FUNCTIONS.values()}), rng.randrange(3, 16)))
    if profile in ("scratch", "virtual") or rng.random() < 0.6:
        some |= {"wasi:filesystem/types", "wasi:filesystem/preopens", "wasi:io/streams", "wasi:io/poll"}
    return [it for it in FUNCTIONS.values() if it.interface in some and rng.random() < 0.95]


def made_case(program, folder, profile, number, args, report):
    """Explores under a policy, and makes the applications. The number of a case at the edges is its name."""
    rng = random.Random(f"{args.seed}/{profile}/{number}")
    policy = EDGES[number][0](rng) if profile == "edges" else PROFILES[profile](rng)
    policy.write(folder)
    functions = chosen_functions(rng, profile)
    planner = Planner(rng, policy, functions, KINDS, Counter())

    def saw(step, outcome):
        key, contents = key_of(step.function, handles_of(step)) if step.function else (f"drop-{step.args[0].kind}", step.args[0].content)
        report.seen[key, contents, outcome] += 1

    explorer = Explorer(program, folder, planner, functions, KINDS, saw)
    if profile == "edges":
        EDGES[number][1](Director(explorer))
        history = explorer.history
    else:
        history = explorer.explore(args.calls, rng.choice([4, 8, 12]), 3)
    report.counts["calls"] += len(history.steps)
    case = Case(folder)
    passing_application(case, history, rng)
    if args.only_made:
        case.apps.clear()
    for i in range(args.made):
        made_application(case, history, rng, i)
    return case


def handles_of(step):
    found = step.args[0] if step.function.key == "poll" else step.args
    return [it for it in found if hasattr(it, "content")]


class Work:
    """Cases by turns, each in a folder of its own."""

    def __init__(self, args):
        self.args, self.program = args, Program(args.program)
        self.comparer = Comparer(self.program, args.reference_only, args.validate)
        self.late = time.monotonic() + 60 * args.minutes if args.minutes else None
        self.room = args.keep or tempfile.mkdtemp(prefix="compare-outputs-")
        os.makedirs(self.room, exist_ok=True)

    def one(self, name, make):
        """Makes a case, and judges it."""
        report, folder = Report(), os.path.join(self.room, name.replace("/", "-"))
        if self.late and time.monotonic() > self.late:
            return name, report
        shutil.rmtree(folder, ignore_errors=True)
        os.makedirs(folder)
        try:
            case = make(folder, report)
            if case is not None:
                self.comparer.case(case, report)
        except Unexpected as fault:
            report.differences.append(f"in {folder}: not made: {fault}")
        except Exception:  # pylint: disable=broad-except
            report.differences.append(f"in {folder}: {traceback.format_exc()}")
        if not report.differences and not self.args.keep:
            shutil.rmtree(folder)
        return name, report

    def jobs(self):
        """The cases' names, each with what makes it."""
        args, profiles = self.args, self.args.profiles.split(",")
        if args.only:
            profile, number = args.only.split("/")
            yield args.only, lambda folder, report: made_case(self.program, folder, profile, number, args, report)
            return
        if args.given or args.scripts or args.rows:
            yield from given.jobs(self.program, args)
            return
        if args.edges:
            for number in EDGES:
                yield f"edges/{number}", lambda folder, report, n=number: made_case(self.program, folder, "edges", n, args, report)
        for i in range(args.cases):
            profile, number = profiles[i % len(profiles)], str(i // len(profiles))
            yield f"{profile}/{number}", lambda folder, report, p=profile, n=number: made_case(self.program, folder, p, n, args, report)


def main():
    args = options()
    work, total = Work(args), Report()
    with concurrent.futures.ThreadPoolExecutor(args.jobs) as pool:
        for future in concurrent.futures.as_completed([pool.submit(work.one, *job) for job in work.jobs()]):
            name, report = future.result()
            for it in report.differences:
                print(f"DIFFERS {name} (seed {args.seed}): {it}", flush=True)
            total.add(report)
    print_coverage(total)
    print(f"{len(total.differences)} differences")
    sys.exit(1 if total.differences else 0)


if __name__ == "__main__":
    main()
