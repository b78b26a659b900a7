"""What a run of the tool has reached."""

from collections import defaultdict

from .listed import FUNCTIONS


def print_coverage(report):
    """Counts, calls by contents and outcomes, and the functions that were never called."""
    by_key = defaultdict(int)
    by_content, by_error = defaultdict(int), defaultdict(int)
    for (key, contents, outcome), count in report.seen.items():
        by_key[key] += count
        for it in contents.split("+"):
            by_content[it] += count
        by_error[outcome] += count
    if by_key:
        print("calls by contents:", ", ".join(f"{it} {by_content[it]}" for it in sorted(by_content)))
        print("calls by outcome:", ", ".join(f"{it} {by_error[it]}" for it in sorted(by_error)))
        print("rows (function and contents):", len({(key, contents) for key, contents, _ in report.seen}), "with outcomes:", len(report.seen))
        missing = [key for key in FUNCTIONS if not by_key[key]]
        print(f"functions called: {len(FUNCTIONS) - len(missing)} of {len(FUNCTIONS)}", f"never: {', '.join(missing)}" if missing else "")
    for what, count in sorted(report.refused.items()):
        print(f"refused {count}: {what}")
    print(", ".join(f"{count} {what}" for what, count in sorted(report.counts.items())))
