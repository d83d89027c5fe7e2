#!/usr/bin/env python3
"""Runs every case of the calls against the program `driver_calls`, and says in which the answer is another than it must be.

    trial_cases.py DRIVER               all groups; how often each call was made; the last line is 'N passed, M failed'
    trial_cases.py DRIVER GROUP ..      these groups
    trial_cases.py --write-fixed        writes crates/driver_calls/stdin and stdout, the small list of calls for `rt ci`

As many worker processes as there are cores run the groups.
"""

import multiprocessing
import os
import re
import sys
import time
from collections import Counter, deque, namedtuple

sys.dont_write_bytecode = True

import calls
import card_cases
import fixed_calls
import ladder_cases
import midi_cases
import part_cases
import programs
import rack_cases
import random_cases
import record_cases
import rubbed_cases
import step_cases
import wanted
import watch_cases
import written_part_cases

# The groups: words, and a function that gives the cases, each (words, call, values). A case may have a function besides
# that is asked in place of what must come back: it says what is amiss with an answer, None for nothing.
GROUPS = [*card_cases.CASES, *watch_cases.CASES, *step_cases.CASES, *part_cases.CASES, *written_part_cases.CASES,
          *ladder_cases.CASES, *random_cases.CASES, *rack_cases.CASES, *midi_cases.CASES, *record_cases.CASES,
          *rubbed_cases.CASES]
assert len({words for words, _ in GROUPS}) == len(GROUPS)
# Those that take longest, which are begun first.
LONGEST = [rack_cases.drawn_lists, record_cases.bytes_replaced, record_cases.bytes_of_longest_wide,
           rack_cases.rubbed_racks, record_cases.bytes_of_longest_narrow, rubbed_cases.rubbed, rack_cases.longer_lists,
           random_cases.damaged_records]

FOLDER = os.path.join(programs.ROOT, "target", "differential")
SHOWN = 10                      # how many failing cases of a group are named

# What came of a group: the lines to print, how many cases passed and failed, and how often each call was made.
Result = namedtuple("Result", "lines passed failed made")


def answered(driver, cases):
    """Each case with what came back of it."""
    waiting = deque()

    def sent():
        for case in cases:
            waiting.append(case)
            yield case[1], case[2]

    for given in calls.answers(driver, sent()):
        yield waiting.popleft(), given


def keep(words, name, parts):
    """Keeps a failed call in the file of its group."""
    os.makedirs(FOLDER, exist_ok=True)
    with open(os.path.join(FOLDER, "failed-call-%s.bin" % re.sub(r"\W+", "-", words)), "wb") as file:
        file.write(calls.encode(name, *parts))


def run_group(driver, words, cases, enough=None):
    """What came of a group; the first failing cases are named, and the call of the first is kept."""
    lines, passed, failed, made, begun = [], 0, 0, Counter(), time.monotonic()
    for (case, name, parts, *judgement), given in answered(driver, cases()):
        made[name] += 1
        wrong = judgement[0](given) if judgement else wanted.difference(name, parts, given)
        if wrong is None:
            passed += 1
            continue
        failed += 1
        if failed == 1:
            keep(words, name, parts)
        if failed <= SHOWN:
            lines.append("  %s: %s: %s" % (case, name, wrong))
        if enough and failed >= enough:
            break
    lines.append("%s: %d calls, %d failed, %.1f s" % (words, passed + failed, failed, time.monotonic() - begun))
    return Result(lines, passed, failed, made)


def results(driver, groups, enough=None):
    """What came of each group, in their order, with its lines printed. Where all are run, those that take longest are
    begun first."""
    sys.stdout.flush()              # or else each worker has what waits there, too
    begun = groups if enough else sorted(groups, key=lambda group: (LONGEST + [group[1]]).index(group[1]))
    with multiprocessing.get_context("fork").Pool(os.cpu_count()) as pool:
        coming = {words: pool.apply_async(run_group, (driver, words, cases, enough)) for words, cases in begun}
        for words, _ in groups:
            result = coming[words].get()
            print("\n".join(result.lines), flush=True)
            yield result


def run(driver, groups=None, enough=None):
    """Runs the groups, until so many cases failed if that is said; how many cases passed and failed, and how often each
    call was made."""
    passed, failed, made = 0, 0, Counter()
    for result in results(driver, groups or GROUPS, enough):
        passed, failed, made = passed + result.passed, failed + result.failed, made + result.made
        if enough and failed >= enough:
            break
    return passed, failed, made


def not_made(made):
    """The names of the calls that no case makes."""
    return [name for name in calls.CALLS if not made[name]]


def main(arguments):
    if not arguments:
        sys.exit(__doc__)
    if arguments == ["--write-fixed"]:
        # Case L comes first.
        print("%d calls" % fixed_calls.write(sorted(GROUPS, key=lambda group: group[1] != watch_cases.short_streams)))
        return
    groups = [group for group in GROUPS if group[0] in arguments[1:]] if arguments[1:] else GROUPS
    passed, failed, made = run(arguments[0], groups)
    for name, call in calls.CALLS.items():
        if made[name]:
            print("call %d, %s: %d" % (call.number, name, made[name]))
    missing = not_made(made) if groups is GROUPS else []
    if missing:
        print("no case makes the call: " + ", ".join(missing))
    print("%d passed, %d failed" % (passed, failed + len(missing)))
    sys.exit(1 if failed or missing else 0)


if __name__ == "__main__":
    main(sys.argv[1:])
