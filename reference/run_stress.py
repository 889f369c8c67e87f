"""Runs the stress, hostile calls of every kind through C, and answers a sample of them by the model.

    python3 reference/run_stress.py [SEED [CALLS [EVERY]]]

tools/build-c must have built target/c/PROCESSOR/stress. It looks at guard bytes around all that is lent after each call, and ends
at the first that changed. Of its calls one in EVERY, or 100, is compared here. The first difference is named, and the status is 1.
"""

import sys
from collections import Counter

import messages
from captures import KINDS
from embedding import FUNCTIONS, outcome_text
from once import once
from programs import C, ran
from tracks import kind_of

SEED, CALLS, EVERY = 16, 600_000, 100
MOST_SECONDS = 120  # for so many calls
NUMBERS = {*map(str, (*range(11), *range(12, 17)))}  # those of RULES 3.2; 11 is answered by no C function, a bad block is counted


def kind(call, outcome):
    """The kind of a message that was received and accepted, or None."""
    name, *words = call.split()
    return KINDS[kind_of(messages.decode(bytes.fromhex(words[1])))] if name == "receive" and outcome.startswith("0 ") else None


def is_status(call, outcome):
    """Was a status received, and accepted?"""
    name, *words = call.split()
    return name == "receive" and outcome.startswith("0 ") and messages.decode(bytes.fromhex(words[1])).get("TYPE") == 31


def is_right(line):
    """Is a call answered as the model says? The first that is not is named."""
    call, outcome = line.split(" = ")
    if f"= {outcome}" == outcome_text(call):
        return True
    print(f"{call}\nthe model: {outcome_text(call)}\nC:         = {outcome}")
    return False


def missing(sample):
    """What a sample has not: a function, an answer, a kind, a status."""
    names, answers, kinds, statuses = Counter(), Counter(), set(), 0
    for call, outcome in (line.split(" = ") for line in sample):
        names[call.split()[0]] += 1
        answers[outcome.split()[0]] += call.split()[0] != "table_bytes"
        kinds.add(kind(call, outcome))
        statuses += is_status(call, outcome)
    return {*FUNCTIONS} - {*names} | NUMBERS - {*answers} | {*KINDS.values()} - kinds | ({"status"} if not statuses else set())


def main():
    seed, calls, every = [*map(int, sys.argv[1:]), *(SEED, CALLS, EVERY)[len(sys.argv) - 1 :]]
    done = ran(f"{C}/stress", seed, calls, every, seconds=MOST_SECONDS * max(1, calls // CALLS))
    sample = done.stdout.decode("ascii").splitlines()
    if done.returncode != 0:
        print(f"status {done.returncode} {done.stderr.decode()}\n{sample[-1] if sample else ''}")
        return 1
    # The calls are the same on every target, so that the model answers them once
    right = {line for line, in once(f"stress-{seed}-{calls}-{every}", lambda: ((line,) for line in sample if is_right(line)))}
    if not all(line in right or is_right(line) for line in sample):
        return 1
    lacking = missing(sample)
    if lacking and (seed, calls, every) == (SEED, CALLS, EVERY):
        print(f"the sample has none of {lacking}")
        return 1
    print(done.stderr.decode("ascii").strip())
    print(f"{calls} hostile calls: no guard was touched; of a sample of {len(sample)} each is as the model says")
    return 0


if __name__ == "__main__":
    sys.exit(main())
