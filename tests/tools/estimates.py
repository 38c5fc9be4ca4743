#!/usr/bin/env python3
"""Compares how long a build takes by build/schedule.py with what was worked out by hand, for small sets of crates.

    estimates.py > WHAT WENT WRONG

The last line says how many things hold. It needs no kit.
"""

import sys
from pathlib import Path
from typing import Dict, List

# Nothing is written beside the sources.
sys.dont_write_bytecode = True
sys.path.insert(0, str(Path(__file__).resolve().parents[2] / "build"))

import graph
import schedule
from checks import check, finish

Spans = Dict[str, List[float]]
# The figures by which the expected times are worked out.
schedule.FIRST, schedule.MOST_USED, schedule.DEARER, schedule.STEP = 10, 2.0, 0.1, 0.8
schedule.KNOWN, schedule.LEAST_PACE, schedule.LEAST_LEFT = 60, 0.5, 0.1


def rules_of(below: graph.Below, seconds: Dict[str, int], most: int) -> schedule.Rules:
    """Return the rules for crates, of which so many run at a time."""
    return schedule.Rules(below, graph.chains(list(below), below, seconds), most)


def takes(what: str, below: graph.Below, seconds: Dict[str, int], processors: int, expected: Spans) -> None:
    """Check when each crate begins and ends."""
    rules = rules_of(below, seconds, processors)
    spans = schedule.simulate(rules, rules.ranked(below), seconds, processors)
    found = {name: [round(span.begin, 3), round(span.end, 3)] for name, span in spans.items()}
    check(found == expected, f"{what}: {found}")


def estimate_of(below: graph.Below, seconds: Dict[str, int], processors: int) -> schedule.Estimate:
    """Return the estimate for a build of these crates."""
    return schedule.Estimate(rules_of(below, seconds, processors), below, seconds, processors)


def is_near(what: str, found: float, expected: float) -> None:
    """Check a number of seconds."""
    check(abs(found - expected) < 0.001, f"{what}: {found}, not {expected}")


def check_simulation() -> None:
    """Check simulated builds."""
    one = {"a": 110}
    takes("one job", {"a": []}, one, 1, {"a": [0, 110]})
    # 10 seconds on one processor; then 100 seconds, by four jobs 30 more, on two.
    takes("four jobs", {"a": []}, one, 4, {"a": [0, 75]})
    takes("a short crate", {"a": []}, {"a": 6}, 4, {"a": [0, 4.95]})
    takes("a product", {"histdesk": []}, {"histdesk": 110}, 4, {"histdesk": [0, 110]})
    takes(
        "the longest first",
        {"a": [], "b": [], "c": []},
        {"a": 10, "b": 30, "c": 20},
        1,
        {"b": [0, 30], "c": [30, 50], "a": [50, 60]},
    )
    chain = {"a": [], "b": ["a"], "c": ["b"]}
    takes("a chain", chain, {"a": 110, "b": 110, "c": 110}, 4, {"a": [0, 75], "b": [75, 150], "c": [150, 225]})
    # From 10 on, each has 110 seconds left and one of two processors.
    takes("two alike", {"a": [], "b": []}, {"a": 110, "b": 110}, 2, {"a": [0, 120], "b": [0, 120]})
    # b gives way by a step: a gets 10/9 processors and b 8/9, so 9.9 of b's 97.9 seconds are left at 109.
    takes("one gives way", {"a": [], "b": []}, {"a": 110, "b": 99}, 2, {"a": [0, 109], "b": [0, 113.95]})
    square = {"a": [], "b": ["a"], "c": ["a"], "d": ["b", "c"]}
    alike = dict.fromkeys(square, 110)
    takes("two between", square, alike, 2, {"a": [0, 65], "b": [65, 185], "c": [65, 185], "d": [185, 250]})


def check_estimates() -> None:
    """Check what is left of builds."""
    is_near("a crate that was not measured", estimate_of({"a": []}, {}, 1).whole, graph.UNMEASURED)
    is_near("nothing", estimate_of({}, {}, 1).whole, 0)
    single = estimate_of({"a": []}, {"a": 140}, 1)
    is_near("at the start", single.left({}, {}), 140)
    is_near("just begun", single.left({}, {"a": 0}), 140)
    is_near("half of a crate", single.left({}, {"a": 70}), 70)
    # By what it has taken, the build takes (60 + 340) / (60 + 140) times as long; a tenth of the crate is left.
    is_near("a crate that is late", single.left({}, {"a": 340}), 28)
    is_near("nothing left", single.left({"a": 100}, {}), 0)
    pair = estimate_of({"a": [], "b": ["a"]}, {"a": 110, "b": 110}, 2)
    is_near("a pair", pair.whole, 130)
    is_near("as expected", pair.left({"a": 65}, {}), 65)
    # (60 + 190) / (60 + 65) is 2.
    is_near("a busy machine", pair.left({"a": 190}, {}), 130)
    # What is left takes 55 seconds more of one job: 10 of them on one processor, then 45 and a tenth more on two.
    is_near("a busy machine, half of the rest", pair.left({"a": 190}, {"b": 65}), 2 * 34.75)
    is_near("a fast machine", pair.left({"a": 0}, {}), 32.5)
    # b, of 113.95 seconds, gives way by a step: (60 + 0.8 * 302.9) / (60 + 0.8 * 113.95) is 2.
    is_near("a crate that gives way", estimate_of({"a": [], "b": []}, {"a": 110, "b": 99}, 2).pace({"b": 302.9}), 2)
    words = {0: "less than a minute", 29: "less than a minute", 31: "about 1 minute", 89: "about 1 minute"}
    for seconds, text in {**words, 91: "about 2 minutes", 1140: "about 19 minutes"}.items():
        check(schedule.in_minutes(seconds) == text, f"{seconds} seconds: {schedule.in_minutes(seconds)}")


def check_crates() -> None:
    """Check simulated builds of the repository's crates: they keep the rules, and their time has the bounds of any build."""
    below, seconds = graph.read_crates(), graph.proof_seconds()
    whole = sum(seconds.get(name, graph.UNMEASURED) for name in below)
    for processors in range(1, 9):
        estimate = estimate_of(below, seconds, processors)
        spans = schedule.simulate(estimate.rules, estimate.names, estimate.seconds, processors)
        check(spans.keys() == below.keys(), f"{processors}: not all are proved")
        early = [name for name in below for dep in below[name] if dep in spans and spans[name].begin < spans[dep].end]
        check(not early, f"{processors}: these don't wait: {early}")
        most = max(sum(it.begin <= span.begin < it.end for it in spans.values()) for span in spans.values())
        check(most <= processors, f"{processors}: {most} at a time")
        is_bounded = whole / processors <= estimate.whole + 0.001 and estimate.whole <= whole * (1 + 0.1 * (processors - 1))
        check(is_bounded, f"{processors}: {estimate.whole} seconds")


check_simulation()
check_estimates()
check_crates()
finish()
