#!/usr/bin/env python3
"""Times questions to many recordings in one process, in two and in four: waits by name, and the rows of a trigger.

    many.py [RECORDINGS [EVENTS]]

make_trace.py makes so many recordings (32) of so many events each (100,000), each with another seed. Needs numpy. The
library is what HISTDESK_LIBRARY names or the checkout's. Each way is tried in turn, three times or as often as TIMES says, and
the least time counts; every answer is the same.
"""

import os
import subprocess
import sys
import tempfile
import time
import warnings

HERE = os.path.dirname(os.path.realpath(__file__))
sys.path.insert(0, os.path.join(HERE, "..", "python"))

import histdesk

TIMES = int(os.environ.get("TIMES", "3"))
WAYS = (0, 1, 2, 4)


def made(folder, recordings, events):
    """Make recordings by as many processes as there are processors, and return their paths."""
    paths = [os.path.join(folder, f"{at:04}.trace") for at in range(recordings)]
    waiting, running = list(enumerate(paths)), []
    while waiting or running:
        while waiting and len(running) < len(os.sched_getaffinity(0)):
            seed, path = waiting.pop()
            with open(path, "wb") as file:
                words = [sys.executable, os.path.join(HERE, "make_trace.py"), str(events), "--seed", str(seed)]
                running.append(subprocess.Popen(words, stdout=file))
        if running.pop(0).wait():
            sys.exit("many.py: make_trace.py failed")
    return paths


def timed(paths, question, processes):
    """Return the answer, and the seconds that it took."""
    begun = time.perf_counter()
    answer = histdesk.many(paths, question, processes=processes, progress=False).answer
    return answer, time.perf_counter() - begun


def main():
    recordings, events = (int(word) for word in [*sys.argv[1:], *["32", "100000"][len(sys.argv) - 1 :]])
    # make_trace.py writes lost-events lines.
    warnings.simplefilter("ignore", histdesk.LossWarning)
    questions = {"waits by name": histdesk.AskWaits("name"), "rows": histdesk.AskRows("sched_waking", "hist:keys=comm,prio")}
    with tempfile.TemporaryDirectory() as folder:
        paths = made(folder, recordings, events)
        least, answers = {}, {}
        for _ in range(TIMES):
            for name, question in questions.items():
                for ways in WAYS:
                    answer, took = timed(paths, question, ways)
                    least[name, ways] = min(least.get((name, ways), took), took)
                    assert answers.setdefault(name, answer) == answer
    print(f"{recordings} recordings of {events} events, the least of {TIMES} runs in turn, s")
    for name in questions:
        told = [f"{ways or 'in this process'}: {least[name, ways]:.2f}" for ways in WAYS]
        print(f"{name}: {', '.join(told)}; {least[name, 0] / least[name, WAYS[-1]]:.1f} times as fast by {WAYS[-1]}")


if __name__ == "__main__":
    main()
