#!/usr/bin/env python3
"""Loads a machine for a while, for judge.py.

    parts.py NAME SECONDS

NAME is one of the functions in PARTS, each a process or a few that use processors in a way of their own.
"""

import contextlib
import os
import random
import subprocess
import sys
import threading
import time

END = 0.0


def is_time() -> bool:
    return time.monotonic() < END


def turn(count: int) -> None:
    for _ in range(count):
        pass


def spin() -> None:
    while is_time():
        turn(20000)


def nap() -> None:
    while is_time():
        turn(20000)
        time.sleep(0.003)


def rest() -> None:
    while is_time():
        turn(2000)
        time.sleep(0.02)


def nice() -> None:
    os.nice(10)
    spin()


def give_way() -> None:
    while is_time():
        turn(5000)
        os.sched_yield()


def answer() -> None:
    """Two processes that wake each other."""
    (there, to_there), (back, to_back) = os.pipe(), os.pipe()
    if os.fork() == 0:
        os.close(to_there)
        while os.read(there, 1):
            os.write(to_back, b"x")
        os._exit(0)
    while is_time():
        os.write(to_there, b"x")
        os.read(back, 1)
        time.sleep(0.0005)


def start() -> None:
    """Short processes; some start a program in a thread that isn't their first, which changes its number."""
    while is_time():
        subprocess.run(["/bin/true"], check=True)
        time.sleep(0.02)
        if os.fork() == 0:
            threading.Thread(target=os.execv, args=("/bin/true", ["true"])).start()
            time.sleep(1)
            os._exit(0)
        os.wait()


def lock() -> None:
    """Threads that block each other."""
    held = threading.Lock()

    def work() -> None:
        while is_time():
            with held:
                time.sleep(0.0002)
            time.sleep(0.0003)

    for _ in range(3):
        threading.Thread(target=work).start()


def crowd() -> None:
    """Many processes that begin at once."""
    while is_time():
        for _ in range(12):
            if os.fork() == 0:
                turn(20000)
                os._exit(0)
        for _ in range(12):
            os.wait()
        time.sleep(0.05)


def move() -> None:
    """A process that goes from CPU to CPU."""
    cpus = sorted(os.sched_getaffinity(0))
    while is_time():
        os.sched_setaffinity(0, {random.choice(cpus)})
        turn(30000)
        time.sleep(random.choice((0, 0, 0.001)))


def meet() -> None:
    """Processes that share one CPU."""
    cpus = sorted(os.sched_getaffinity(0))
    os.sched_setaffinity(0, {random.choice(cpus)})
    for _ in range(2):
        if os.fork() == 0:
            break
    nap()


def real_time() -> None:
    """A process of a fixed priority, if its control group may have one."""
    with contextlib.suppress(PermissionError):
        os.sched_setscheduler(0, os.SCHED_FIFO, os.sched_param(5))
    while is_time():
        turn(20000)
        time.sleep(0.004)


PARTS = {part.__name__: part for part in (spin, nap, rest, nice, give_way, answer, start, lock, crowd, move, meet, real_time)}

if __name__ == "__main__":
    END = time.monotonic() + float(sys.argv[2])
    PARTS[sys.argv[1]]()
