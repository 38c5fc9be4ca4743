"""The load under which a machine is recorded."""

import os
import random
import signal
import subprocess
import sys
import time
from contextlib import ExitStack, contextmanager
from typing import Dict, Iterator, List, NamedTuple, Optional

from kinds import NotRecorded, put
from parts import PARTS

PROGRAM = os.path.join(os.path.dirname(os.path.realpath(__file__)), "parts.py")
CGROUPS = "/sys/fs/cgroup"
# A group may run so many microseconds of each period.
QUOTA, PERIOD = 30_000, 100_000


class Load(NamedTuple):
    """Parts of a load (parts.py), and those under a quota."""

    free: List[str]
    limited: List[str]


LOADS: Dict[str, Load] = {
    "quiet": Load(["rest", "rest"], []),
    "loaded": Load([*["nap"] * 5, "spin", "spin", "answer", "start", "lock"], []),
    "quota": Load(["rest", "rest"], ["spin", "spin", "nap", "nap"]),
}


def random_load(draw: random.Random) -> Load:
    """Return a load of any parts; one of four has a group under a quota."""
    names = sorted(PARTS)
    limited = draw.choices(names, k=draw.randint(1, 5)) if draw.random() < 0.25 else []
    return Load(draw.choices(names, k=draw.randint(0, 10)), limited)


@contextmanager
def running(load: Load, seconds: float) -> Iterator[None]:
    """Run the parts of a load, for so long at most."""
    with ExitStack() as stack:
        group = stack.enter_context(limited_group()) if load.limited else None
        for name in load.free:
            stack.enter_context(running_part(name, seconds, None))
        for name in load.limited:
            stack.enter_context(running_part(name, seconds, group))
        yield


@contextmanager
def running_part(name: str, seconds: float, group: Optional[str]) -> Iterator[None]:
    """Run a part in a session of its own, and in a control group."""
    part = subprocess.Popen([sys.executable, PROGRAM, name, str(seconds)], start_new_session=True, stdin=subprocess.DEVNULL)
    try:
        if group is not None:
            put(group, {"cgroup.procs": part.pid})
        yield
    finally:
        # It is not waited for yet, so its number is still that of its session.
        os.killpg(part.pid, signal.SIGKILL)
        part.wait()


@contextmanager
def limited_group() -> Iterator[str]:
    """Make a control group that may use a part of one processor."""
    try:
        group = new_group()
    except OSError as error:
        raise NotRecorded(f"no control group with a quota: {error}") from error
    try:
        yield group
    finally:
        remove_group(group)


def new_group() -> str:
    """Make the group by the second version of control groups, or by the first, and return its folder."""
    name = f"histdesk-judge.{os.getpid()}"
    try:
        with open(f"{CGROUPS}/cgroup.controllers", encoding="ascii") as file:
            has_second = "cpu" in file.read().split()
    except FileNotFoundError:
        has_second = False
    group = os.path.join(CGROUPS, name) if has_second else os.path.join(CGROUPS, "cpu", name)
    if has_second:
        put(CGROUPS, {"cgroup.subtree_control": "+cpu"})
    os.mkdir(group)
    if has_second:
        put(group, {"cpu.max": f"{QUOTA} {PERIOD}"})
    else:
        put(group, {"cpu.cfs_period_us": PERIOD, "cpu.cfs_quota_us": QUOTA})
    return group


def remove_group(group: str) -> None:
    """Remove a group whose processes have been ended, which takes them a moment."""
    for _ in range(100):
        try:
            os.rmdir(group)
            return
        except OSError:
            time.sleep(0.05)
