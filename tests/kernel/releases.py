"""Which release a kernel is, and what is wanted of a case on it, for compare.py."""

import re


def release_of(version):
    """Return the release that `uname -rv` shows, as three numbers. Debian has it in the version of its package: the name of
    a kernel 6.1 counts something else."""
    found = re.search(r"Debian (\d+)\.(\d+)\.(\d+)", version) or re.match(r"(\d+)\.(\d+)\.(\d+)", version)
    if not found:
        raise ValueError(f"no release in the kernel's version: {version}")
    return tuple(int(number) for number in found.groups())


def is_mended(release, firsts):
    """Return whether a release does what the named first release of each series and all later series do."""
    firsts = [tuple(int(number) for number in first.split(".")) for first in firsts]
    return any(first[:2] == release[:2] and first <= release for first in firsts) or release[:2] > max(firsts)[:2]


def expects_of(case, version):
    """Put into a case what is wanted of it on this kernel. With PREEMPT_RT, a task may inherit the priority of one that
    waits for its lock."""
    case["inherits"] = "PREEMPT_RT" in version
    release = release_of(version)
    if "until" not in case or not is_mended(release, case["until"]):
        return
    case["known"] = case["then"]
    if not case["known"]:
        del case["known"]
