"""Texts that a trace should not be, and a few that it may barely be: by hand, and by the model's draws of hostile lines."""

from __future__ import annotations

import gzip
import random

import hostile_texts
import recordings

# How many bytes a line may have; a longer one has a fault.
LONGEST = 4096


def lines_of(seed: int, steps: int = 200) -> list[bytes]:
    """Return the lines of a simulated recording, without line breaks and comments."""
    return [line for line in recordings.simulated(seed, steps).text.split(b"\n") if line and not line.startswith(b"#")]


def text(lines: list[bytes]) -> bytes:
    """Return lines as a text, each with its line break."""
    return b"".join(line + b"\n" for line in lines)


def between(lines: list[bytes], others: list[bytes], seed: int) -> bytes:
    """Return lines as a text, with other lines put between them by chance."""
    draw, mixed = random.Random(seed), list(lines)
    for other in others:
        mixed.insert(draw.randrange(len(mixed) + 1), other)
    return text(mixed)


def hostile_lines(seed: int, count: int) -> list[bytes]:
    """Return lines that are near good ones."""
    lines: list[str] = hostile_texts.hostile_lines(random.Random(seed), count)  # type: ignore[no-untyped-call]
    return [line.encode("latin-1") for line in lines]


def shuffled(seed: int, window: int) -> bytes:
    """Return a recording whose lines stand up to so many lines from where their stamps belong."""
    draw, lines = random.Random(seed), lines_of(seed)
    keys = [at + draw.randrange(window) for at in range(len(lines))]
    return text([line for _, line in sorted(zip(keys, lines), key=lambda pair: pair[0])])


def long_lines() -> bytes:
    """Return a recording with comments, names of events and bad lines around the most bytes that a line may have."""
    lines = lines_of(21, 60)
    event = b" a-1 [000] d.h.. 1.000001: x: "
    for at, size in enumerate((LONGEST - 1, LONGEST, LONGEST + 1, 100_000)):
        lines.insert(7 * at, b"#" * size)
        lines.insert(7 * at + 2, event.ljust(size, b"y"))
    return text(lines)


def marks() -> dict[str, bytes]:
    """Return recordings with marks of lost events at odd places."""
    lines = lines_of(22, 120)
    lost, started, kept = b"CPU:1 [LOST 9 EVENTS]", b"##### CPU 2 buffer started ####", b"# CPU 1: 0 events overwritten"
    middle = len(lines) // 2
    bad = [b" CPU:1 [LOST 9 EVENTS]", b"CPU:1 [LOST  EVENTS]", b"CPU:x [LOST 1 EVENTS]", b"#### CPU 2 buffer started ####"]
    return {
        "marks_first": text([lost, started, *lines]),
        "marks_last": text([*lines, lost, started]),
        "marks_twice": text([*lines[:middle], lost, lost, started, started, *lines[middle:]]),
        "marks_without_number": text([*lines[:middle], b"CPU:1 [LOST EVENTS]", *lines[middle:]]),
        "marks_of_other_cpus": text([b"##### CPU 77 buffer started ####", *lines[:9], b"CPU:8191 [LOST 1 EVENTS]", *lines[9:]]),
        "marks_alone": text([lost, started]),
        "marks_in_a_row": text([*lines[:middle], *[b"CPU:%d [LOST 3 EVENTS]" % cpu for cpu in range(5)], *lines[middle:]]),
        "marks_that_deny": text([kept, *lines[:middle], lost, *lines[middle:]]),
        "marks_of_bad_form": between(lines, bad, 22),
        "counts_less_than_written": recordings.text_of([line.decode() for line in lines], lost=1234),
    }


def of_other_formats() -> dict[str, bytes]:
    """Return what other tools and other settings of the kernel print, and what is no text."""
    lines = lines_of(23, 80)
    garbage = random.Random(23).randbytes(3000)
    return {
        "utf_16": text(lines[:20]).decode("latin-1").encode("utf-16"),
        "garbage": garbage,
        "byte_order_mark": b"\xef\xbb\xbf" + text(lines[:20]),
        "nine_digits": text([line.replace(b": sched", b"000: sched", 1) for line in lines]),
        "latency_format": b"# latency: 0 us\n" + text([b"  <idle>-0       0d.h2    1us : " + line for line in lines[:9]]),
        "function_graph": b"# CPU  DURATION                  FUNCTION CALLS\n 0)   1.234 us    |  schedule();\n",
        "perf_magic": b"PERFILE2 and no more",
        "gzip_magic": b"\x1f\x8b and no more",
    }


def packed() -> dict[str, bytes]:
    """Return what gzip made, and what remains if a part of it is missing or something follows."""
    whole = gzip.compress(recordings.simulated(24, holes=2).text, mtime=0)
    return {
        "packed_twice": gzip.compress(whole, mtime=0),
        "packed_cut": whole[: len(whole) // 2],
        "packed_and_more": whole + b"more",
        "packed_members": whole[:0] + gzip.compress(text(lines_of(24)[:30]), mtime=0) + gzip.compress(b"", mtime=0),
    }


def with_bad_lines() -> dict[str, bytes]:
    """Return recordings with lines that can't be read."""
    lines, bad = lines_of(25), b"this is no line of a trace"
    middle = len(lines) // 2
    return {
        "bad_first": text([bad, *lines]),
        "bad_middle": text([*lines[:middle], bad, *lines[middle:]]),
        "bad_last": text([*lines, bad]),
        "bad_last_without_break": text(lines) + bad,
        **{f"hostile_{seed}": text(hostile_lines(seed, 120)) for seed in (31, 32, 33)},
        **{f"mixed_{seed}": between(lines_of(seed, 300), hostile_lines(seed, 25), seed) for seed in (34, 35)},
    }


def at_limits() -> bytes:
    """Return a recording with the greatest numbers that a line may have."""
    task, pid = "x" * 31, 2**31 - 1
    heads = [f" {task}-{pid} [8191] d.h.. 4294967295.{micros:06}: " for micros in (1, 2, 999_998, 999_999)]
    woken = f"comm={task} pid={pid} prio={-(2**31)} target_cpu={2**31 - 1}"
    switch = f"prev_comm={task} prev_pid=7 prev_prio={2**31 - 1} prev_state={'R' * 31} ==> "
    switch += f"next_comm={task} next_pid={pid} next_prio=-1"
    said = [f"sched_waking: {woken}", f"sched_switch: {switch}", f"sched_wakeup_new: {woken}", f"sched_switch: {switch}"]
    return text([(head + rest).encode() for head, rest in zip(heads, said)])


def hostile() -> dict[str, bytes]:
    """Return all of them by name."""
    lines = lines_of(20)
    stamped = [b" a-1 [00%d] d.h.. 1.000000: x: y" % (at % 3) for at in range(9)]
    return {
        "empty": b"",
        "blank_lines": b"\n\n \t\n   \n",
        "header_only": recordings.text_of([]),
        "no_header": text(lines),
        "no_last_break": text(lines)[:-1],
        "one_event": text(lines[:1]),
        "one_stamp": text(stamped),
        "others_only": text([line.replace(b"sched_", b"other_") for line in lines]),
        "carriage_returns": b"".join(line + b"\r\n" for line in [b"# tracer: nop", *lines[:40]]),
        "nul_bytes": between(lines, [b"\0", b"a\0b-1 [000] d.h.. 1.000001: x: \0", b"\0" * 50], 20),
        "nul_names": text(lines).replace(b"task 1", b"ta\0sk"),
        "long_lines": long_lines(),
        "at_limits": at_limits(),
        "out_of_order": shuffled(26, 12),
        "backwards": text(lines[::-1]),
        **marks(),
        **with_bad_lines(),
        **packed(),
        **of_other_formats(),
    }
