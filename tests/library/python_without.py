#!/usr/bin/env python3
"""Compares a stream of waits that leaves events out with a plain reckoning (plain_waits.py) that has a plain reading of filters
(model_filter.py): which waits there are, how sure they are, and how many events were left out.

    python_without.py [TEST]...

The recordings and the filters come by chance, and the text is cut anywhere."""

import ctypes
import os
import random
import sys
import unittest

# Nothing is written beside the sources.
sys.dont_write_bytecode = True

HERE = os.path.dirname(os.path.realpath(__file__))
sys.path[:0] = [os.path.join(HERE, "..", "..", "python"), os.path.join(HERE, "..", "model")]

import model_filter
import model_line
import plain_waits
import random_texts
import recordings
from histdesk.native import layout
from histdesk.native.library import library
from model_trigger import field_of
from python_runner import main
from recordings import Place, Wait

ROOM = 64
WAIT = layout.WAIT
KINDS = {1: "woken", 2: "new", 3: "preempted"}
BAD_FILTER = 9


class Stream:
    """A stream of waits of the library, with a desk of its own."""

    def __init__(self):
        self.desk, self.waits = layout.Handle(), []
        assert library.histdesk_new(self.desk) == 0 and library.histdesk_waits_new(self.desk, False) == 0

    def __enter__(self):
        return self

    def __exit__(self, *_):
        library.histdesk_free(self.desk)

    def leave_out(self, event, text):
        """Leave out the events of a name that pass a filter; return the number of the filter's fault, or None."""
        code = library.histdesk_waits_without(self.desk, random_texts.EVENTS.index(event), text.encode("latin-1"), len(text))
        refusal = layout.Refusal()
        library.histdesk_waits_refused(self.desk, refusal)
        assert code == refusal.number and code in (0, BAD_FILTER)
        return refusal.filter_fault if code else None

    def take(self):
        """Copy the waits that were told."""
        room = ctypes.create_string_buffer(ROOM * WAIT.size)
        while count := library.histdesk_waits_copy(self.desk, len(self.waits) - self.taken, room, ROOM):
            self.waits += [room.raw[at * WAIT.size : (at + 1) * WAIT.size] for at in range(count)]
        self.taken = len(self.waits)

    def read(self, text, chance):
        """Read a text in pieces of random sizes; return the waits, and how many events each filter counted and left out."""
        count, at, self.taken = ctypes.c_uint64(), 0, 0
        while at < len(text):
            piece = text[at : at + chance.choice([1, 7, 100, 4097, 20000])]
            assert library.histdesk_waits_feed(self.desk, piece, len(piece), count) == 0
            self.take()
            at += len(piece)
        assert library.histdesk_waits_finish(self.desk, layout.WaitsRead(), count) == 0
        self.take()
        room = (layout.LeftOut * ROOM)()
        filters = library.histdesk_waits_left_out(self.desk, 0, room, ROOM)
        return self.told(), [(counts.events, counts.left_out) for counts in room[:filters]]

    def told(self):
        """The waits as the tests have them, with how sure they are."""
        room = ctypes.create_string_buffer(b"".join(self.waits), len(self.waits) * WAIT.size)
        assert library.histdesk_waits_doubt(self.desk, room, len(self.waits)) == 0
        found = []
        for at in range(len(self.waits)):
            values = WAIT.unpack_from(room, at * WAIT.size)
            pid, prio, cause, doubt, _, _, name, length = values[6:]
            ends = [Place(*values[3 * end : 3 * end + 3]) for end in range(2)]
            found.append(Wait(KINDS[cause], pid, name[:length].decode(), prio, ends[1], ends[0], doubt != 0))
        return found


def recording(chance):
    """A trace by chance, in the order of time: few tasks, and many events in one microsecond."""
    lines, at = [], 1000
    for _ in range(chance.randrange(1, 200)):
        at += chance.choice([0, 0, 0, 1, 5, 100])
        cpu, pid = chance.randrange(3), chance.randrange(1, 8)
        name = chance.choice(random_texts.COMMS)
        event = chance.choice([*random_texts.EVENTS, "sched_switch", "sched_switch", "console", "lost"])
        if event == "lost":
            lines.append(chance.choice([f"CPU:{cpu} [LOST {pid} EVENTS]", "# comment", ""]) if chance.random() < 0.2 else "")
        elif event == "console":
            lines.append(recordings.line("a-1", cpu, at, "console: x"))
        elif event == "sched_switch":
            state = chance.choice(["R", "R+", "S", "D"])
            lines.append(
                recordings.switch(cpu, at, f"p-{chance.randrange(8)}", f"{name}-{pid - 1}", state=state, prio=20 * pid)
            )
        else:
            lines.append(recordings.waking(cpu, at, pid, name=name, target=pid, event=event))
    return recordings.text_of(lines)


def event_of(line):
    """The event of a trace's line, or None."""
    return model_line.read_line(line)


def passing(event, text):
    """Whether a line's event has the name and passes the filter; raises `FilterFault`."""
    tree = model_filter.read_filter(text, model_line.fields_of(event)) if text else None

    def passes(line):
        found = event_of(line)
        if found is None or found["name"] != event:
            return False
        return tree is None or model_filter.passes(tree, lambda field: field_of(found, field))

    return passes


class Without(unittest.TestCase):
    """Waits of a recording without some of its events."""

    def hold(self, seed):
        """Check one recording under some filters."""
        chance = random.Random(seed)
        text, filters = recording(chance), []
        with Stream() as stream:
            for _ in range(chance.choice([0, 1, 1, 2, 3])):
                event = chance.choice(random_texts.EVENTS)
                asked = chance.choice(["", *5 * [None]])
                asked = random_texts.condition(chance, event) if asked is None else asked
                try:
                    passes, fault = passing(event, asked), None
                except model_filter.FilterFault as raised:
                    fault = raised.args[0]
                self.assertEqual(stream.leave_out(event, asked), fault, (seed, event, asked))
                if fault is None:
                    filters.append((event, passes))
            waits, counts = stream.read(text, chance)
        lines = plain_waits.lines_of(text)
        wanted = plain_waits.waits_of(text, lambda line: any(passes(line) for _, passes in filters))
        self.assertEqual(waits, wanted, seed)
        named = [sum(1 for found in map(event_of, lines) if found and found["name"] == event) for event, _ in filters]
        self.assertEqual(counts, [(all_, sum(map(passes, lines))) for all_, (_, passes) in zip(named, filters)], seed)
        return len(wanted), sum(wait.doubtful for wait in wanted), sum(count for _, count in counts)

    def test_by_chance(self):
        told = [self.hold(seed) for seed in range(400)]
        # The recordings have waits, of which some are sure and some aren't, and the filters leave events out.
        self.assertGreater(sum(waits > 5 for waits, _, _ in told), 100)
        self.assertGreater(sum(0 < doubtful < waits for waits, doubtful, _ in told), 100)
        self.assertGreater(sum(out > 0 for _, _, out in told), 100)

    def test_of_a_simulated_scheduler(self):
        """Without the wakings of one task, its waits that a waking began are gone, and no other task's waits are."""
        known = recordings.simulated(1)
        pid = next(wait.pid for wait in known.waits if wait.kind == "woken")
        with Stream() as stream:
            self.assertIsNone(stream.leave_out("sched_waking", f"pid == {pid}"))
            waits, _ = stream.read(known.text, random.Random(1))
        self.assertFalse([wait for wait in waits if wait.pid == pid and wait.kind == "woken"])
        others = [wait for wait in known.waits if wait.pid != pid]
        self.assertEqual([wait for wait in waits if wait.pid != pid], others)


if __name__ == "__main__":
    sys.exit(main())
