"""The scheduler trace desk: reads the text of the kernel's tracefs `trace` file, attaches hist triggers to its events, and
answers with tables, totals and latencies.

A `Desk` holds events and triggers, and each answer is that of replaying the events now held past the triggers now attached.
How long tasks wait from their waking to the switch that runs them:

>>> import histdesk
>>> desk = histdesk.Desk()
>>> desk.load(b'''
... sim-1 [000] d.h.. 1.000100: sched_waking: comm=w pid=42 prio=120 target_cpu=000
... sim-1 [000] d.... 1.000150: sched_switch: prev_comm=sim prev_pid=1 prev_prio=120 prev_state=S ==> next_comm=w next_pid=42 next_prio=120
... ''')
2
>>> wakings = desk.attach("sched_waking", "hist:keys=pid:ts0=common_timestamp.usecs")
>>> waits = desk.attach("sched_switch", "hist:keys=next_pid:vals=$lat:lat=common_timestamp.usecs-$ts0")
>>> waits.rows()
[Row(next_pid=42, hitcount=1, lat=50)]
>>> waits
histdesk.Trigger 2 on sched_switch: hist:keys=next_pid:vals=hitcount,$lat:lat=common_timestamp.usecs-$ts0:sort=hitcount:size=2048
next_pid  hitcount  lat
      42         1   50
hits 1, entries 1, dropped 0
>>> [int(wait.micros) for wait in waits.latencies()]
[50]

Without the waking there is no wait, and the edit names the rows that may have changed:

>>> desk.strike(0, 1).changed
[Changed(trigger=1, key=(42,)), Changed(trigger=2, key=(42,))]
>>> len(waits.latencies())
0

A call that is refused raises `Refused` with the number that scripts print, and changes nothing:

>>> desk.strike(0, 1)
Traceback (most recent call last):
    ...
histdesk.Refused: there is no event on that line

Stamps and latencies are in microseconds. Texts are `str`; bytes in them that aren't UTF-8 are kept, as `surrogateescape`
keeps them. The package needs numpy, and pandas for DataFrames. The library `libhistdesk.so.0` is looked for where the
environment variable `HISTDESK_LIBRARY` says, then in the folders around the package, then where the loader looks.
"""

from __future__ import annotations

import importlib
from typing import TYPE_CHECKING

from ._version import __version__ as __version__  # noqa: F401

if TYPE_CHECKING:
    from .compare.diff import Difference, DifferenceRow, Figures, Struck, diff
    from .compare.fate import Fate
    from .compare.permutation import ComparisonRow, FigureComparison, Spread
    from .compare.several import Comparison
    from .desk.desk import Desk
    from .desk.events import Events
    from .desk.loaded import Lane, Loaded
    from .desk.recording import Part, Recording, read
    from .desk.rows import Rows
    from .desk.slices import Source
    from .desk.trigger import Trigger
    from .desk.values import Bucket, Changed, Edit, Edits, Event, Latency, Log2, Totals, Wait
    from .explain.chain import Chain, ChainStep
    from .explain.stretches import Runner, Share, Stretch
    from .explain.why import Why, why
    from .export.csv import escaped, unescaped
    from .fleet.many import LeftOutWarning, Many, many
    from .fleet.questions import Asked, AskRows, AskWaits, Failed
    from .native.refusals import Refused, refusal_words
    from .trace.losses import Hole, Losses, LossWarning
    from .trace.places import Place
    from .trace.times import Stamp
    from .waiting.counts import Counts, CountsRow, Greatest
    from .waiting.summary import CpuSummary, NameSummary, Summary, TaskSummary, summary
    from .waiting.waits import Waits, waits

__all__ = [
    "AskRows",
    "AskWaits",
    "Asked",
    "Bucket",
    "Chain",
    "ChainStep",
    "Changed",
    "Comparison",
    "ComparisonRow",
    "Counts",
    "CountsRow",
    "CpuSummary",
    "Desk",
    "Difference",
    "DifferenceRow",
    "Edit",
    "Edits",
    "Event",
    "Events",
    "Failed",
    "Fate",
    "FigureComparison",
    "Figures",
    "Greatest",
    "Hole",
    "Lane",
    "Latency",
    "LeftOutWarning",
    "Loaded",
    "Log2",
    "LossWarning",
    "Losses",
    "Many",
    "NameSummary",
    "Part",
    "Place",
    "Recording",
    "Refused",
    "Rows",
    "Runner",
    "Share",
    "Source",
    "Spread",
    "Stamp",
    "Stretch",
    "Struck",
    "Summary",
    "TaskSummary",
    "Totals",
    "Trigger",
    "Wait",
    "Waits",
    "Why",
    "diff",
    "escaped",
    "many",
    "read",
    "refusal_words",
    "summary",
    "unescaped",
    "waits",
    "why",
]

# The module that defines each public name. A module is loaded when one of its names is first used, so that a tool loads
# only what it needs.
_MODULES = {
    "compare.diff": ("Difference", "DifferenceRow", "Figures", "Struck", "diff"),
    "compare.fate": ("Fate",),
    "compare.permutation": ("ComparisonRow", "FigureComparison", "Spread"),
    "compare.several": ("Comparison",),
    "desk.desk": ("Desk",),
    "desk.events": ("Events",),
    "desk.loaded": ("Lane", "Loaded"),
    "desk.recording": ("Part", "Recording", "read"),
    "desk.rows": ("Rows",),
    "desk.slices": ("Source",),
    "desk.trigger": ("Trigger",),
    "desk.values": ("Bucket", "Changed", "Edit", "Edits", "Event", "Latency", "Log2", "Totals", "Wait"),
    "explain.chain": ("Chain", "ChainStep"),
    "explain.stretches": ("Runner", "Share", "Stretch"),
    "explain.why": ("Why", "why"),
    "export.csv": ("escaped", "unescaped"),
    "fleet.many": ("LeftOutWarning", "Many", "many"),
    "fleet.questions": ("AskRows", "AskWaits", "Asked", "Failed"),
    "native.refusals": ("Refused", "refusal_words"),
    "trace.losses": ("Hole", "LossWarning", "Losses"),
    "trace.places": ("Place",),
    "trace.times": ("Stamp",),
    "waiting.counts": ("Counts", "CountsRow", "Greatest"),
    "waiting.summary": ("CpuSummary", "NameSummary", "Summary", "TaskSummary", "summary"),
    "waiting.waits": ("Waits", "waits"),
}
_MODULE_OF = {name: module for module, names in _MODULES.items() for name in names}


def __getattr__(name: str) -> object:
    """Load the module that defines a public name, and return what the name stands for.

    Raises
    ------
    AttributeError
        If the package has no such name.
    ImportError
        If numpy or the library is missing.
    """
    if name not in _MODULE_OF:
        raise AttributeError(f"module {__name__!r} has no attribute {name!r}")
    try:
        module = importlib.import_module(f".{_MODULE_OF[name]}", __name__)
    except ImportError as error:
        from ._requirements import explained

        raise explained(error) from None
    value: object = getattr(module, name)
    globals()[name] = value
    return value


def __dir__() -> list[str]:
    return sorted({*globals(), *_MODULE_OF})
