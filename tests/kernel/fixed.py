"""The fixed triggers of kernel.sh. Each list is a group: savers stand before their readers.

If the two sides are known to differ, a case says how (`known`) and why (`why`); compare.py then wants exactly that
difference, and lists it. `known` is one of

    kernel refuses   the kernel refuses the trigger, the desk takes it
    desk refuses     the desk refuses it, the kernel takes it
    rows             both take it, and the rows differ
    order            the rows are the same, and stand in another order
    both refuse      neither takes it: no difference

If newer kernels don't have the difference, the case says so (`until`), and what is wanted of those (`then`): one of the
above, or "" for no difference.
"""

JOB, TO, FROM = ' if comm ~ "job*"', ' if next_comm ~ "job*"', ' if prev_comm ~ "job*"'
WAKING, WAKEUP, NEW, SWITCH = "sched_waking", "sched_wakeup", "sched_wakeup_new", "sched_switch"


def of_length(count, keys):
    """Return a trigger with `count` bytes."""
    text = f"hist:keys={keys}{JOB}{' && pid > 0' * 300}"
    return text + " " * (count - len(text) - len("&& pid > 1")) + "&& pid > 1"


ALIKE = [
    [(WAKING, "hist:keys=comm" + JOB)],
    [(WAKING, "hist:keys=pid:vals=prio,target_cpu:sort=prio.descending,pid" + JOB)],
    [(WAKING, "hist:keys=prio.log2:sort=prio" + JOB)],
    # The most that the kernel takes, with a line break after it.
    [(WAKING, of_length(4094, "pid,comm,prio"))],
    [(WAKING, "hist:keys=pid.buckets=32:vals=hitcount,prio:sort=pid.descending" + JOB)],
    [(WAKING, "hist:keys=comm,prio,pid:sort=comm,pid.descending" + JOB)],
    [(WAKING, 'hist:keys=common_pid.hex,common_cpu if comm ~ "job k*" && (pid & 1 || prio != 120)')],
    [(WAKEUP, "hist:key=prio.hex:val=pid,prio:sort=pid.descending" + JOB)],
    [(WAKEUP, 'hist:keys=target_cpu,comm if (pid >= 100 || prio < 100) && !(comm == "job boss") && comm ~ "job*"')],
    [(WAKEUP, "hist:keys=pid.log2,comm:size=500:sort=comm.descending,hitcount" + JOB)],
    [(NEW, "hist:keys=comm:values=pid,prio" + JOB)],
    [(NEW, "hist:keys=pid.log2,prio:sort=hitcount.descending,pid" + JOB)],
    [(SWITCH, "hist:keys=prev_comm,next_comm:sort=hitcount.descending,prev_comm" + FROM + ' || next_comm ~ "job*"')],
    [(SWITCH, "hist:keys=next_prio.buckets=10:vals=next_pid,prev_pid:sort=next_pid.descending" + TO)],
    [(SWITCH, "hist:keys=prev_prio,next_prio,common_cpu:sort=prev_prio,next_prio.descending" + FROM)],
    [(SWITCH, "hist:keys=next_comm:vals=prev_prio if next_comm ~ 'job [!a-m]*' && prev_comm != 'job boss'")],
    # A priority of -1: sums modulo 2^64, rows in signed order.
    [(WAKING, 'hist:keys=prio:vals=prio:sort=hitcount.descending if comm == "dline" || comm ~ "job*"')],
    [(WAKING, 'hist:keys=prio.hex,comm:sort=prio,comm if prio < 0 && comm == "dline" || comm ~ "job*"')],
    # The sum of the stamps that a saver saves.
    [(WAKEUP, "hist:keys=prio.buckets=3:vals=$at,pid:at=common_timestamp.usecs:sort=prio" + JOB)],
    # Latencies: from the waking to the switch, from it to the wakeup, and off the CPU. One event may set two variables.
    [
        (WAKING, "hist:keys=pid:ts=common_timestamp.usecs" + JOB),
        (SWITCH, "hist:keys=next_pid:vals=$lat:lat=common_timestamp.usecs-$ts:sort=$lat.descending" + TO, WAKING),
    ],
    [
        (WAKING, "hist:keys=comm,pid:tw=common_timestamp.usecs" + JOB),
        (WAKEUP, "hist:keys=comm,pid:vals=$late,prio:late=common_timestamp.usecs-$tw:sort=comm,pid" + JOB, WAKING),
    ],
    [
        (SWITCH, "hist:keys=prev_pid:out=common_timestamp.usecs" + FROM),
        (SWITCH, "hist:keys=next_pid:vals=$off,prev_prio:off=common_timestamp.usecs-$out:sort=hitcount,$off" + TO, SWITCH),
    ],
    # Whichever reads first unsets the variable.
    [
        (WAKING, "hist:keys=pid:twice=common_timestamp.usecs" + JOB),
        (SWITCH, "hist:keys=next_pid:vals=$one:one=common_timestamp.usecs-$twice" + TO + " && next_prio < 120", WAKING),
        (SWITCH, "hist:keys=next_pid:vals=$two:two=common_timestamp.usecs-$twice" + TO, WAKING),
    ],
]

# With one CPU: tables that overflow, a plain one, a saver's and a reader's. Many tasks share a key of the last pair, so
# the order of all events matters there.
ON_ONE_CPU = [
    [(WAKING, "hist:keys=pid:size=128:sort=pid" + JOB)],
    [(SWITCH, "hist:keys=prev_pid,next_comm:vals=next_prio:size=65:sort=hitcount.descending" + FROM)],
    [
        (WAKING, "hist:keys=pid:few=common_timestamp.usecs:size=128" + JOB),
        (SWITCH, "hist:keys=next_pid:vals=$got:got=common_timestamp.usecs-$few" + TO, WAKING),
    ],
    [
        (WAKING, "hist:keys=pid,prio:all=common_timestamp.usecs" + JOB),
        (SWITCH, "hist:keys=next_pid,next_prio:vals=$some:some=common_timestamp.usecs-$all:size=128" + TO, WAKING),
    ],
    [
        (SWITCH, "hist:keys=prev_prio:gone=common_timestamp.usecs" + FROM),
        (WAKING, "hist:keys=prio:vals=$away:away=common_timestamp.usecs-$gone:sort=$away" + JOB, SWITCH),
    ],
]

KNOWN = [
    ("kernel refuses", "three values besides hitcount", WAKING, "hist:keys=comm:vals=pid,prio,target_cpu" + JOB),
    ("kernel refuses", "a size in octal has no 8", WAKING, "hist:keys=comm,pid:size=0128" + JOB),
    ("kernel refuses", "an equal trigger is attached", WAKING, "hist:keys=comm" + JOB),
    ("kernel refuses", "a trigger differs from another in its size alone", WAKING, "hist:keys=comm:size=256" + JOB),
    ("kernel refuses", "a text of 256 bytes in a filter", WAKING, f'hist:keys=pid if comm != "{"x" * 256}"'),
    ("kernel refuses", "a trigger of 4,096 bytes with its line break", WAKING, of_length(4095, "pid,comm")),
    ("kernel refuses", "a text for prev_state", SWITCH, 'hist:keys=next_pid if prev_state == "S"'),
    ("desk refuses", "a field is a key twice", WAKING, "hist:keys=pid,pid" + JOB),
    ("desk refuses", "a field is a value twice", WAKING, "hist:keys=comm:vals=prio,prio" + JOB),
    ("desk refuses", "a number in octal", WAKING, "hist:keys=prio" + JOB + " && pid > 0144"),
    ("desk refuses", "a text is a value", WAKING, "hist:keys=pid:vals=comm" + JOB),
    ("desk refuses", "a modifier on a text", WAKING, "hist:keys=comm.log2" + JOB),
    ("desk refuses", "a modifier on a text", WAKING, "hist:keys=comm.buckets=4" + JOB),
    ("desk refuses", "a modifier on a text", WAKING, "hist:keys=comm.hex" + JOB),
    ("desk refuses", "two parts of one kind", WAKING, "hist:keys=pid:vals=prio:vals=target_cpu" + JOB),
    ("desk refuses", "two parts of one kind", WAKING, "hist:keys=pid:keys=prio" + JOB),
    ("rows", "a glob of one star in front asks for the end of 16 bytes", WAKING, 'hist:keys=comm if comm ~ "*b"'),
    ("rows", "a glob with a digit in front is compared as it stands", WAKING, 'hist:keys=comm if comm ~ "7*"'),
    ("rows", "a number is cut to the 32 bits of the field", WAKING, "hist:keys=comm" + JOB + " && pid < 4294967296"),
    ("rows", "the end of the bucket of -1 is modulo 2^64", WAKING, 'hist:keys=prio.buckets=10 if comm == "dline"'),
    ("rows", "prev_state is a number", SWITCH, "hist:keys=prev_state" + FROM),
    ("rows", "the size of buckets in octal", WAKING, "hist:keys=pid.buckets=010,prio" + JOB),
    ("order", "a name that is a key and a value sorts by the value", WAKING, "hist:keys=prio:vals=prio:sort=prio" + JOB),
]

# What newer kernels do as the desk does: the first release of each series that does so, how older ones differ, why, what
# is wanted of newer ones, and the trigger.
LOG2 = 'hist:keys=prio.log2,pid if comm == "dline"'
MENDED = [
    (["6.1.191", "6.12.115"], "rows", "`.log2` of -1 shifts out of bounds", "", WAKING, LOG2),
    (["6.1.191", "6.12.115"], "desk refuses", "a filter ends in &&", "both refuse", WAKING, "hist:keys=pid if pid == 1 &&"),
    (
        ["6.12.0"],
        "rows",
        "a class with `!` takes the byte 0 after the name",
        "",
        WAKING,
        'hist:keys=comm if comm ~ "job kid 1[!x]"',
    ),
]

# The kernel finds no variable of the trigger itself that is made by an expression.
READER = [
    {"event": WAKING, "text": "hist:keys=pid:tv=common_timestamp.usecs" + JOB},
    {"event": SWITCH, "text": "hist:keys=next_pid:vals=$own:own=common_timestamp.usecs-$tv" + TO},
]
READER[1] |= {"known": "kernel refuses", "why": "`vals=$own` of a reader"}

# With several CPUs, since the number of the only one is 0.
KNOWN_ON_MORE = [
    ("rows", "`common_cpu & N` never holds", WAKING, "hist:keys=common_cpu" + JOB + " && common_cpu & 1"),
]

# Refused by both sides.
FAULTS = [
    (WAKING, "hist:keys=nope" + JOB),
    (WAKING, "hist:keys=next_pid" + JOB),
    (WAKING, "hist:vals=pid" + JOB),
    (WAKING, "hist:keys=pid,prio,comm,target_cpu" + JOB),
    (WAKING, "hist:keys=pid:sort=prio" + JOB),
    (WAKING, "hist:keys=pid:sort=pid.upward" + JOB),
    (WAKING, "hist:keys=pid:size=64" + JOB),
    (WAKING, "hist:keys=pid:size=131073" + JOB),
    (WAKING, "hist:keys=pid.buckets=0" + JOB),
    (WAKING, "hist:keys=pid.log3" + JOB),
    (WAKING, "hist:keys=pid.hex.log2" + JOB),
    (WAKING, "hist:keys=pid:lost=common_timestamp.usecs-$nowhere" + JOB),
    (WAKING, "hist:keys=pid if comm == dline"),
    (WAKING, "hist:keys=pid if pid = 1"),
    (WAKING, "hist:keys=pid if comm < 'job'"),
    (WAKING, "hist:keys=pid if comm == 5"),
    (WAKING, "hist:keys=pid if pid == 'job'"),
    (WAKING, "hist:keys=pid if (pid == 1"),
    (WAKING, "hist:keys=pid if pid == 1 pid == 2"),
    (WAKING, "hist:keys=pid if next_pid == 1"),
    (WAKING, "hist:keys=pid if"),
    (WAKING, "hist:keys=pid:" + JOB),
]


def fixed(cpus):
    """Yield all fixed groups, as lists of cases."""
    for group in ALIKE + (ON_ONE_CPU if cpus == 1 else []):
        yield [dict(zip(("event", "text", "saver"), case)) for case in group]
    for known, why, event, text in KNOWN + (KNOWN_ON_MORE if cpus > 1 else []):
        yield [{"event": event, "text": text, "known": known, "why": why}]
    for until, known, why, then, event, text in MENDED:
        yield [{"event": event, "text": text, "known": known, "why": why, "until": until, "then": then}]
    yield READER
    for event, text in FAULTS:
        yield [{"event": event, "text": text, "known": "both refuse", "why": ""}]
