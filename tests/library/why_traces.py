"""Lines of traces for the tests of waits that are told, and a wait of which all is known."""


def at(micros):
    return f"{micros // 1000000}.{micros % 1000000:06}"


def line(task, cpu, micros, event, flags="d..2."):
    return f"{task} [{cpu:03}] {flags} {at(micros)}: {event}"


def waking(task, cpu, micros, comm, pid, target, *, prio=120, flags="d..2.", event="sched_waking"):
    """A task wakes another one, or there is another event with the same fields."""
    return line(task, cpu, micros, f"{event}: comm={comm} pid={pid} prio={prio} target_cpu={target:03}", flags)


def switch(cpu, micros, before, state, after, *, prio=120, next_prio=120, task=None):
    """A CPU switches between two tasks, which are given as name, `-` and number."""
    (old, old_pid), (new, new_pid) = before.rsplit("-", 1), after.rsplit("-", 1)
    fields = f"prev_comm={old} prev_pid={old_pid} prev_prio={prio} prev_state={state}"
    fields += f" ==> next_comm={new} next_pid={new_pid} next_prio={next_prio}"
    return line(task or before, cpu, micros, f"sched_switch: {fields}")


def trace(*lines):
    return "".join(text + "\n" for text in lines).encode("utf-8", "surrogateescape")


# w is woken on CPU 0 by bash, and queued on CPU 2, where a runs; b, of real time, and c run before it.
BUSY = (
    switch(2, 1000000, "swapper/2-0", "R", "a-10", task="<idle>-0"),
    waking("<...>-7", 0, 1000100, "w", 42, 1),
    waking("<...>-7", 0, 1000104, "w", 42, 2, event="sched_wakeup"),
    switch(2, 1000200, "a-10", "R+", "b-11", next_prio=98),
    waking("<idle>-0", 0, 1000260, "c", 12, 2, flags="d.h4."),
    switch(2, 1000300, "b-11", "S", "c-12", prio=98),
    switch(2, 1000500, "c-12", "X", "w-42"),
    switch(0, 1000600, "bash-7", "D", "swapper/0-0"),
)


BUSY_TEXT = """\
w-42 (prio 120) waited 400 us for CPU 2, from 1.000100 to 1.000500, after it was
  woken.
3 tasks ran on CPU 2 meanwhile, in 3 stretches; c-12 the longest, 200 us (50 %).
Tasks that became runnable later than it had 200 us (50 %) of that time.
Tasks of real time (prio below 100) had 100 us (25 %) of it.

  1.000100  0:1  bash-7 on CPU 0 woke it; it had last run on CPU 1
  1.000104  0:2  it was queued on CPU 2, 4 us after the waking
  1.000500  2:4  it ran on CPU 2, after c-12, which exited (X)

CPU 2, where it ran:
  task  prio   us   %  runs  1.000100                                   1.000500
  c-12   120  200  50     1  |                        #########################|
  a-10   120  100  25     1  |############-                                    |
  b-11    98  100  25     1  |            #############                        |

What ran on CPU 2, in order:
  from       us  task  prio  then            runnable   switch
  1.000100  100  a-10   120  preempted (R+)             2:2
  1.000200  100  b-11    98  slept (S)       before it  2:3
  1.000300  200  c-12   120  exited (X)      +160 us    2:4"""
