#!/usr/bin/env python3
"""Writes a realistic scheduler trace in the text format of tracefs `trace`, for measuring.

    make_trace.py EVENTS [--cpus C] [--pids P] [--seed S] > FILE

A small scheduler is simulated: sleeping tasks are woken (sched_waking on the waker's CPU,
sched_wakeup on the target's a moment later), the target CPU switches to them some microseconds
after that, they run, and switch away to the next queued task or to the idle task. There are also
a few other events, lost-events lines and the header. The stamps ascend, EVENTS event lines are
written, and the same arguments give the same bytes.
"""

import argparse
import heapq
import random
import sys

HEADER = """\
# tracer: nop
#
# entries-in-buffer/entries-written: {n}/{n}   #P:{cpus}
#
#                                _-----=> irqs-off/BH-disabled
#                               / _----=> need-resched
#                              | / _---=> hardirq/softirq
#                              || / _--=> preempt-depth
#                              ||| / _-=> migrate-disable
#                              |||| /     delay
#           TASK-PID     CPU#  |||||  TIMESTAMP  FUNCTION
#              | |         |   |||||     |         |
"""

# name, priority, mean run in us, mean sleep in us, share
FAMILIES = [
    ("cyclictest", 19, 12, 1_000, 4),
    ("sim", 120, 180, 2_500, 6),
    ("kworker/{c}:{k}", 120, 25, 4_000, 8),
    ("kworker/{c}:{k}H", 100, 20, 6_000, 2),
    ("kworker/u{u}:{k}", 120, 60, 5_000, 4),
    ("ksoftirqd/{c}", 120, 15, 3_000, 2),
    ("migration/{c}", 0, 4, 40_000, 1),
    ("rcu_preempt", 120, 6, 4_000, 1),
    ("rcuc/{c}", 98, 5, 8_000, 1),
    ("irq/{q}-nvme0q{c}", 49, 8, 1_500, 2),
    ("bash", 120, 400, 50_000, 2),
    ("my-app {k}", 120, 300, 8_000, 3),
    ("Web Content", 120, 700, 12_000, 2),
    ("postgres", 120, 150, 3_000, 4),
    ("deadline-task", -1, 100, 10_000, 1),
    ("a-very-long-nam", 130, 90, 9_000, 1),
]

OTHERS = [
    "irq_handler_entry: irq={a} name=nvme0q{b}",
    "irq_handler_exit: irq={a} ret=handled",
    "softirq_raise: vec={b} [action=TIMER]",
    "hrtimer_start: hrtimer=00000000{a:04x} function=tick_nohz_handler expires={x} softexpires={x}",
    "sched_stat_runtime: comm={comm} pid={pid} runtime={x} [ns]",
    "sched_migrate_task: comm={comm} pid={pid} prio=120 orig_cpu={a} dest_cpu={b}",
    "update_curr <-task_tick_fair",
    "tick_stop: success=1 dependency=NONE",
    "power: cpu_idle: state={b} cpu_id={a}",
]


class Task:
    __slots__ = ("pid", "comm", "prio", "run", "sleep", "cpu", "state")

    def __init__(self, pid, comm, prio, run, sleep, cpu):
        self.pid, self.comm, self.prio = pid, comm, prio
        self.run, self.sleep, self.cpu = run, sleep, cpu
        self.state = "sleeping"


class Machine:
    def __init__(self, events, cpus, pids, seed, lost):
        self.rng = random.Random(f"{seed}/{cpus}/{pids}")
        self.left = events
        self.cpus = cpus
        self.lost = lost
        self.out = []
        self.heap = []
        self.seq = 0
        self.now = 6012 * 1_000_000
        self.idle = [Task(0, f"swapper/{c}", 120, 0, 0, c) for c in range(cpus)]
        self.current = list(self.idle)
        self.queue = [[] for _ in range(cpus)]
        self.tasks = self.make_tasks(pids)
        # A longer sleep of every task keeps the machine about half busy.
        load = sum(task.run / (task.run + task.sleep) for task in self.tasks)
        self.stretch = max(1.0, load / (0.5 * cpus))

    def make_tasks(self, pids):
        rng = self.rng
        weights = [family[4] for family in FAMILIES]
        numbers = rng.sample(range(2, max(32_768, 4 * pids)), pids)
        tasks = []
        for pid in sorted(numbers):
            name, prio, run, sleep, _ = rng.choices(FAMILIES, weights)[0]
            cpu = rng.randrange(self.cpus)
            comm = name.format(c=cpu, k=rng.randrange(8), u=2 * self.cpus, q=rng.randrange(20, 64))
            tasks.append(Task(pid, comm[:15], prio, run, sleep, cpu))
        return tasks

    def at(self, delay, what, *args):
        self.seq += 1
        heapq.heappush(self.heap, (self.now + delay, self.seq, what, args))

    def span(self, mean):
        return 1 + int(self.rng.expovariate(1.0 / mean))

    def line(self, cpu, letters, text):
        if self.left == 0:
            return
        self.left -= 1
        task = self.current[cpu]
        comm = "<idle>" if task.pid == 0 else task.comm
        seconds, micros = divmod(self.now, 1_000_000)
        self.out.append(f"{comm:>16}-{task.pid:<7} [{cpu:03}] {letters} {seconds:5}.{micros:06}: {text}\n")

    # ---- what happens

    def wake(self, task):
        """Wake a sleeping task, often from an interrupt of its own CPU."""
        rng = self.rng
        waker = task.cpu if rng.random() < 0.7 else rng.randrange(self.cpus)
        if rng.random() < 0.15:
            task.cpu = rng.randrange(self.cpus)
        letters = rng.choice(("d.h..", "d.h4.", "dNh..", "d..2.", "d.s3."))
        self.line(
            waker,
            letters,
            f"sched_waking: comm={task.comm} pid={task.pid} prio={task.prio} target_cpu={task.cpu:03}",
        )
        task.state = "waking"
        self.at(rng.randrange(1, 4), self.wakeup, task, letters)
        if rng.random() < 0.02:
            # A second waking of a task that is on its way already.
            self.at(2, self.waking_again, task, waker, letters)

    def waking_again(self, task, waker, letters):
        self.line(
            waker,
            letters,
            f"sched_waking: comm={task.comm} pid={task.pid} prio={task.prio} target_cpu={task.cpu:03}",
        )

    def wakeup(self, task, letters):
        name = "sched_wakeup_new" if self.rng.random() < 0.004 else "sched_wakeup"
        self.line(
            task.cpu,
            letters,
            f"{name}: comm={task.comm} pid={task.pid} prio={task.prio} target_cpu={task.cpu:03}",
        )
        task.state = "queued"
        self.queue[task.cpu].append(task)
        running = self.current[task.cpu]
        if running.pid == 0 or task.prio < running.prio or self.rng.random() < 0.3:
            self.at(self.span(6), self.switch, task.cpu, running, "R+" if running.pid else "R")

    def switch(self, cpu, running, state):
        """Have `running` give the CPU away, unless it has done so already."""
        if self.current[cpu] is not running:
            return
        queue = self.queue[cpu]
        if state[0] == "R" and not queue:
            return
        if queue:
            best = min(range(len(queue)), key=lambda n: queue[n].prio)
            following = queue.pop(best)
        else:
            following = self.idle[cpu]
        self.line(
            cpu,
            "d..2.",
            f"sched_switch: prev_comm={running.comm} prev_pid={running.pid} "
            f"prev_prio={running.prio} prev_state={state} ==> next_comm={following.comm} "
            f"next_pid={following.pid} next_prio={following.prio}",
        )
        self.current[cpu] = following
        if running.pid:
            if state[0] == "R":
                running.state = "queued"
                queue.append(running)
            else:
                running.state = "sleeping"
                self.at(self.span(running.sleep * self.stretch), self.wake, running)
        if following.pid:
            following.state = "running"
            following.cpu = cpu
            left = self.rng.choice(("S", "S", "S", "S", "D", "I"))
            self.at(self.span(following.run), self.switch, cpu, following, left)

    def other(self, cpu):
        rng = self.rng
        task = self.current[cpu]
        text = rng.choice(OTHERS).format(
            a=rng.randrange(64),
            b=rng.randrange(8),
            x=rng.randrange(1 << 40),
            comm=task.comm,
            pid=task.pid,
        )
        self.line(cpu, rng.choice(("d.h..", ".....", "d....", "d.s1.")), text)
        self.at(self.span(300 * self.stretch), self.other, cpu)

    def run(self, write):
        for task in self.tasks:
            self.at(self.span(task.sleep), self.wake, task)
        for cpu in range(self.cpus):
            self.at(self.span(300), self.other, cpu)
        until_lost = self.lost
        while self.left:
            self.now, _, what, args = heapq.heappop(self.heap)
            what(*args)
            if len(self.out) >= 8192:
                until_lost -= len(self.out)
                if until_lost <= 0:
                    until_lost = self.lost
                    cpu, count = self.rng.randrange(self.cpus), self.rng.randrange(1, 400)
                    self.out.append(f"CPU:{cpu} [LOST {count} EVENTS]\n")
                write("".join(self.out))
                self.out.clear()
        write("".join(self.out))


def main():
    words = argparse.ArgumentParser(description="a seeded scheduler trace")
    words.add_argument("events", type=int, help="event lines")
    words.add_argument("--cpus", type=int, default=8)
    words.add_argument("--pids", type=int, default=400)
    words.add_argument("--seed", type=int, default=1)
    words = words.parse_args()
    if not 1 <= words.cpus <= 8192 or words.pids < 1 or words.events < 0:
        sys.exit("make_trace.py: cpus 1 to 8192, pids from 1, events from 0")
    sys.stdout.write(HEADER.format(n=words.events, cpus=words.cpus))
    Machine(words.events, words.cpus, words.pids, words.seed, 50_000).run(sys.stdout.write)


if __name__ == "__main__":
    main()
