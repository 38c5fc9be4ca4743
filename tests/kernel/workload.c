/* workload SEED: the tasks whose events tests/kernel.sh compares. It ends when all of them have ended.

   Their names begin with `job`, which no other task's does, and each trigger asks for such a name. So the kernel, which
   counts from the moment a trigger is attached, and the desk, which has what the trace holds, see the same events. The
   exceptions are `7 jobs` and `dline`, for what a few triggers ask of them.

   There are pairs that answer each other over pipes, tasks that nap, spin and yield, two of a fixed priority, one with a
   deadline (its priority is -1), and many that live for a moment, so that small tables overflow. */
#define _GNU_SOURCE
#include <sched.h>
#include <stdint.h>
#include <stdio.h>
#include <stdlib.h>
#include <string.h>
#include <sys/prctl.h>
#include <sys/resource.h>
#include <sys/syscall.h>
#include <sys/wait.h>
#include <time.h>
#include <unistd.h>

/* As the kernel has it; not every C library declares it. */
struct deadline {
    uint32_t size, policy;
    uint64_t flags;
    int32_t nice;
    uint32_t priority;
    uint64_t runtime, deadline, period;
};

static uint64_t state;

/* A number below `limit`, from the seed. */
static unsigned draw(unsigned limit) {
    state = state * 6364136223846793005u + 1442695040888963407u;
    return (unsigned)(state >> 33) % limit;
}

static void fail(const char *what) {
    perror(what);
    _exit(1);
}

static void nap(long microseconds) {
    struct timespec time = {0, microseconds * 1000};
    nanosleep(&time, NULL);
}

static void spin(long microseconds) {
    struct timespec start, now;
    clock_gettime(CLOCK_MONOTONIC, &start);
    do
        clock_gettime(CLOCK_MONOTONIC, &now);
    while ((now.tv_sec - start.tv_sec) * 1000000 + (now.tv_nsec - start.tv_nsec) / 1000 < microseconds);
}

/* Makes a task with that name, which draws its own numbers, and returns its number; 0 in the child. */
static pid_t begin(const char *name, unsigned number) {
    pid_t pid = fork();
    if (pid < 0)
        fail("fork");
    if (pid == 0) {
        state += number * 7919u;
        draw(1);
        prctl(PR_SET_NAME, name);
    }
    return pid;
}

static void set_nice(int nice) {
    if (setpriority(PRIO_PROCESS, 0, nice))
        fail("setpriority");
}

static void set_fixed(int policy, int priority) {
    struct sched_param param = {priority};
    if (sched_setscheduler(0, policy, &param))
        fail("sched_setscheduler");
}

/* One end of a pair: reads a byte, works a little, writes a byte. */
static void answer(int from, int to, int rounds, int nice) {
    char byte = 0;
    set_nice(nice);
    while (rounds-- > 0) {
        if (read(from, &byte, 1) != 1 || write(to, &byte, 1) != 1)
            break;
        if (draw(4) == 0)
            spin(draw(300));
    }
    _exit(0);
}

static void pair(int number) {
    static const char *const names[][2] = {
        {"job ping a", "job pong a"}, {"job-b,left", "job-b: right"}, {"job c pid=7 x", "job pong c"}};
    int there[2], back[2], rounds = 100 + draw(60), nice[2] = {draw(20), (int)draw(31) - 15};
    if (pipe(there) || pipe(back) || write(there[1], "", 1) != 1)
        fail("pipe");
    if (begin(names[number][0], 2 * number + 1) == 0)
        answer(there[0], back[1], rounds, nice[0]);
    if (begin(names[number][1], 2 * number + 2) == 0)
        answer(back[0], there[1], rounds, nice[1]);
    close(there[0]), close(there[1]), close(back[0]), close(back[1]);
}

static void napper(const char *name, int number, int nice, int rounds) {
    if (begin(name, 20 + number) != 0)
        return;
    set_nice(nice);
    while (rounds-- > 0) {
        nap(100 + draw(3000));
        spin(draw(200));
    }
    _exit(0);
}

static void spinner(int number, int nice) {
    if (begin("job spins", 40 + number) != 0)
        return;
    set_nice(nice);
    for (int i = 0; i < 40; i++) {
        spin(500 + draw(1500));
        sched_yield();
        if (draw(8) == 0)
            nap(200);
    }
    _exit(0);
}

static void fixed(const char *name, int policy, int priority, int rounds) {
    if (begin(name, 60 + priority) != 0)
        return;
    set_fixed(policy, priority);
    while (rounds-- > 0) {
        nap(500 + draw(4000));
        spin(draw(100));
    }
    _exit(0);
}

static void with_deadline(void) {
    struct deadline wanted = {.size = sizeof wanted, .policy = 6, .runtime = 4000000};
    wanted.deadline = wanted.period = 20000000;
    if (begin("dline", 90) != 0)
        return;
    if (syscall(SYS_sched_setattr, 0, &wanted, 0))
        fail("sched_setattr");
    for (int i = 0; i < 15; i++)
        nap(1000 + draw(2000));
    _exit(0);
}

/* Tasks that live for a moment, a few at a time; some share their names. */
static void kids(int count) {
    for (int number = 0; number < count; number++) {
        char name[16];
        snprintf(name, sizeof name, draw(4) ? "job kid %d" : "job kid x%d", draw(4) ? number : number % 7);
        if (begin(name, 100 + number) == 0) {
            if (draw(3) == 0)
                set_nice(draw(20));
            for (int rounds = 1 + draw(3); rounds > 0; rounds--)
                nap(50 + draw(400));
            _exit(0);
        }
        if (number % 6 == 5)
            while (waitpid(-1, NULL, draw(2) ? WNOHANG : 0) > 0 && draw(6) > 0)
                ;
    }
}

static void boss(void) {
    for (int i = 0; i < 3; i++)
        pair(i);
    napper("job naps a", 1, 0, 50);
    napper("job naps b", 2, 5, 40);
    napper("job [c] nap*", 3, -7, 40);
    napper("job 15 bytes ab", 4, 19, 30);
    napper("7 jobs", 5, 3, 20);
    spinner(1, 0);
    spinner(2, 12);
    fixed("job fifo", SCHED_FIFO, 10, 25);
    fixed("job robin", SCHED_RR, 50, 25);
    kids(190);
    while (wait(NULL) > 0)
        ;
    _exit(0);
}

int main(int count, char **words) {
    pid_t pid;
    int status, bad = 0;
    if (count != 2)
        return 2;
    state = strtoull(words[1], NULL, 10) * 2654435761u + 1;
    with_deadline();
    if (begin("job boss", 0) == 0)
        boss();
    while ((pid = wait(&status)) > 0)
        bad |= status;
    return bad != 0;
}
