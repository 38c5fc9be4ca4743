/* readings SECONDS: reads the kernel's account of waits for so long, every 50 milliseconds, as tests/judge/account.py does. For
   each task it prints its number, when the account was read, the account, and when that was done, in nanoseconds. */
#define _GNU_SOURCE
#include <ctype.h>
#include <dirent.h>
#include <fcntl.h>
#include <inttypes.h>
#include <stdio.h>
#include <stdlib.h>
#include <time.h>
#include <unistd.h>

static int64_t now(void) {
    struct timespec time;
    clock_gettime(CLOCK_MONOTONIC, &time);
    return time.tv_sec * INT64_C(1000000000) + time.tv_nsec;
}

/* Prints a line for the task of this name in the folder of tasks. */
static void read_one(int tasks, const char *name) {
    char path[64], text[128];
    uint64_t ran, waited;
    snprintf(path, sizeof path, "%.20s/schedstat", name);
    int64_t began = now();
    int file = openat(tasks, path, O_RDONLY);
    if (file < 0)
        return;
    ssize_t length = read(file, text, sizeof text - 1);
    int64_t ended = now();
    close(file);
    text[length > 0 ? length : 0] = 0;
    if (sscanf(text, "%" SCNu64 " %" SCNu64, &ran, &waited) == 2)
        printf("%s %" PRId64 " %" PRIu64 " %" PRId64 "\n", name, began, waited, ended);
}

/* Calls `each` for the names in a folder that are numbers. */
static void for_numbers(int at, const char *path, void (*each)(int, const char *)) {
    int folder = openat(at, path, O_RDONLY | O_DIRECTORY);
    DIR *names = folder < 0 ? NULL : fdopendir(folder);
    if (!names)
        return;
    for (struct dirent *one; (one = readdir(names));)
        if (isdigit((unsigned char)one->d_name[0]))
            each(dirfd(names), one->d_name);
    closedir(names);
}

static void read_tasks(int processes, const char *name) {
    char path[64];
    snprintf(path, sizeof path, "%.20s/task", name);
    for_numbers(processes, path, read_one);
}

int main(int count, char **words) {
    static char room[1 << 22];
    if (count != 2)
        return 2;
    /* What is printed waits in memory, so that little is written meanwhile. */
    setvbuf(stdout, room, _IOFBF, sizeof room);
    int64_t end = now() + atoll(words[1]) * INT64_C(1000000000);
    while (now() < end) {
        for_numbers(AT_FDCWD, "/proc", read_tasks);
        usleep(50000);
    }
    return fflush(stdout) != 0;
}
