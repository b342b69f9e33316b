/* Counts the syncs of a program, and leaves them out where it is told to:
 *
 *     cc -O2 -shared -fPIC -o syncs.so bench/syncs.c
 *     LD_PRELOAD=./syncs.so SYNCS_TO=FILE PROGRAM ..        adds a line to FILE: how many syncs it made, and the most memory
 *                                                           that it had, in KiB
 *     LD_PRELOAD=./syncs.so SYNCS_LEFT_OUT=1 PROGRAM ..     each sync is answered at once, and nothing is done
 *
 * Processes that it begins do likewise, each for itself. The memory is that of this program alone, where what `wait4` tells may be
 * that of the one which began it. */
#define _GNU_SOURCE
#include <dlfcn.h>
#include <stdio.h>
#include <stdlib.h>
#include <string.h>
#include <unistd.h>

static unsigned long made;

static int sync_by(const char *name, int file)
{
    int (*call)(int) = (int (*)(int))dlsym(RTLD_NEXT, name);
    __atomic_add_fetch(&made, 1, __ATOMIC_RELAXED);
    return getenv("SYNCS_LEFT_OUT") ? 0 : call(file);
}

int fsync(int file)
{
    return sync_by("fsync", file);
}

int fdatasync(int file)
{
    return sync_by("fdatasync", file);
}

static unsigned long most_memory(void)
{
    char line[256];
    unsigned long most = 0;
    FILE *status = fopen("/proc/self/status", "r");
    while (status && fgets(line, sizeof line, status))
        if (strncmp(line, "VmHWM:", 6) == 0)
            most = strtoul(line + 6, NULL, 10);
    if (status)
        fclose(status);
    return most;
}

__attribute__((destructor)) static void tell(void)
{
    const char *path = getenv("SYNCS_TO");
    FILE *to = path ? fopen(path, "a") : NULL;
    if (to) {
        fprintf(to, "%lu %lu\n", made, most_memory());
        fclose(to);
    }
}
