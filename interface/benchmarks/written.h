// What this process has handed to the file system so far: bytes in write calls, as Linux counts them, and syncs. The calls that
// sync stand here in the place of the C library's, so that those of the stores are counted too.
#ifndef WRITTEN_H
#define WRITTEN_H

#include <fcntl.h>
#include <stdint.h>
#include <stdlib.h>
#include <string.h>
#include <sys/mman.h>
#include <sys/syscall.h>
#include <unistd.h>

#include "spread.h"
#include "workload.h"

static uint64_t syncs;

int fsync(int file)
{
    syncs++;
    return (int)syscall(SYS_fsync, file);
}

int fdatasync(int file)
{
    syncs++;
    return (int)syscall(SYS_fdatasync, file);
}

int msync(void *start, size_t length, int flags)
{
    syncs++;
    return (int)syscall(SYS_msync, start, length, flags);
}

static inline uint64_t bytes_written(void)
{
    char text[512];
    int file = open("/proc/self/io", O_RDONLY);
    ssize_t length = file < 0 ? -1 : read(file, text, sizeof text - 1);
    if (length < 0)
        abort();
    close(file);
    text[length] = 0;
    return strtoull(strstr(text, "wchar: ") + 7, NULL, 10);
}

// Durable updates, each a transaction of its own.
static inline void measure_updates(const workload *w, void update(uint32_t), uint32_t key(const workload *, uint32_t),
                                   uint32_t updates, const char *name)
{
    spread bytes = {0}, made = {0};
    for (uint32_t i = 0; i < updates; i++) {
        uint64_t bytes_before = bytes_written(), syncs_before = syncs;
        update(key(w, i));
        spread_add(&made, syncs - syncs_before);
        spread_add(&bytes, bytes_written() - bytes_before);
    }
    spread_print(w->nodes, "stores in order, or syncs, of ", name, w->order, &made);
    spread_print(w->nodes, "bytes written by ", name, w->order, &bytes);
}

#endif
