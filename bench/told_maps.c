/* Preloaded into a server: what it writes to its standard error, the texts of its maps, goes into the file TOLD_MAPS too. */
#define _GNU_SOURCE
#include <dlfcn.h>
#include <fcntl.h>
#include <stdlib.h>
#include <sys/syscall.h>
#include <unistd.h>

static int file = -1;

__attribute__((constructor)) static void begin(void) {
    const char *path = getenv("TOLD_MAPS");
    if (path) file = open(path, O_WRONLY | O_CREAT | O_APPEND | O_CLOEXEC, 0644);
}

ssize_t write(int descriptor, const void *octets, size_t count) {
    long written = syscall(SYS_write, descriptor, octets, count);
    if (descriptor == 2 && file >= 0 && written > 0 && syscall(SYS_write, file, octets, written) != written) _exit(99);
    return written;
}
