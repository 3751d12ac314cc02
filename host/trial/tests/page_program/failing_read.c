/* Loaded before the C library: a read of the file that READ_FAILS names ("input", or "file" for any other) gives READ_GIVES bytes
 * the first time, and fails from then on. */
#define _GNU_SOURCE
#include <dlfcn.h>
#include <errno.h>
#include <stdlib.h>
#include <string.h>
#include <unistd.h>

typedef ssize_t reader(int, void *, size_t);

ssize_t read(int file, void *cells, size_t count)
{
    static int given;
    reader *next;
    const char *failing = getenv("READ_FAILS");
    const char *most = getenv("READ_GIVES");
    *(void **)&next = dlsym(RTLD_NEXT, "read");
    if (failing == NULL || most == NULL || (file == 0) != (strcmp(failing, "input") == 0))
        return next(file, cells, count);
    if (given++) {
        errno = EIO;
        return -1;
    }
    return next(file, cells, (size_t)atoi(most) < count ? (size_t)atoi(most) : count);
}
