/* Fails reads or writes of a program into which it is loaded (LD_PRELOAD), and counts them.

   READ_FAILED    the number, from 1, of the call that reads and fails (nothing or 0: none)
   WRITE_FAILED   the same of the calls that write
   DEVICES_FAILED where it is set, all such calls behind that one fail too
   DEVICES        a file to which two numbers are written when the program ends: the calls that read, and those that write */
#define _GNU_SOURCE
#include <errno.h>
#include <fcntl.h>
#include <stdio.h>
#include <stdlib.h>
#include <sys/syscall.h>
#include <sys/uio.h>
#include <unistd.h>

static long reads, writes;

/* Whether the call of this number fails. */
static int fails(const char *name, long number) {
    const char *word = getenv(name);
    long failed = word ? atol(word) : 0;
    if (failed == 0 || number < failed || (number > failed && getenv("DEVICES_FAILED") == NULL))
        return 0;
    errno = EIO;
    return 1;
}

ssize_t read(int file, void *to, size_t size) {
    return fails("READ_FAILED", ++reads) ? -1 : syscall(SYS_read, file, to, size);
}

ssize_t pread(int file, void *to, size_t size, off_t at) {
    return fails("READ_FAILED", ++reads) ? -1 : syscall(SYS_pread64, file, to, size, at);
}

ssize_t readv(int file, const struct iovec *to, int count) {
    return fails("READ_FAILED", ++reads) ? -1 : syscall(SYS_readv, file, to, count);
}

ssize_t write(int file, const void *from, size_t size) {
    return fails("WRITE_FAILED", ++writes) ? -1 : syscall(SYS_write, file, from, size);
}

ssize_t pwrite(int file, const void *from, size_t size, off_t at) {
    return fails("WRITE_FAILED", ++writes) ? -1 : syscall(SYS_pwrite64, file, from, size, at);
}

ssize_t writev(int file, const struct iovec *from, int count) {
    return fails("WRITE_FAILED", ++writes) ? -1 : syscall(SYS_writev, file, from, count);
}

__attribute__((destructor)) static void tell(void) {
    char text[64];
    const char *path = getenv("DEVICES");
    int file = path ? open(path, O_WRONLY | O_CREAT | O_TRUNC, 0600) : -1;
    if (file < 0)
        return;
    int length = snprintf(text, sizeof text, "%ld %ld\n", reads, writes);
    if (syscall(SYS_write, file, text, length) != length)
        _exit(70);
    close(file);
}
