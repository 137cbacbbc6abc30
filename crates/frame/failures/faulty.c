/* A read and a write that fail, to be loaded before the C library's. Each call moves at most one byte. The environment says where they
   fail: SHEET_FAILS, RUN_TEXT_FAILS, OUTPUT_FAILS name the byte of code.txt, of standard input or of standard output from which on every
   call fails; INTERRUPTED says how many calls a signal interrupts before each that it doesn't. */
#include <errno.h>
#include <stdlib.h>
#include <sys/syscall.h>
#include <unistd.h>

struct file {
    const char *fails;
    long moved, interrupted;
};

static struct file sheet = {"SHEET_FAILS", 0, 0}, run_text = {"RUN_TEXT_FAILS", 0, 0}, output = {"OUTPUT_FAILS", 0, 0};

static long number(const char *name, long otherwise)
{
    const char *text = getenv(name);
    return text ? atol(text) : otherwise;
}

static int fails(struct file *file)
{
    if (file->interrupted++ < number("INTERRUPTED", 0)) {
        errno = EINTR;
        return 1;
    }
    file->interrupted = 0;
    if (file->moved == number(file->fails, -1)) {
        errno = EIO;
        return 1;
    }
    file->moved++;
    return 0;
}

ssize_t read(int fd, void *buf, size_t count)
{
    return fails(fd == STDIN_FILENO ? &run_text : &sheet) ? -1 : syscall(SYS_read, fd, buf, count > 1 ? 1 : count);
}

ssize_t write(int fd, const void *buf, size_t count)
{
    return fd == STDOUT_FILENO && fails(&output) ? -1 : syscall(SYS_write, fd, buf, count > 1 ? 1 : count);
}
