/* What picolibc asks of a system, over the calls of mosix.h: its documented hooks, the streams of the terminal, and main's call. */
#include "mosix.h"
#include <errno.h>
#include <fcntl.h>
#include <stdio-bufio.h>
#include <stdio.h>
#include <stdlib.h>
#include <string.h>
#include <sys/types.h>
#include <unistd.h>

static int told(int answer)
{
    static const struct { unsigned char number; int error; } errors[] = {
        { MOSIX_ENOENT, ENOENT }, { MOSIX_ESRCH, ESRCH }, { MOSIX_EINTR, EINTR }, { MOSIX_EBADF, EBADF },
        { MOSIX_ECHILD, ECHILD }, { MOSIX_EAGAIN, EAGAIN }, { MOSIX_EFAULT, EFAULT }, { MOSIX_EEXIST, EEXIST },
        { MOSIX_EINVAL, EINVAL }, { MOSIX_ENFILE, ENFILE }, { MOSIX_EMFILE, EMFILE }, { MOSIX_EFBIG, EFBIG },
        { MOSIX_ENOSPC, ENOSPC }, { MOSIX_ESPIPE, ESPIPE }, { MOSIX_EPIPE, EPIPE }, { MOSIX_ENAMETOOLONG, ENAMETOOLONG },
    };
    if (answer >= 0)
        return answer;
    errno = ENOSYS;
    for (size_t i = 0; i < sizeof errors / sizeof errors[0]; i++)
        if (errors[i].number == -answer)
            errno = errors[i].error;
    return -1;
}

/* The kernel's names have no folders. */
int open(const char *path, int flags, ...)
{
    unsigned how = 0;
    switch (flags & O_ACCMODE) {
    case O_RDONLY: how = MOSIX_READ; break;
    case O_WRONLY: how = MOSIX_WRITE; break;
    default: how = MOSIX_READ | MOSIX_WRITE; break;
    }
    if (flags & O_CREAT)
        how |= MOSIX_CREATE;
    if (flags & O_TRUNC)
        how |= MOSIX_TRUNCATE;
    if ((flags & (O_CREAT | O_EXCL)) == (O_CREAT | O_EXCL))
        how |= MOSIX_EXCLUSIVE;
    int fd = told(mosix_open(path, strlen(path), how));
    if (fd >= 0 && (flags & O_APPEND))
        mosix_lseek(fd, 0, 2);
    return fd;
}

int close(int fd) { return told(mosix_close(fd)); }
ssize_t read(int fd, void *into, size_t length) { return told(mosix_read(fd, into, length)); }
ssize_t write(int fd, const void *from, size_t length) { return told(mosix_write(fd, from, length)); }
off_t lseek(int fd, off_t offset, int whence) { return told(mosix_lseek(fd, offset, whence)); }
int dup(int fd) { return told(mosix_dup(fd)); }
int unlink(const char *path) { return told(mosix_unlink(path, strlen(path))); }
int pipe(int ends[2]) { return told(mosix_pipe(ends)); }
pid_t fork(void) { return told(mosix_fork()); }
pid_t wait(int *status) { return told(mosix_wait(status)); }
pid_t getpid(void) { return mosix_getpid(); }
pid_t getppid(void) { return mosix_getppid(); }
int kill(pid_t pid, int signal) { return told(mosix_kill(pid, signal)); }
int sched_yield(void) { return told(mosix_yield()); }
void _exit(int code) { mosix_exit(code); }

extern void mosix_restorer(void);

int mosix_sigact(int signal, void (*handler)(int))
{
    return mosix_call(SYS_sigact, signal, (long)handler, (long)mosix_restorer);
}

/* The heap grows by brk; malloc asks here. */
void *sbrk(ptrdiff_t more)
{
    unsigned old = mosix_brk(0);
    if (more != 0 && mosix_brk(old + more) != old + more) {
        errno = ENOMEM;
        return (void *)-1;
    }
    return (void *)old;
}

static char input_bytes[512], output_bytes[512], error_bytes[128];
static struct __file_bufio input = FDEV_SETUP_BUFIO(0, input_bytes, sizeof input_bytes, read, write, lseek, close, __SRD, 0);
static struct __file_bufio output = FDEV_SETUP_BUFIO(1, output_bytes, sizeof output_bytes, read, write, lseek, close, __SWR, __BLBF);
static struct __file_bufio errors = FDEV_SETUP_BUFIO(2, error_bytes, sizeof error_bytes, read, write, lseek, close, __SWR, __BLBF);
FILE *const stdin = &input.xfile.cfile.file;
FILE *const stdout = &output.xfile.cfile.file;
FILE *const stderr = &errors.xfile.cfile.file;

static void flush(void)
{
    fflush(stdout);
    fflush(stderr);
}

extern int main(int count, char **words);
extern void __libc_init_array(void);

/* What the streams of the terminal still hold is written by exit, wherever that is called. */
_Noreturn void mosix_main(int count, char **words)
{
    __libc_init_array();
    atexit(flush);
    exit(main(count, words));
}
