/* The calls of the cluster's kernel. A negative answer is an error, minus its number.
 *
 * The names of POSIX (open, read, fork and so on, from <unistd.h> and <fcntl.h>) stand over these calls in mosix.c; they
 * answer -1 and set errno, as usual. */
#ifndef MOSIX_H
#define MOSIX_H

#define SYS_exit 1
#define SYS_getpid 2
#define SYS_getppid 3
#define SYS_fork 4
#define SYS_wait 5
#define SYS_open 6
#define SYS_close 7
#define SYS_read 8
#define SYS_write 9
#define SYS_lseek 10
#define SYS_pipe 11
#define SYS_dup 12
#define SYS_unlink 13
#define SYS_kill 14
#define SYS_sigact 15
#define SYS_sigreturn 16
#define SYS_sigmask 17
#define SYS_brk 18
#define SYS_yield 19

#define MOSIX_ENOENT 2        /* no file has the name */
#define MOSIX_ESRCH 3         /* no process has the pid */
#define MOSIX_EINTR 4         /* a signal broke the call off */
#define MOSIX_EBADF 9         /* the descriptor is not open, or has not the right */
#define MOSIX_ECHILD 10       /* the caller has no child */
#define MOSIX_EAGAIN 11       /* there is no room for another process */
#define MOSIX_EFAULT 14       /* a byte of the buffer lacks its right */
#define MOSIX_EEXIST 17       /* the file is there already */
#define MOSIX_EINVAL 22       /* an argument has no meaning */
#define MOSIX_ENFILE 23       /* no room for another description, pipe or file */
#define MOSIX_EMFILE 24       /* the process has no free descriptor */
#define MOSIX_EFBIG 27        /* the file ends at its longest */
#define MOSIX_ENOSPC 28       /* no room for the bytes */
#define MOSIX_ESPIPE 29       /* the description has no offset */
#define MOSIX_EPIPE 32        /* the pipe has no end that reads */
#define MOSIX_ENAMETOOLONG 36 /* the name is too long */
#define MOSIX_ENOSYS 38       /* no call has the number */

#define MOSIX_READ 1     /* open to read */
#define MOSIX_WRITE 2    /* open to write */
#define MOSIX_CREATE 4   /* make the file where it is not there */
#define MOSIX_TRUNCATE 8 /* empty it */
#define MOSIX_EXCLUSIVE 16 /* it must not be there */

#define MOSIX_SIGINT 2
#define MOSIX_SIGILL 4
#define MOSIX_SIGTRAP 5
#define MOSIX_SIGKILL 9
#define MOSIX_SIGUSR1 10
#define MOSIX_SIGSEGV 11
#define MOSIX_SIGUSR2 12
#define MOSIX_SIGPIPE 13
#define MOSIX_SIGTERM 15
#define MOSIX_SIGCHLD 17
#define MOSIX_SIGXCPU 24

/* What a handler may be in place of a function. */
#define MOSIX_DEFAULT 0u
#define MOSIX_IGNORE 1u

/* Makes the call of this number with its arguments, and gives its answer. */
static inline long mosix_call(long number, long a, long b, long c)
{
    register long a0 __asm__("a0") = a;
    register long a1 __asm__("a1") = b;
    register long a2 __asm__("a2") = c;
    register long a7 __asm__("a7") = number;
    __asm__ volatile("ecall" : "+r"(a0) : "r"(a1), "r"(a2), "r"(a7) : "memory");
    return a0;
}

/* Ends the process with the lowest 8 bits of `code`. Nothing that is buffered is written: `exit` of <stdlib.h> does that. */
static inline _Noreturn void mosix_exit(int code)
{
    for (;;)
        mosix_call(SYS_exit, code, 0, 0);
}

static inline int mosix_getpid(void) { return mosix_call(SYS_getpid, 0, 0, 0); }
static inline int mosix_getppid(void) { return mosix_call(SYS_getppid, 0, 0, 0); }
/* The child's pid, 0 in the child. */
static inline int mosix_fork(void) { return mosix_call(SYS_fork, 0, 0, 0); }
/* The pid of the lowest child that has ended; its end goes to `status` where that is not null: 256 times its code, or its signal. */
static inline int mosix_wait(int *status) { return mosix_call(SYS_wait, (long)status, 0, 0); }
static inline int mosix_open(const char *path, unsigned length, unsigned flags) { return mosix_call(SYS_open, (long)path, length, flags); }
static inline int mosix_close(int fd) { return mosix_call(SYS_close, fd, 0, 0); }
static inline int mosix_read(int fd, void *into, unsigned length) { return mosix_call(SYS_read, fd, (long)into, length); }
static inline int mosix_write(int fd, const void *from, unsigned length) { return mosix_call(SYS_write, fd, (long)from, length); }
/* Moves the offset: from the start (0), from where it is (1), or from the end (2). */
static inline int mosix_lseek(int fd, int offset, int whence) { return mosix_call(SYS_lseek, fd, offset, whence); }
/* The end that reads, then the end that writes. */
static inline int mosix_pipe(int ends[2]) { return mosix_call(SYS_pipe, (long)ends, 0, 0); }
static inline int mosix_dup(int fd) { return mosix_call(SYS_dup, fd, 0, 0); }
static inline int mosix_unlink(const char *path, unsigned length) { return mosix_call(SYS_unlink, (long)path, length, 0); }
static inline int mosix_kill(int pid, int signal) { return mosix_call(SYS_kill, pid, signal, 0); }
/* Blocks the signals whose bits are set, and gives the mask that stood before. */
static inline unsigned mosix_sigmask(unsigned mask) { return mosix_call(SYS_sigmask, mask, 0, 0); }
/* Moves the end of the heap, and gives where it is; 0 only asks. */
static inline unsigned mosix_brk(unsigned address) { return mosix_call(SYS_brk, address, 0, 0); }
static inline int mosix_yield(void) { return mosix_call(SYS_yield, 0, 0, 0); }

/* Has `handler` run when the signal is taken: a function, MOSIX_DEFAULT or MOSIX_IGNORE. */
int mosix_sigact(int signal, void (*handler)(int));

#endif
