/* Stands between a program and the system (LD_PRELOAD), and makes calls of the program's fail. In the environment:
 *
 * FAIL="CALL NUMBER ERROR"  the call of this name whose number, counted from 1, is NUMBER fails with the error, which is
 *                           a number, and is not made. Calls are counted by their name.
 * INTERRUPT=N               every read and write but each Nth fails with EINTR, and is not made; N is at least 2.
 * SHORT=N                   each read and write moves at most N bytes.
 * NETWORK=1                 locks are as over NFS: a shared one wants a file that may be read, and one that keeps all others
 *                           out a file that may be written.
 * BEFORE="CALL NUMBER LINE" before the call of this name whose number, counted from 1, is NUMBER the shell does this line.
 * TURN="NUMBER PLACE BITS"  of what the read whose number, counted from 1, is NUMBER gives, the byte at PLACE, if there is
 *                           one, is another: these bits of it, a number, are turned.
 * TELL=DESCRIPTOR           each call that is made or made to fail is written there, a line: its name, and for one on a
 *                           descriptor the number of that, and for one that may make a file the file's mode.
 */
#define _GNU_SOURCE
#include <dlfcn.h>
#include <errno.h>
#include <fcntl.h>
#include <stdarg.h>
#include <stdatomic.h>
#include <stdio.h>
#include <stdlib.h>
#include <string.h>
#include <sys/file.h>
#include <sys/stat.h>
#include <sys/syscall.h>
#include <sys/types.h>
#include <sys/wait.h>
#include <unistd.h>

static char call_to_fail[16], call_to_await[16];
static const char *line_to_do;
static long number_to_await, number_to_fail, error_to_give, interrupt_but, number_to_turn, place_to_turn, bits_to_turn;
static size_t most_to_move;
static int told = -1, is_network;
static atomic_long count_of_named, count_of_awaited, count_of_moves, count_of_reads;

__attribute__((constructor)) static void begin(void) {
    const char *fail = getenv("FAIL"), *interrupt = getenv("INTERRUPT"), *tell = getenv("TELL"), *turn = getenv("TURN");
    const char *most = getenv("SHORT"), *before = getenv("BEFORE");
    int at = 0;
    if (fail && sscanf(fail, "%15s %ld %ld", call_to_fail, &number_to_fail, &error_to_give) != 3) abort();
    is_network = getenv("NETWORK") != NULL;
    if (interrupt) interrupt_but = atol(interrupt);
    if (most) most_to_move = atol(most);
    if (tell) told = atoi(tell);
    if (before && sscanf(before, "%15s %ld %n", call_to_await, &number_to_await, &at) != 2) abort();
    line_to_do = before + at;
    if (turn && sscanf(turn, "%ld %ld %ld", &number_to_turn, &place_to_turn, &bits_to_turn) != 3) abort();
}

static void tell(const char *name, int descriptor) {
    char line[48];
    int length = snprintf(line, sizeof line, descriptor < 0 ? "%s\n" : "%s %d\n", name, descriptor);
    if (told >= 0 && syscall(SYS_write, told, line, length) != length) abort();
}

/* Does the line that is to be done before this call, if there is one. */
static void await(const char *name) {
    if (strcmp(name, call_to_await) != 0 || atomic_fetch_add(&count_of_awaited, 1) + 1 != number_to_await) return;
    pid_t shell = fork();
    if (shell == 0) {
        unsetenv("LD_PRELOAD");
        execl("/bin/sh", "sh", "-c", line_to_do, (char *)NULL);
        _exit(127);
    }
    int status;
    if (waitpid(shell, &status, 0) != shell || status != 0) abort();
}

/* Whether the call is to fail; errno says how. */
static int is_to_fail(const char *name, int descriptor) {
    await(name);
    tell(name, descriptor);
    if (strcmp(name, call_to_fail) != 0 || atomic_fetch_add(&count_of_named, 1) + 1 != number_to_fail) return 0;
    errno = error_to_give;
    return 1;
}

static int is_interrupted(void) {
    if (interrupt_but == 0 || (atomic_fetch_add(&count_of_moves, 1) + 1) % interrupt_but == 0) return 0;
    errno = EINTR;
    return 1;
}

static size_t moved(size_t count) { return most_to_move != 0 && count > most_to_move ? most_to_move : count; }

static ssize_t turned(void *bytes, ssize_t given) {
    if (atomic_fetch_add(&count_of_reads, 1) + 1 == number_to_turn && place_to_turn < given)
        ((unsigned char *)bytes)[place_to_turn] ^= bits_to_turn;
    return given;
}

ssize_t read(int descriptor, void *bytes, size_t count) {
    if (is_interrupted() || is_to_fail("read", descriptor)) return -1;
    return turned(bytes, syscall(SYS_read, descriptor, bytes, moved(count)));
}

ssize_t write(int descriptor, const void *bytes, size_t count) {
    if (is_interrupted() || is_to_fail("write", descriptor)) return -1;
    return syscall(SYS_write, descriptor, bytes, moved(count));
}

/* The kit's standard library calls the second name, which means the same here. */
off_t lseek(int descriptor, off_t offset, int from) {
    return is_to_fail("lseek", descriptor) ? -1 : (off_t)syscall(SYS_lseek, descriptor, offset, from);
}

off_t lseek64(int descriptor, off_t offset, int from) { return lseek(descriptor, offset, from); }

int fsync(int descriptor) { return is_to_fail("fsync", descriptor) ? -1 : (int)syscall(SYS_fsync, descriptor); }

int fchmod(int descriptor, mode_t mode) {
    return is_to_fail("fchmod", descriptor) ? -1 : (int)syscall(SYS_fchmod, descriptor, mode);
}

int fchown(int descriptor, uid_t owner, gid_t group) {
    return is_to_fail("fchown", descriptor) ? -1 : (int)syscall(SYS_fchown, descriptor, owner, group);
}

int rename(const char *from, const char *to) {
    return is_to_fail("rename", -1) ? -1 : (int)syscall(SYS_rename, from, to);
}

int unlink(const char *path) { return is_to_fail("unlink", -1) ? -1 : (int)syscall(SYS_unlink, path); }

int ftruncate(int descriptor, off_t length) {
    return is_to_fail("ftruncate", descriptor) ? -1 : (int)syscall(SYS_ftruncate, descriptor, length);
}

/* Whether the file is open for what its lock wants over NFS; errno says that it is not. */
static int may_lock(int descriptor, int operation) {
    int mode = fcntl(descriptor, F_GETFL) & O_ACCMODE;
    int lacks = operation & LOCK_SH ? O_WRONLY : operation & LOCK_EX ? O_RDONLY : -1;
    if (!is_network || mode != lacks) return 1;
    errno = EBADF;
    return 0;
}

int flock(int descriptor, int operation) {
    if (is_to_fail("flock", descriptor) || !may_lock(descriptor, operation)) return -1;
    return (int)syscall(SYS_flock, descriptor, operation);
}

int statx(int folder, const char *restrict path, int flags, unsigned mask, struct statx *restrict found) {
    return is_to_fail("statx", -1) ? -1 : (int)syscall(SYS_statx, folder, path, flags, mask, found);
}

ssize_t readlink(const char *restrict path, char *restrict named, size_t size) {
    return is_to_fail("readlink", -1) ? -1 : syscall(SYS_readlink, path, named, size);
}

ssize_t pread(int descriptor, void *bytes, size_t count, off_t offset) {
    if (is_interrupted() || is_to_fail("pread", descriptor)) return -1;
    return turned(bytes, syscall(SYS_pread64, descriptor, bytes, moved(count), offset));
}

ssize_t pread64(int descriptor, void *bytes, size_t count, off_t offset) { return pread(descriptor, bytes, count, offset); }

int open(const char *path, int flags, ...) {
    va_list rest;
    va_start(rest, flags);
    mode_t mode = flags & O_CREAT ? va_arg(rest, mode_t) : 0;
    va_end(rest);
    return is_to_fail("open", flags & O_CREAT ? (int)mode : -1) ? -1 : (int)syscall(SYS_open, path, flags, mode);
}

/* It makes several calls of the system, of which each may fail. */
char *realpath(const char *restrict path, char *restrict resolved) {
    if (is_to_fail("realpath", -1)) return NULL;
    char *(*real)(const char *, char *) = (char *(*)(const char *, char *))dlsym(RTLD_NEXT, "realpath");
    return real(path, resolved);
}
