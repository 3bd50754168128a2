/* Makes a call on files fail, or ends the program at it, of the program that it is loaded into by LD_PRELOAD. Calls count
   from 1 in the order in which they are made. FAULT_AT is the number of the call and FAULT_HOW what becomes of it: the number
   of an error, as 5 (EIO); `half`, a read or a write of half of the bytes that it would take; `after`, EIO though it was done; `kill`, the program
   ends before it; `killed`, after it; `wait`, it waits while the file that FAULT_WAIT names is there. With FAULT_ON set the error
   is that of all later calls too, but for close. With FAULT_LINES set a read of standard input takes one line at most. FAULT_LOG names the file that gets a line for each call: what it is, and of what.
   FAULT_TRACE names the file that gets an entry for each call that has changed or opened something, after it was made, and for each sync that was made to fail (`lost`): what it is,
   the descriptor or 0, the place in the file, how many bytes follow, a line feed, these bytes, and a line feed. They are
   what was written, or a path, or for a rename two paths with a line feed between them. */
#define _GNU_SOURCE
#include <errno.h>
#include <fcntl.h>
#include <signal.h>
#include <stdarg.h>
#include <stdatomic.h>
#include <stdio.h>
#include <stdlib.h>
#include <string.h>
#include <sys/stat.h>
#include <sys/syscall.h>
#include <sys/uio.h>
#include <unistd.h>

static atomic_long made;
static const char *at, *how, *on, *lines;
static int log_file = -1, trace_file = -1;

static int begun(const char *variable) {
    const char *name = getenv(variable);
    return name ? syscall(SYS_openat, AT_FDCWD, name, O_WRONLY | O_CREAT | O_APPEND | O_CLOEXEC, 0600) : -1;
}

__attribute__((constructor)) static void begin(void) {
    at = getenv("FAULT_AT"), how = getenv("FAULT_HOW"), on = getenv("FAULT_ON"), lines = getenv("FAULT_LINES");
    log_file = begun("FAULT_LOG"), trace_file = begun("FAULT_TRACE");
}

static int is(const char *word) { return how && strcmp(how, word) == 0; }

static void die(void) { syscall(SYS_kill, getpid(), SIGKILL); }

static void note(const char *what, const char *name, long descriptor) {
    char line[4200];
    int length = name ? snprintf(line, sizeof line, "%s %s\n", what, name) : snprintf(line, sizeof line, "%s %ld\n", what, descriptor);
    if (log_file >= 0)
        syscall(SYS_write, log_file, line, length);
}

/* An entry of the trace, of a call that was made. The descriptors of standard streams are no files of the folder. */
static void trace(const char *what, const char *name, long number, long a, long b, long d, long answer) {
    char head[100];
    const char *bytes = name ? name : "", *other = "";
    size_t length = strlen(bytes);
    long file = number == SYS_openat ? answer : name ? 0 : a, place = 0;
    if (number == SYS_write)
        bytes = (const char *)b, length = answer, place = syscall(SYS_lseek, a, 0, SEEK_CUR) - answer;
    if (number == SYS_pwrite64)
        bytes = (const char *)b, length = answer, place = d;
    if (number == SYS_ftruncate)
        place = b;
    if (number == SYS_rename)
        bytes = (const char *)a, other = name, length = strlen(bytes);
    size_t more = *other ? 1 + strlen(other) : 0;
    int headed = snprintf(head, sizeof head, "%s %ld %ld %zu\n", what, file, place, length + more);
    struct iovec parts[] = {{head, headed}, {(void *)bytes, length}, {"\n", *other ? 1 : 0}, {(void *)other, strlen(other)}, {"\n", 1}};
    syscall(SYS_writev, trace_file, parts, 5);
}

/* How many bytes a read or a write takes at most: of a file no more than it has. */
static long within(long number, long file, long count) {
    long place = number == SYS_read ? syscall(SYS_lseek, file, 0, SEEK_CUR) : -1;
    if (place < 0)
        return count;
    long left = syscall(SYS_lseek, file, 0, SEEK_END) - place;
    syscall(SYS_lseek, file, place, SEEK_SET);
    return left > 0 && left < count ? left : count;
}

/* A read that takes nothing after the end of a line. */
static long read_line(long file, char *bytes, long count) {
    long taken = 0, one = 1;
    while (taken < count && (one = syscall(SYS_read, file, bytes + taken, 1)) == 1)
        if (bytes[taken++] == '\n')
            break;
    return one < 0 && taken == 0 ? one : taken;
}

/* Makes the call, or what is to become of it. The third argument of a read or a write is how many bytes. */
static long call(const char *what, const char *name, long number, long a, long b, long c, long d, long e) {
    long n = atomic_fetch_add(&made, 1) + 1, first = at ? atol(at) : 0;
    int due = n == first, error = how ? atoi(how) : 0, closes = number == SYS_close;
    note(what, name, a);
    if (due && is("kill"))
        die();
    while (due && is("wait") && syscall(SYS_access, getenv("FAULT_WAIT"), F_OK) == 0)
        usleep(1000);
    if (error && !closes && (due || (on && first && n > first))) {
        if (trace_file >= 0 && (number == SYS_fsync || number == SYS_fdatasync))
            trace("lost", name, number, a, b, d, 0);
        return errno = error, -1;
    }
    if (due && is("half") && (number == SYS_read || number == SYS_write || number == SYS_pwrite64) && within(number, a, c) > 1)
        c = within(number, a, c) / 2;
    long answer = lines && number == SYS_read && a == 0 ? read_line(a, (char *)b, c) : syscall(number, a, b, c, d, e);
    if (trace_file >= 0 && answer >= 0 && number != SYS_read && number != SYS_getdents64 && number != SYS_statx)
        trace(what, name, number, a, b, d, answer);
    if (due && is("killed"))
        die();
    if (due && (is("after") || (error && closes)))
        return errno = error ? error : EIO, -1;
    return answer;
}

static int open_at(int folder, const char *path, int flags, mode_t mode) {
    return call(flags & O_CREAT ? "create" : "open", path, SYS_openat, folder, (long)path, flags, mode, 0);
}

#define MODE(flags) va_list rest; va_start(rest, flags); mode_t mode = flags & O_CREAT ? va_arg(rest, mode_t) : 0; va_end(rest)
int open(const char *path, int flags, ...) { MODE(flags); return open_at(AT_FDCWD, path, flags, mode); }
int open64(const char *path, int flags, ...) { MODE(flags); return open_at(AT_FDCWD, path, flags, mode); }
int openat(int folder, const char *path, int flags, ...) { MODE(flags); return open_at(folder, path, flags, mode); }
int openat64(int folder, const char *path, int flags, ...) { MODE(flags); return open_at(folder, path, flags, mode); }
ssize_t read(int f, void *bytes, size_t n) { return call("read", NULL, SYS_read, f, (long)bytes, n, 0, 0); }
ssize_t write(int f, const void *bytes, size_t n) { return call("write", NULL, SYS_write, f, (long)bytes, n, 0, 0); }
ssize_t pwrite(int f, const void *bytes, size_t n, off_t place) { return call("write", NULL, SYS_pwrite64, f, (long)bytes, n, place, 0); }
ssize_t pwrite64(int f, const void *bytes, size_t n, off64_t place) { return call("write", NULL, SYS_pwrite64, f, (long)bytes, n, place, 0); }
int close(int f) { return call("close", NULL, SYS_close, f, 0, 0, 0, 0); }
int fsync(int f) { return call("sync", NULL, SYS_fsync, f, 0, 0, 0, 0); }
int fdatasync(int f) { return call("sync", NULL, SYS_fdatasync, f, 0, 0, 0, 0); }
int ftruncate(int f, off_t length) { return call("cut", NULL, SYS_ftruncate, f, length, 0, 0, 0); }
int fchmod(int f, mode_t mode) { return call("mode", NULL, SYS_fchmod, f, mode, 0, 0, 0); }
int lchown(const char *path, uid_t owner, gid_t group) { return call("owner", path, SYS_lchown, (long)path, owner, group, 0, 0); }
int fchownat(int f, const char *path, uid_t owner, gid_t group, int flags) { return call("owner", path, SYS_fchownat, f, (long)path, owner, group, flags); }
int flock(int f, int how_) { return call("lock", NULL, SYS_flock, f, how_, 0, 0, 0); }
int rename(const char *from, const char *to) { return call("rename", to, SYS_rename, (long)from, (long)to, 0, 0, 0); }
int unlink(const char *path) { return call("remove", path, SYS_unlink, (long)path, 0, 0, 0, 0); }
ssize_t getdents64(int f, void *names, size_t n) { return call("list", NULL, SYS_getdents64, f, (long)names, n, 0, 0); }
int statx(int f, const char *path, int flags, unsigned mask, struct statx *found) {
    return call("look", path, SYS_statx, f, (long)path, flags, mask, (long)found);
}
