/* Makes calls for memory and calls of sockets fail. `checks/refused_memory` preloads it into programs; no program holds it.

   REFUSE_NTH=N       the Nth call for memory fails, counted from 1
   REFUSE_EVERY=N     one call for memory in N fails, by a fixed series of numbers
   REFUSE_SOCKETS=N   one recv, send, sendmsg or accept4 in N fails by EINTR, and one in N moves a single byte
   REFUSE_BYTES=N     one recv, send or sendmsg in N moves a single byte
   REFUSE_MARK=FILE   this file is made once a call has failed
   REFUSE_OFF=1       nothing fails before the signal SIGUSR1; SIGUSR2 ends it again */
#define _GNU_SOURCE
#include <dlfcn.h>
#include <errno.h>
#include <fcntl.h>
#include <signal.h>
#include <stdatomic.h>
#include <stdlib.h>
#include <sys/socket.h>
#include <unistd.h>

extern void *__libc_malloc(size_t size);
extern void *__libc_realloc(void *old, size_t size);

static long nth, every, sockets, bytes;
static const char *mark;
static atomic_int is_on;
static atomic_long calls;
static atomic_ulong series = 1;

static void set_on(int signal) { atomic_store(&is_on, signal == SIGUSR1); }

static long number(const char *name) {
    const char *text = getenv(name);
    return text ? atol(text) : 0;
}

__attribute__((constructor)) static void begin(void) {
    nth = number("REFUSE_NTH");
    every = number("REFUSE_EVERY");
    sockets = number("REFUSE_SOCKETS");
    bytes = number("REFUSE_BYTES");
    mark = getenv("REFUSE_MARK");
    signal(SIGUSR1, set_on);
    signal(SIGUSR2, set_on);
    atomic_store(&is_on, !number("REFUSE_OFF"));
}

/* One in so many, by a series that is the same in each run. */
static int is_one_in(long many) {
    unsigned long one = atomic_fetch_add(&series, 0x9e3779b97f4a7c15ul);
    one = (one ^ (one >> 30)) * 0xbf58476d1ce4e5b9ul;
    one = (one ^ (one >> 27)) * 0x94d049bb133111ebul;
    return many > 0 && (one >> 33) % (unsigned long)many == 0;
}

/* A call fails by this. */
static int fail_by(int why) {
    if (mark) {
        int file = open(mark, O_CREAT | O_WRONLY, 0600);
        if (file >= 0) close(file);
    }
    errno = why;
    return 1;
}

static int is_refused(void) {
    if (!atomic_load(&is_on)) return 0;
    if (atomic_fetch_add(&calls, 1) + 1 != nth && !is_one_in(every)) return 0;
    return fail_by(ENOMEM);
}

void *malloc(size_t size) { return is_refused() ? NULL : __libc_malloc(size); }

void *realloc(void *old, size_t size) { return is_refused() ? NULL : __libc_realloc(old, size); }

/* Whether a call of a socket is to fail. */
static int is_interrupted(void) {
    if (!atomic_load(&is_on) || !is_one_in(sockets)) return 0;
    return fail_by(EINTR);
}

/* Whether a call of a socket is to move a single byte. */
static int is_short(void) {
    return atomic_load(&is_on) && (is_one_in(sockets) || is_one_in(bytes));
}

/* How many bytes a call of a socket may move. */
static size_t room(size_t length) { return length > 1 && is_short() ? 1 : length; }

ssize_t recv(int file, void *bytes, size_t length, int flags) {
    static ssize_t (*next)(int, void *, size_t, int);
    if (!next) next = (ssize_t (*)(int, void *, size_t, int))dlsym(RTLD_NEXT, "recv");
    return is_interrupted() ? -1 : next(file, bytes, room(length), flags);
}

ssize_t send(int file, const void *bytes, size_t length, int flags) {
    static ssize_t (*next)(int, const void *, size_t, int);
    if (!next) next = (ssize_t (*)(int, const void *, size_t, int))dlsym(RTLD_NEXT, "send");
    return is_interrupted() ? -1 : next(file, bytes, room(length), flags);
}

ssize_t sendmsg(int file, const struct msghdr *message, int flags) {
    static ssize_t (*next)(int, const struct msghdr *, int);
    if (!next) next = (ssize_t (*)(int, const struct msghdr *, int))dlsym(RTLD_NEXT, "sendmsg");
    if (is_interrupted()) return -1;
    for (size_t at = 0; at < message->msg_iovlen; at++) {
        if (message->msg_iov[at].iov_len > 0 && is_short()) {
            struct iovec one = {message->msg_iov[at].iov_base, 1};
            struct msghdr byte = *message;
            byte.msg_iov = &one;
            byte.msg_iovlen = 1;
            return next(file, &byte, flags);
        }
        if (message->msg_iov[at].iov_len > 0) break;
    }
    return next(file, message, flags);
}

int accept4(int file, struct sockaddr *address, socklen_t *length, int flags) {
    static int (*next)(int, struct sockaddr *, socklen_t *, int);
    if (!next) next = (int (*)(int, struct sockaddr *, socklen_t *, int))dlsym(RTLD_NEXT, "accept4");
    return is_interrupted() ? -1 : next(file, address, length, flags);
}
