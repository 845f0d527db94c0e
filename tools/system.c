/* SPDX-License-Identifier: MIT OR Apache-2.0 */
/*
 * Where the program nbt starts, and what it asks of the system by functions in C that the Rattle kit has for x86-64 alone. The kit declares
 * them, and says what it takes of them as true, in src/c.rt of its library os; those by which memory is asked for are in heap.c. Built by
 * tools/program, for little end first and the numbers that Linux has on most processors; it needs no header.
 */
typedef __INT64_TYPE__ number;
typedef __UINT64_TYPE__ count;
typedef __SIZE_TYPE__ size;

enum { FIONBIO = 0x5421, O_CLOEXEC = 0x80000, MOST_EVENTS = 1 << 16 };

/* Numbers that Linux has otherwise on ARM. */
#if defined(__aarch64__) || defined(__arm__)
enum { O_DIRECTORY = 0x4000, O_NOFOLLOW = 0x8000 };
#else
enum { O_DIRECTORY = 0x10000, O_NOFOLLOW = 0x20000 };
#endif

/* What epoll tells of a descriptor. Only on x86-64 has C's own no gap. */
struct event {
    unsigned events;
    count data;
};

int main(void);
int __libc_start_main(int (*begun)(int, char **, char **), int words, char **first, void (*before)(void), void (*behind)(void),
                      void (*ended)(void), void *stack);
int *__errno_location(void);
int epoll_ctl(int epoll, int act, int file, struct event *event);
int epoll_wait(int epoll, struct event *events, int most, int timeout);
int ioctl(int file, unsigned long request, ...);
int openat(int folder, const char *path, int flags, ...);

static int words;
static char **first;
static char **variables;

static int begun(int given, char **at, char **environment) {
    words = given;
    first = at;
    variables = environment;
    return main();
}

/* The system leaves on the stack how many words there are, and then where each is. */
__attribute__((used, noreturn)) static void start(long *stack, void (*ended)(void)) {
    __libc_start_main(begun, (int)stack[0], (char **)(stack + 1), 0, 0, ended, stack);
    __builtin_trap();
}

#if defined(__aarch64__)
__asm__(".globl _start\n_start:\n\tmov x29, #0\n\tmov x30, #0\n\tmov x1, x0\n\tmov x0, sp\n\tb start\n");
#elif defined(__arm__)
__asm__(".globl _start\n_start:\n\tmov fp, #0\n\tmov lr, #0\n\tmov r1, r0\n\tmov r0, sp\n\tb start\n");
#elif defined(__riscv)
__asm__(".globl _start\n_start:\n\tmv a1, a0\n\tmv a0, sp\n\tandi sp, sp, -16\n\ttail start\n");
#else
#error "where a program starts on this processor isn't known"
#endif

count rattle_arg_count(void) {
    return (count)words;
}

/* Puts a word into the octets at `to`, and returns how many it has: -1 where there is no such word, and -2 where they are too few. */
static number put(const char *word, char *to, count room) {
    count at = 0;
    if (word == 0) {
        return -1;
    }
    for (; word[at] != 0; at++) {
        if (at == room) {
            return -2;
        }
        to[at] = word[at];
    }
    return (number)at;
}

number rattle_arg(count place, char *to, count room) {
    return put(place < (count)words ? first[place] : 0, to, room);
}

/* The variable of the environment at this place, with its name. */
number rattle_env_at(count place, char *to, count room) {
    count at = 0;
    while (at < place && variables[at] != 0) {
        at++;
    }
    return put(variables[at], to, room);
}

/* What the variable of this name is. */
number rattle_env(const char *name, char *to, count room) {
    for (count place = 0; variables[place] != 0; place++) {
        const char *variable = variables[place];
        count at = 0;
        while (name[at] != 0 && variable[at] == name[at]) {
            at++;
        }
        if (name[at] == 0 && variable[at] == '=') {
            return put(variable + at + 1, to, room);
        }
    }
    return -1;
}

int rattle_errno(void) {
    return *__errno_location();
}

void rattle_set_errno(int error) {
    *__errno_location() = error;
}

int rattle_set_nonblocking(int file, _Bool on) {
    int value = on;
    return ioctl(file, FIONBIO, &value);
}

int rattle_open_dir_at(int folder, const char *path) {
    return openat(folder, path, O_DIRECTORY | O_NOFOLLOW | O_CLOEXEC);
}

int rattle_epoll_ctl(int epoll, int act, int file, unsigned events, count data) {
    struct event event = {events, data};
    return epoll_ctl(epoll, act, file, &event);
}

number rattle_epoll_wait(int epoll, struct event *events, count most, int timeout) {
    return epoll_wait(epoll, events, most < MOST_EVENTS ? (int)most : MOST_EVENTS, timeout);
}

#ifdef __SIZEOF_INT128__
typedef unsigned __int128 wide;

/* How many times one number of 128 bits has another in it: clang calls this where the processor has no such division. */
wide __udivti3(wide all, wide by) {
    wide times = 0, rest = 0;
    int bit = 128;
    if ((all | by) >> 64 == 0) {
        return (count)all / (count)by;
    }
    while (bit-- > 0) {
        const int is_more = (int)(rest >> 127);
        rest = rest << 1 | (all >> bit & 1);
        if (is_more || rest >= by) {
            rest -= by;
            times |= (wide)1 << bit;
        }
    }
    return times;
}
#else
/* The C library's calls with sizes, places, times and pointers of 64 bits, as the module has them. tools/retarget gives them these names. */
struct moment {
    number seconds, parts;
};
long write(int file, const void *from, size most);
long read(int file, void *to, size most);
long send(int file, const void *from, size most, int flags);
long recv(int file, void *to, size most, int flags);
long sendto(int file, const void *from, size most, int flags, const void *addr, unsigned length);
long recvfrom(int file, void *to, size most, int flags, void *addr, unsigned *length);
long getdents64(int file, void *to, size most);
int __xpg_strerror_r(int error, char *to, size most);
number lseek64(int file, number place, int from);
int ftruncate64(int file, number length);
int __clock_gettime64(int clock, struct moment *now);
int __nanosleep64(const struct moment *asked, struct moment *left);
int setsockopt(int file, int level, int name, const void *value, unsigned length);
long __sysv_signal(int signal, long act);

number nbt64_write(int file, const void *from, count most) { return write(file, from, (size)most); }
number nbt64_read(int file, void *to, count most) { return read(file, to, (size)most); }
number nbt64_send(int file, const void *from, count most, int flags) { return send(file, from, (size)most, flags); }
number nbt64_recv(int file, void *to, count most, int flags) { return recv(file, to, (size)most, flags); }
number nbt64_sendto(int file, const void *from, count most, int flags, const void *addr, unsigned length) {
    return sendto(file, from, (size)most, flags, addr, length);
}
number nbt64_recvfrom(int file, void *to, count most, int flags, void *addr, unsigned *length) {
    return recvfrom(file, to, (size)most, flags, addr, length);
}
number nbt64_getdents64(int file, void *to, count most) { return getdents64(file, to, (size)most); }
int nbt64___xpg_strerror_r(int error, char *to, count most) { return __xpg_strerror_r(error, to, (size)most); }
number nbt64_lseek(int file, number place, int from) { return lseek64(file, place, from); }
int nbt64_ftruncate(int file, number length) { return ftruncate64(file, length); }
number nbt64___sysv_signal(int signal, number act) { return __sysv_signal(signal, (long)act); }

/* A limit of time is seconds and microseconds, each of 64 bits in the module, and of 32 here. */
enum { SOL_SOCKET = 1, SO_RCVTIMEO = 20, SO_SNDTIMEO = 21 };
int nbt64_setsockopt(int file, int level, int name, const void *value, unsigned length) {
    if (level == SOL_SOCKET && (name == SO_RCVTIMEO || name == SO_SNDTIMEO) && length == 2 * sizeof(number)) {
        const int limit[2] = {((const int *)value)[0], ((const int *)value)[2]};
        return setsockopt(file, level, name, limit, sizeof limit);
    }
    return setsockopt(file, level, name, value, length);
}

/* The C library fills the first half of the place of a time's parts. */
int nbt64_clock_gettime(int clock, struct moment *now) {
    const int result = __clock_gettime64(clock, now);
    now->parts = (int)now->parts;
    return result;
}

int nbt64_nanosleep(const struct moment *asked, struct moment *left) {
    const int result = __nanosleep64(asked, left);
    left->parts = (int)left->parts;
    return result;
}
#endif
