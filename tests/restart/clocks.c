/* Clocks, a boot and a lock as a script has them, for a program that this is loaded into before libc (LD_PRELOAD). The machine's own
 * clocks stay as they are.
 *
 * CLOCKS names a file of six numbers, of eight octets each, which the script may change while the program runs: how far the steady
 * clocks (monotonic, raw, and that of the time since boot) are ahead of the machine's, in milliseconds; how far the time of day is;
 * before which reading of a clock from now on the program stalls, 1 for the next one; for how many milliseconds; by how many the
 * next lock is late; and for how many each sync of a file's octets lasts. A stall and a late lock come once. BOOT_ID names a file that is
 * read in the place of the boot's id.
 */
#include "../lib/before_libc.h"

#include <sys/file.h>
#include <sys/mman.h>
#include <sys/syscall.h>

static const char BOOT[] = "/proc/sys/kernel/random/boot_id";

enum { STEADY, DAY, READING, STALL, LATE, SYNC, COUNT };

static volatile int64_t *numbers;

/* Without the file the program doesn't start: it would be tried by the machine's own clocks. */
__attribute__((constructor)) static void begin(void) {
    const char *path = getenv("CLOCKS");
    int fd = path ? syscall(SYS_openat, AT_FDCWD, path, O_RDWR | O_CLOEXEC) : -1;
    void *shared = mmap(NULL, COUNT * sizeof *numbers, PROT_READ | PROT_WRITE, MAP_SHARED, fd, 0);
    if (shared == MAP_FAILED)
        _exit(99);
    syscall(SYS_close, fd);
    numbers = shared;
}

static void wait_for(int64_t ms) {
    struct timespec rest = {.tv_sec = ms / 1000, .tv_nsec = ms % 1000 * 1000000};
    while (nanosleep(&rest, &rest) && errno == EINTR)
        ;
}

/* Takes one from a number. Whether that was the last. */
static int is_last(int which) {
    return numbers[which] && --numbers[which] == 0;
}

static void add(struct timespec *time, int64_t ms) {
    int64_t all = time->tv_nsec + (ms % 1000 + 1000) % 1000 * 1000000;
    time->tv_sec += (ms - (ms % 1000 + 1000) % 1000) / 1000 + all / 1000000000;
    time->tv_nsec = all % 1000000000;
}

int clock_gettime(clockid_t which, struct timespec *time) {
    int is_day = which == CLOCK_REALTIME || which == CLOCK_REALTIME_COARSE;
    int is_steady = which == CLOCK_MONOTONIC || which == CLOCK_MONOTONIC_RAW || which == CLOCK_MONOTONIC_COARSE || which == CLOCK_BOOTTIME;
    if ((is_day || is_steady) && is_last(READING))
        wait_for(numbers[STALL]);
    int result = REAL(clock_gettime)(which, time);
    if (result == 0 && (is_day || is_steady))
        add(time, numbers[is_day ? DAY : STEADY]);
    return result;
}

int flock(int fd, int how) {
    int64_t late = numbers[LATE];
    numbers[LATE] = 0;
    wait_for(late);
    return REAL(flock)(fd, how);
}

int fdatasync(int fd) {
    wait_for(numbers[SYNC]);
    return REAL(fdatasync)(fd);
}

int open(const char *path, int flags, ...) {
    const char *id = getenv("BOOT_ID");
    return REAL(open)(id && strcmp(path, BOOT) == 0 ? id : path, flags, MODE_BEHIND(flags));
}
