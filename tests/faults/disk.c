/* A disk that loses what wasn't synced, for a program that it is loaded into before libc (LD_PRELOAD).
 *
 * What the program writes to files in the folder DISK_FOLDER stays in memory until it syncs the file, and a renaming until it syncs
 * the folder; now and then some of it is written early, up to any octet, as a system does. If the program is killed, the rest is gone,
 * as where a machine loses its power. A file that is read, sought or truncated, or opened once more, is written first, which a system
 * may do at any time too. Where DISK_LIES is set a sync does nothing, so that a run without any shows what is lost then.
 */
#include "../lib/before_libc.h"

#include <sys/stat.h>

enum { MOST = 1024, EARLY = 8 }; /* the greatest descriptor that is watched; of so many writes one is followed by an early one */

/* What waits for a file that is open, and whether the descriptor is one of a folder. */
static struct file {
    int is_watched, is_folder;
    char *octets;
    size_t count;
} files[MOST];

/* A renaming that waits for the folder's sync. */
static char renamed_from[PATH_MAX], renamed_to[PATH_MAX];

static int is_ours(const char *path) {
    const char *folder = getenv("DISK_FOLDER");
    return folder && strncmp(path, folder, strlen(folder)) == 0;
}

static struct file *watched(int fd) {
    return fd >= 0 && fd < MOST && files[fd].is_watched ? &files[fd] : NULL;
}

/* Writes the first `count` octets that wait. */
static void put(int fd, struct file *file, size_t count) {
    for (size_t done = 0; done < count;) {
        ssize_t wrote = REAL(write)(fd, file->octets + done, count - done);
        if (wrote <= 0)
            _exit(99);
        done += wrote;
    }
    memmove(file->octets, file->octets + count, file->count - count);
    file->count -= count;
}

static void put_all(int fd) {
    struct file *file = watched(fd);
    if (file)
        put(fd, file, file->count);
}

static void put_everything(void) {
    for (int fd = 0; fd < MOST; fd++)
        put_all(fd);
}

static void put_renaming(void) {
    if (*renamed_from)
        REAL(rename)(renamed_from, renamed_to);
    *renamed_from = 0;
}

static unsigned drawn(unsigned below) {
    static unsigned seed;
    if (!seed)
        seed = getpid() ^ time(NULL) ^ clock();
    return rand_r(&seed) % below;
}

int open(const char *path, int flags, ...) {
    struct stat is;
    int ours = is_ours(path);
    if (ours && !(flags & O_DIRECTORY) && !(stat(path, &is) == 0 && S_ISDIR(is.st_mode))) {
        put_renaming();
        put_everything();
    }
    int fd = REAL(open)(path, flags, MODE_BEHIND(flags));
    if (ours && fd >= 0 && fd < MOST && fstat(fd, &is) == 0)
        files[fd] = (struct file){.is_watched = (flags & O_ACCMODE) != O_RDONLY, .is_folder = S_ISDIR(is.st_mode)};
    return fd;
}

ssize_t write(int fd, const void *octets, size_t count) {
    struct file *file = watched(fd);
    if (!file)
        return REAL(write)(fd, octets, count);
    char *more = realloc(file->octets, file->count + count);
    if (!more)
        _exit(99);
    memcpy(more + file->count, octets, count);
    file->octets = more;
    file->count += count;
    if (drawn(EARLY) == 0)
        put(fd, file, drawn(file->count + 1));
    return count;
}

int fsync(int fd) {
    if (getenv("DISK_LIES"))
        return 0;
    put_all(fd);
    if (fd >= 0 && fd < MOST && files[fd].is_folder)
        put_renaming();
    return 0;
}

/* The same calls by other names. */
ssize_t __write(int fd, const void *octets, size_t count) __attribute__((alias("write")));
int fdatasync(int fd) __attribute__((alias("fsync")));

int rename(const char *from, const char *to) {
    if (!is_ours(to))
        return REAL(rename)(from, to);
    put_renaming();
    snprintf(renamed_from, sizeof renamed_from, "%s", from);
    snprintf(renamed_to, sizeof renamed_to, "%s", to);
    if (drawn(EARLY) == 0)
        put_renaming();
    return 0;
}

/* A call that needs all that was written to the file. */
#define AFTER_ALL(type, name, parameters, arguments) \
    type name parameters { \
        put_all(fd); \
        return REAL(name) arguments; \
    }
AFTER_ALL(off_t, lseek, (int fd, off_t offset, int whence), (fd, offset, whence))
AFTER_ALL(ssize_t, read, (int fd, void *octets, size_t count), (fd, octets, count))
AFTER_ALL(int, ftruncate, (int fd, off_t length), (fd, length))

int close(int fd) {
    struct file *file = watched(fd);
    if (file && file->count) {
        /* It waits still, behind a descriptor that the program doesn't know. */
        int hidden = fcntl(fd, F_DUPFD, MOST / 2);
        if (hidden < 0 || hidden >= MOST)
            put_all(fd);
        else
            files[hidden] = *file;
    } else if (file) {
        free(file->octets);
    }
    if (fd >= 0 && fd < MOST)
        files[fd] = (struct file){0};
    return REAL(close)(fd);
}

/* A program that ends by itself loses nothing: the system goes on. */
__attribute__((destructor)) static void end(void) {
    put_everything();
    put_renaming();
}
