/* For a library that is loaded into a program before libc (LD_PRELOAD), some of whose functions stand in the place of libc's. */
#define _GNU_SOURCE
#include <dlfcn.h>
#include <errno.h>
#include <fcntl.h>
#include <limits.h>
#include <stdarg.h>
#include <stdint.h>
#include <stdio.h>
#include <stdlib.h>
#include <string.h>
#include <time.h>
#include <unistd.h>

/* The function of that name in libc. */
#define REAL(name) ((__typeof__(&name))dlsym(RTLD_NEXT, #name))

/* The mode of a file that `open` makes, which it is given behind the flags. */
#define MODE_BEHIND(flags) \
    ({ \
        va_list more; \
        va_start(more, flags); \
        mode_t mode_of_it = flags & O_CREAT ? va_arg(more, mode_t) : 0; \
        va_end(more); \
        mode_of_it; \
    })
