/* SPDX-License-Identifier: MIT OR Apache-2.0 */
/* What lwIP wants to know of the compiler: nothing but where its complaints go. */
#include <stdio.h>
#include <stdlib.h>

#define LWIP_PLATFORM_DIAG(words) \
    do { \
        printf words; \
    } while (0)
#define LWIP_PLATFORM_ASSERT(text) printf("%s\n", text)
