/* Starts a listener in a thread whose stack has 32 KB, as a device's may: ends with 0 where it is started. */
#include <nbt.h>
#include <pthread.h>

static union nbt_listener_memory memory;
static struct nbt_listener listener = {&memory};

static void *start(void *unused) {
    (void)unused;
    return nbt_listener_start(&listener, 8) == NBT_DONE ? &listener : 0;
}

int main(void) {
    pthread_attr_t small;
    pthread_t thread;
    void *started = 0;
    pthread_attr_init(&small);
    return pthread_attr_setstacksize(&small, 32768) != 0 || pthread_create(&thread, &small, start, 0) != 0
        || pthread_join(thread, &started) != 0 || started != &listener;
}
