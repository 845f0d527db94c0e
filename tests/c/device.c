/* SPDX-License-Identifier: MIT OR Apache-2.0 */
/*
 * A device that holds a name, with nothing around the library: what `size` says of it, linked with no C library, is what a node takes of flash
 * and of RAM. It isn't run: its clock and its network are registers.
 */
#include <nbt.h>

extern volatile uint32_t wire[]; /* a register for each: the clock's halves, the size and the octets of what came, and of what goes */
static union nbt_node_memory memory;
static struct nbt_node node = {&memory};
static uint8_t in[NBT_PACKET], out[NBT_PACKET];
static const struct nbt_addr OWN = {0x0A000005, 137}, SERVER = {0x0A000001, 137};
static const struct nbt_config CONFIG = {1000, 3600, 4096};

static uint64_t now(void) { return (uint64_t)wire[0] << 32 | wire[1]; }

static void send(size_t size) {
    for (size_t i = 0; i < size; i++)
        wire[2] = out[i];
}

void device(void) {
    struct nbt_name name;
    struct nbt_event event;
    struct nbt_addr to;
    size_t size, place;
    uint8_t lent[6], state;
    uint64_t due;
    if (nbt_name_read(false, "FILER", 5, "", 0, &name, &place) || nbt_node_start_from(&node, OWN, SERVER, CONFIG, now(), (uint16_t)wire[3]))
        return;
    for (; wire[4] == 0;) {
        nbt_node_state(&node, now(), &name, &state);
        if (state == NBT_STATE_IDLE && nbt_node_ask(&node, now(), &name, NBT_UNIQUE, 0, out, &size) == NBT_DONE)
            send(size);
        for (size = 0; size < NBT_PACKET && wire[5] != 0; size++)
            in[size] = (uint8_t)wire[6];
        if (size > 0 && nbt_node_on_datagram(&node, now(), SERVER, in, size, &event, lent, sizeof lent, out, &size) == NBT_DONE)
            send(size);
        if (nbt_node_next_due(&node, &due) == NBT_DONE && due <= now() && nbt_node_poll(&node, now(), &to, out, &size) == NBT_DONE)
            send(size);
    }
    if (nbt_node_release(&node, now(), &name, out, &size) == NBT_DONE)
        send(size);
}

/* What the library and the compiler take from a C library, by octets. */
#define UNCHANGED __attribute__((used, optimize("no-tree-loop-distribute-patterns")))
UNCHANGED void *memmove(void *to, const void *from, size_t size) {
    uint8_t *there = (uint8_t *)to;
    const uint8_t *here = (const uint8_t *)from;
    if (there < here)
        for (size_t i = 0; i < size; i++)
            there[i] = here[i];
    else
        while (size-- > 0)
            there[size] = here[size];
    return to;
}
UNCHANGED void *memcpy(void *to, const void *from, size_t size) { return memmove(to, from, size); }
UNCHANGED void *memset(void *to, int octet, size_t size) {
    for (size_t i = 0; i < size; i++)
        ((uint8_t *)to)[i] = (uint8_t)octet;
    return to;
}
#ifdef __ARM_EABI__
#define OF_ALIGNED(by) \
    UNCHANGED void __aeabi_memcpy##by(void *to, const void *from, size_t size) { memmove(to, from, size); } \
    UNCHANGED void __aeabi_memmove##by(void *to, const void *from, size_t size) { memmove(to, from, size); } \
    UNCHANGED void __aeabi_memset##by(void *to, size_t size, int octet) { memset(to, octet, size); } \
    UNCHANGED void __aeabi_memclr##by(void *to, size_t size) { memset(to, 0, size); }
OF_ALIGNED()
OF_ALIGNED(4)
OF_ALIGNED(8)
UNCHANGED int raise(int signal) { return signal; } /* for a division by 0 on Linux */
#endif
