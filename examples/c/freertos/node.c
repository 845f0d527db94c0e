/* SPDX-License-Identifier: MIT OR Apache-2.0 */
/*
 * The node of lwip_node.c under FreeRTOS with lwIP, which has a thread of its own there. UNTRIED: it was compiled with lwIP's headers, and
 * run on no device. A project compiles it in place of lwip_node.c, with include/ among its headers, and links libnbt.a for its processor.
 *
 * nbt_begin is called once, by the project's task, when its network has its address; nbt_end before it goes down. Both hand on to lwIP's
 * thread, where the node is called and nowhere else: so no call meets another. That thread's stack, TCPIP_THREAD_STACKSIZE, has to have
 * room for what docs/C.md says that a node's calls take, beside lwIP's own.
 */
#define LWIP_NODE_BOARD
#include "../lwip_node.c"

#include <lwip/tcpip.h>

/* A random number, as the device's generator has it: lwIP's port defines LWIP_RAND. */
static uint16_t first_id(void) {
    return (uint16_t)LWIP_RAND();
}

static volatile int is_over;

static void end(void) {
    is_over = 1;
}

static void begin_in_thread(void *unused) {
    (void)unused;
    begin();
}

/* The name's sixteen octets, as "FILER          " and 0x20, the addresses as numbers, and the server's longest lease in seconds. Returns
 * false where the name is none, or lwIP has no room for the message. */
bool nbt_begin(const uint8_t octets[16], uint32_t own_ip, uint32_t server_ip, uint32_t longest) {
    own.ip = own_ip;
    server.ip = server_ip;
    own.port = server.port = NAME_PORT;
    limits.longest = longest;
    return nbt_name_make(octets, (const uint8_t *)"", 0, &name) == NBT_DONE && tcpip_callback(begin_in_thread, 0) == ERR_OK;
}

/* Releases the name. nbt_is_over returns true once that is confirmed, or given up after some 15 seconds. */
void nbt_end(void) {
    tcpip_callback(release, 0);
}

bool nbt_is_over(void) {
    return is_over != 0;
}
