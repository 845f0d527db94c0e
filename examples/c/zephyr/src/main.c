/* SPDX-License-Identifier: MIT OR Apache-2.0 */
/*
 * A node under Zephyr: registers a name at a name server, holds it, and answers queries and status requests, as node.c does over sockets.
 * UNTRIED: it was compiled with headers that stand in for Zephyr's, and run on no device. CMakeLists.txt says how it is built.
 */
#include <nbt.h>
#include <string.h>
#include <zephyr/kernel.h>
#include <zephyr/net/socket.h>
#include <zephyr/random/random.h>

#define NAME "FILER          " /* fifteen characters, and 0x20 as the last octet: a file server's name */
#define OWN 0x0A000005         /* 10.0.0.5, as prj.conf has it */
#define SERVER 0x0A000001
#define NAME_PORT 137

/* In milliseconds: */
#define SOON 1000     /* to the next look, where nothing is due */
#define REFUSED 10000 /* from a refusal to the next request */

static const struct nbt_config limits = {1000, 300, 4096};
static const struct nbt_addr own = {OWN, NAME_PORT}, server = {SERVER, NAME_PORT};
static union nbt_node_memory memory;
static struct nbt_node node = {&memory};
static struct nbt_name name;
static uint64_t ask_from; /* when a name that was refused may be requested again */
static int port;

static uint64_t milliseconds(void) {
    return (uint64_t)k_uptime_get();
}

static void send_to(struct nbt_addr to, const uint8_t *octets, size_t size) {
    struct sockaddr_in end;
    memset(&end, 0, sizeof end);
    end.sin_family = AF_INET;
    end.sin_port = htons(to.port);
    end.sin_addr.s_addr = htonl(to.ip);
    (void)zsock_sendto(port, octets, size, 0, (struct sockaddr *)&end, sizeof end);
}

/* Sends what is due, and requests the name where it is idle. A sending that fails counts as a loss on the way. */
static void look(uint64_t now) {
    static uint8_t out[NBT_PACKET];
    struct nbt_addr to;
    uint8_t state;
    size_t size;
    while (nbt_node_poll(&node, now, &to, out, &size) == NBT_DONE && size != 0)
        send_to(to, out, size);
    if (nbt_node_state(&node, now, &name, &state) == NBT_DONE && state == NBT_STATE_IDLE && now >= ask_from
        && nbt_node_ask(&node, now, &name, NBT_UNIQUE, 0, out, &size) == NBT_DONE)
        send_to(server, out, size);
}

/* Handles one datagram. */
static void hear(void) {
    static uint8_t octets[NBT_PACKET], lent[1], out[NBT_PACKET];
    struct sockaddr_in end;
    socklen_t end_size = sizeof end;
    struct nbt_event event;
    struct nbt_addr from;
    size_t size;
    const ssize_t count = zsock_recvfrom(port, octets, sizeof octets, 0, (struct sockaddr *)&end, &end_size);
    const uint64_t now = milliseconds();
    if (count < 0)
        return;
    from.ip = ntohl(end.sin_addr.s_addr);
    from.port = ntohs(end.sin_port);
    if (nbt_node_on_datagram(&node, now, from, octets, (size_t)count, &event, lent, sizeof lent, out, &size) != NBT_DONE)
        return;
    if (size != 0)
        send_to(from, out, size);
    if (event.kind == NBT_EVENT_REFUSED)
        ask_from = now + REFUSED;
    if (event.kind == NBT_EVENT_GRANTED || event.kind == NBT_EVENT_REFUSED || event.kind == NBT_EVENT_LOST)
        printk("event %u, RCODE %u, for %u s\n", event.kind, event.rcode, (unsigned)event.seconds);
}

/* Waits for a datagram until something is due, a second at most, and handles it. */
static void wait_and_hear(uint64_t now) {
    struct zsock_pollfd waits = {.fd = port, .events = ZSOCK_POLLIN};
    uint64_t due, left = SOON;
    if (nbt_node_next_due(&node, &due) == NBT_DONE && due < now + SOON)
        left = due > now ? due - now : 0;
    if (zsock_poll(&waits, 1, (int)left) == 1)
        hear();
}

int main(void) {
    struct sockaddr_in end;
    memset(&end, 0, sizeof end);
    end.sin_family = AF_INET;
    end.sin_port = htons(NAME_PORT);
    port = zsock_socket(AF_INET, SOCK_DGRAM, IPPROTO_UDP);
    if (port < 0 || zsock_bind(port, (struct sockaddr *)&end, sizeof end) != 0
        || nbt_name_make((const uint8_t *)NAME, (const uint8_t *)"", 0, &name) != NBT_DONE
        || nbt_node_start_from(&node, own, server, limits, milliseconds(), (uint16_t)sys_rand32_get()) != NBT_DONE)
        return 1;
    for (;;) {
        const uint64_t now = milliseconds();
        look(now);
        wait_and_hear(now);
    }
}
