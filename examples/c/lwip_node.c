/* SPDX-License-Identifier: MIT OR Apache-2.0 */
/*
 * A node over lwIP's raw UDP calls and its timers, as a device has it: registers a name at a name server, holds it, answers
 * queries and status requests, and releases it. examples/c/node.c is the same over sockets. Its memory is static, and it calls no malloc;
 * whether lwIP does, MEM_LIBC_MALLOC and MEMP_MEM_MALLOC of its options say.
 *
 * The node is called where lwIP calls the program: in lwIP's own thread, or, without a system (NO_SYS), in the main loop. So no call
 * of the library meets another, and there is no lock. What follows it is for lwIP's port to Unix, over a TAP device that is there:
 *
 *     cc -Iinclude $(pkg-config --cflags lwip) -o lwip_node examples/c/lwip_node.c libnbt.a $(pkg-config --libs lwip)
 *     PRECONFIGURED_TAPIF=tap0 ./lwip_node 'FILER#20' 10.0.0.5 255.255.255.0 10.0.0.1 [LONGEST]
 *
 * LONGEST is the server's longest lease in seconds, 3600 if it isn't given; `nbt nbns` has 300 then. With LWIP_NODE_BOARD a board stands in
 * the place of Unix: examples/c/mps2/node.c.
 */
#define _POSIX_C_SOURCE 200809L
#include <lwip/init.h>
#include <lwip/ip_addr.h>
#include <lwip/netif.h>
#include <lwip/pbuf.h>
#include <lwip/sys.h>
#include <lwip/timeouts.h>
#include <lwip/udp.h>
#include <nbt.h>
#include <netif/ethernet.h>
#include <stdio.h>
#include <stdlib.h>
#include <string.h>
#ifndef LWIP_NODE_BOARD
#include <lwip/tcpip.h>
#include <netif/tapif.h>
#include <signal.h>
#include <time.h>
#endif

#define NAME_PORT 137

/* In milliseconds: */
#define SOON 1000     /* to the next look, where nothing is due: while a name rests, or the last of three requests waits */
#define REFUSED 10000 /* from a refusal to the next request */

static struct nbt_config limits = {1000, 3600, 4096};
static union nbt_node_memory memory;
static struct nbt_node node = {&memory};
static struct nbt_addr own, server;
static struct nbt_name name;
static struct udp_pcb *port;

static uint8_t state;     /* of the name, at the last look */
static int is_unanswered; /* its last request got no reply */
static uint64_t ask_from; /* when a name that was refused may be requested again */
static int stopped;       /* no name is requested any more */
static void end(void);    /* called once all is over */

static uint16_t first_id(void);

/* lwIP's clock begins anew after 49 days, and the node's must not: a look comes within 6 days, half of the longest lease. */
static uint64_t milliseconds(void) {
    static uint64_t now;
    static u32_t last;
    u32_t count = sys_now();
    now += (u32_t)(count - last);
    last = count;
    return now;
}

static void send_to(struct nbt_addr to, const uint8_t *octets, size_t size) {
    struct pbuf *packet = pbuf_alloc(PBUF_TRANSPORT, (u16_t)size, PBUF_RAM);
    ip_addr_t end;
    if (packet == 0)
        return;
    ip_addr_set_ip4_u32_val(end, lwip_htonl(to.ip));
    pbuf_take(packet, octets, (u16_t)size);
    udp_sendto(port, packet, &end, to.port);
    pbuf_free(packet);
}

/* Requests the name, where the node allows it: it doesn't while a name rests, nor for 2 seconds from the start on. */
static void request(uint64_t now) {
    static uint8_t out[NBT_PACKET];
    size_t size;
    if (nbt_node_ask(&node, now, &name, NBT_UNIQUE, 0, out, &size) != NBT_DONE)
        return;
    printf(is_unanswered ? "no reply, requested again\n" : "requested\n");
    is_unanswered = 0;
    state = NBT_STATE_ASKING;
    send_to(server, out, size);
}

/* Says what time has ended, since the last look. */
static void tell_ended(uint64_t now) {
    uint8_t before = state;
    nbt_node_state(&node, now, &name, &state);
    if (before == NBT_STATE_HELD && state != before) {
        printf("expired, no reply came to the refreshes\n");
    } else if (before == NBT_STATE_ASKING && state != before) {
        is_unanswered = 1;
    } else if (before == NBT_STATE_RELEASING && state != before) {
        printf("no reply to the release\n");
        end();
    }
}

/* When to look again: where something is due next, or else soon. */
static uint64_t next_look(uint64_t now) {
    uint64_t due;
    if (nbt_node_next_due(&node, &due) == NBT_DONE)
        return due;
    return ask_from > now + SOON ? ask_from : now + SOON;
}

/* Sends what is due, requests the name where it may, and has lwIP call this again when something may be due. A sending that fails
 * counts as a loss on the way: the node sends it again. */
static void look(void *unused) {
    static uint8_t out[NBT_PACKET];
    struct nbt_addr to;
    size_t size;
    uint64_t now = milliseconds();
    while (nbt_node_poll(&node, now, &to, out, &size) == NBT_DONE && size != 0)
        send_to(to, out, size);
    tell_ended(now);
    if (state == NBT_STATE_IDLE && !stopped && now >= ask_from)
        request(now);
    sys_untimeout(look, unused);
    sys_timeout((u32_t)(next_look(now) - now), look, unused);
}

/* Says what a datagram was to the node. */
static void tell(const struct nbt_event *event, uint64_t now) {
    switch (event->kind) {
    case NBT_EVENT_GRANTED:
    case NBT_EVENT_RENEWED:
        printf("%s for %lu s\n", event->kind == NBT_EVENT_GRANTED ? "granted" : "renewed", (unsigned long)event->seconds);
        break;
    case NBT_EVENT_REFUSED:
        printf("refused with RCODE %d, to be requested again in %d s\n", event->rcode, REFUSED / 1000);
        ask_from = now + REFUSED;
        break;
    case NBT_EVENT_LOST:
        printf("lost, the server has taken it away with RCODE %d\n", event->rcode);
        break;
    case NBT_EVENT_FREED:
        printf("released with RCODE %d\n", event->rcode);
        end();
        break;
    default: /* a query or a status request, a request of the server's to wait, or nothing for this node */
        return;
    }
    nbt_node_state(&node, now, &name, &state);
}

/* Handles one datagram. lwIP calls this. */
static void hear(void *unused, struct udp_pcb *unused_port, struct pbuf *packet, const ip_addr_t *end, u16_t end_port) {
    static uint8_t buffer[NBT_PACKET], lent[1], out[NBT_PACKET];
    uint16_t count = packet->tot_len < sizeof buffer ? packet->tot_len : (uint16_t)sizeof buffer;
    const uint8_t *octets = (const uint8_t *)pbuf_get_contiguous(packet, buffer, sizeof buffer, count, 0);
    struct nbt_event event;
    struct nbt_addr from;
    size_t size;
    uint64_t now = milliseconds();
    (void)unused_port;
    from.ip = lwip_ntohl(ip_addr_get_ip4_u32(end));
    from.port = end_port;
    if (octets != 0 && nbt_node_on_datagram(&node, now, from, octets, count, &event, lent, sizeof lent, out, &size) == NBT_DONE) {
        if (size != 0)
            send_to(from, out, size);
        tell(&event, now);
        look(unused);
    }
    pbuf_free(packet);
}

/* Begins, once the network is up. After another address was given to it, or a sleep in which sys_now stood, a device begins anew. */
static void begin(void) {
    port = udp_new();
    if (port == 0 || udp_bind(port, IP_ADDR_ANY, NAME_PORT) != ERR_OK
        || nbt_node_start_from(&node, own, server, limits, milliseconds(), first_id()) != NBT_DONE) {
        printf("port %d can't be had\n", NAME_PORT);
        return;
    }
    udp_recv(port, hear, 0);
    look(0);
}

/* Releases the name. The node sends that three times at most, as any request, and then gives up. */
static void release(void *unused) {
    static uint8_t out[NBT_PACKET];
    size_t size;
    stopped = 1;
    if (nbt_node_release(&node, milliseconds(), &name, out, &size) != NBT_DONE) {
        end();
        return;
    }
    state = NBT_STATE_RELEASING;
    send_to(server, out, size);
    look(unused);
}

#ifndef LWIP_NODE_BOARD
/* ---- lwIP's port to Unix, with its thread or without a system */

/* The ids of this life of the node count from one that differs from start to start, so that a late reply to an earlier life is none
 * to this one. A device without a time of day takes a random number. */
static uint16_t first_id(void) {
    return (uint16_t)((uint64_t)time(0) * 1000);
}

static struct netif network;
static ip4_addr_t mask;
static sigset_t signals; /* those that end the program */

static void bring_up(netif_input_fn input) {
    ip4_addr_t address, gateway;
    ip4_addr_set_u32(&address, lwip_htonl(own.ip));
    ip4_addr_set_zero(&gateway);
    netif_set_default(netif_add(&network, &address, &mask, &gateway, 0, tapif_init, input));
    netif_set_up(&network);
    netif_set_link_up(&network);
    begin();
}

#if NO_SYS
static int is_over;

static void end(void) {
    is_over = 1;
}

static void run(void) {
    sigset_t pending;
    lwip_init();
    bring_up(ethernet_input);
    while (!is_over) {
        tapif_select(&network); /* until a frame comes or a timer runs out */
        sys_check_timeouts();
        sigpending(&pending);
        if (!stopped && (sigismember(&pending, SIGINT) || sigismember(&pending, SIGTERM)))
            release(0);
    }
}
#else
static sys_sem_t is_over;

static void end(void) {
    sys_sem_signal(&is_over);
}

static void begin_thread(void *unused) {
    (void)unused;
    bring_up(tcpip_input);
}

static void run(void) {
    int number;
    if (sys_sem_new(&is_over, 0) != ERR_OK)
        return;
    tcpip_init(begin_thread, 0);
    sigwait(&signals, &number);
    tcpip_callback(release, 0);
    sys_sem_wait(&is_over);
}
#endif

static int read_words(int count, char **words) {
    ip4_addr_t own_ip, server_ip;
    size_t place;
    int longest = count == 6 ? atoi(words[5]) : 3600;
    if (count < 5 || count > 6 || longest < 1 || longest > 1000000)
        return 0;
    limits.longest = (uint32_t)longest;
    if (nbt_name_read(false, words[1], strlen(words[1]), "", 0, &name, &place) != NBT_DONE
        || !ip4addr_aton(words[2], &own_ip) || !ip4addr_aton(words[3], &mask) || !ip4addr_aton(words[4], &server_ip))
        return 0;
    own.ip = lwip_ntohl(ip4_addr_get_u32(&own_ip));
    server.ip = lwip_ntohl(ip4_addr_get_u32(&server_ip));
    own.port = server.port = NAME_PORT;
    return 1;
}

int main(int count, char **words) {
    if (!read_words(count, words)) {
        fprintf(stderr, "usage: lwip_node NAME OWN NETMASK SERVER [LONGEST]\n");
        return 2;
    }
    setvbuf(stdout, 0, _IOLBF, 0);
    sigemptyset(&signals);
    sigaddset(&signals, SIGINT);
    sigaddset(&signals, SIGTERM);
    sigprocmask(SIG_BLOCK, &signals, 0);
    run();
    return 0;
}
#endif
