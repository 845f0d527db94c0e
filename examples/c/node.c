/* SPDX-License-Identifier: MIT OR Apache-2.0 */
/*
 * A node: registers a name at a name server, holds it, answers queries and status requests, and releases the name at SIGINT or SIGTERM.
 *
 *     node NAME OWN SERVER [PORT [LONGEST]]        node 'FILER#20' 10.0.0.5 10.0.0.1
 *
 * Port 137 needs privileges. With PORT, node and server both use that port. LONGEST is the server's longest lease in seconds, 3600 if
 * it isn't given; `nbt nbns` has 300 then. A name that was refused is requested again after 10 seconds, and one that was lost, or got
 * no reply, as soon as the node allows it. A program that uses the name asks nbt_node_holds each time: a name that gets no reply to
 * its refreshes is held until its lease expires, and no longer.
 */
#define _POSIX_C_SOURCE 200809L
#include <arpa/inet.h>
#include <nbt.h>
#include <signal.h>
#include <stdio.h>
#include <stdlib.h>
#include <string.h>
#include <sys/select.h>
#include <sys/socket.h>
#include <time.h>

/* In milliseconds: */
#define SOON 1000     /* to the next look, where nothing is due: while a name rests, or the last of three requests waits */
#define REFUSED 10000 /* from a refusal to the next request */

static struct nbt_config limits = {1000, 3600, 4096};
static union nbt_node_memory memory;
static struct nbt_node node = {&memory};
static struct nbt_addr own, server;
static struct nbt_name name;
static int port;

static uint8_t state;     /* of the name, at the last look */
static int is_unanswered; /* its last request got no reply */
static uint64_t ask_from; /* when a name that was refused may be requested again */

static volatile sig_atomic_t stopped;

static void stop(int number) {
    (void)number;
    stopped = 1;
}

static uint64_t milliseconds(void) {
    struct timespec now;
    clock_gettime(CLOCK_MONOTONIC, &now);
    return (uint64_t)now.tv_sec * 1000 + (uint64_t)now.tv_nsec / 1000000;
}

/* The ids of this life of the node count from one that differs from start to start, so that a late reply to an earlier life is none
 * to this one. */
static uint16_t first_id(void) {
    return (uint16_t)(milliseconds() + (uint64_t)time(0) * 1000);
}

static struct sockaddr_in to_system(struct nbt_addr end) {
    struct sockaddr_in out;
    memset(&out, 0, sizeof out);
    out.sin_family = AF_INET;
    out.sin_port = htons(end.port);
    out.sin_addr.s_addr = htonl(end.ip);
    return out;
}

static void send_to(struct nbt_addr to, const uint8_t *octets, size_t size) {
    struct sockaddr_in end = to_system(to);
    if (sendto(port, octets, size, 0, (struct sockaddr *)&end, sizeof end) < 0)
        perror("sendto");
}

/* Requests the name, where the node allows it: it doesn't while a name rests, nor for 2 seconds from the start on. */
static void request(uint64_t now) {
    uint8_t out[NBT_PACKET];
    size_t size;
    if (nbt_node_ask(&node, now, &name, NBT_UNIQUE, 0, out, &size) != NBT_DONE)
        return;
    printf(is_unanswered ? "no reply, requested again\n" : "requested\n");
    is_unanswered = 0;
    state = NBT_STATE_ASKING;
    send_to(server, out, size);
}

/* Sends what is due, says what time has ended, and requests the name where it may. A sending that fails counts as a loss on the way:
 * the node sends it again. */
static void look(void) {
    uint8_t out[NBT_PACKET], before = state;
    struct nbt_addr to;
    size_t size;
    uint64_t now = milliseconds();
    while (nbt_node_poll(&node, now, &to, out, &size) == NBT_DONE && size != 0)
        send_to(to, out, size);
    nbt_node_state(&node, now, &name, &state);
    if (before == NBT_STATE_HELD && state != before)
        printf("expired, no reply came to the refreshes\n");
    else if (before == NBT_STATE_ASKING && state != before)
        is_unanswered = 1;
    else if (before == NBT_STATE_RELEASING && state != before)
        printf("no reply to the release\n");
    if (state == NBT_STATE_IDLE && !stopped && now >= ask_from)
        request(now);
}

/* When to look again: where something is due next, or else soon. */
static uint64_t next_look(uint64_t now) {
    uint64_t due;
    if (nbt_node_next_due(&node, &due) == NBT_DONE)
        return due;
    return ask_from > now + SOON ? ask_from : now + SOON;
}

/* Says what a datagram was to the node. */
static void tell(const struct nbt_event *event, uint64_t now) {
    switch (event->kind) {
    case NBT_EVENT_GRANTED:
    case NBT_EVENT_RENEWED:
        printf("%s for %lu s\n", event->kind == NBT_EVENT_GRANTED ? "granted" : "renewed", (unsigned long)event->seconds);
        break;
    case NBT_EVENT_REFUSED:
        printf("refused with RCODE %d, to be requested again in %d s\n", event->rcode, REFUSED / 1000);
        ask_from = now + REFUSED;
        break;
    case NBT_EVENT_LOST:
        printf("lost, the server has taken it away with RCODE %d\n", event->rcode);
        break;
    case NBT_EVENT_FREED:
        printf("released with RCODE %d\n", event->rcode);
        break;
    default: /* a query or a status request, a request of the server's to wait, or nothing for this node */
        return;
    }
    nbt_node_state(&node, now, &name, &state);
}

/* Handles one datagram. */
static void hear(void) {
    uint8_t octets[2048], lent[1], out[NBT_PACKET];
    struct sockaddr_in end;
    socklen_t end_size = sizeof end;
    struct nbt_event event;
    struct nbt_addr from;
    size_t size;
    uint64_t now = milliseconds();
    ssize_t count = recvfrom(port, octets, sizeof octets, 0, (struct sockaddr *)&end, &end_size);
    if (count < 0)
        return;
    from.ip = ntohl(end.sin_addr.s_addr);
    from.port = ntohs(end.sin_port);
    if (nbt_node_on_datagram(&node, now, from, octets, (size_t)count, &event, lent, sizeof lent, out, &size) != NBT_DONE)
        return;
    if (size != 0)
        send_to(from, out, size);
    tell(&event, now);
}

/* Waits for a datagram until the next look, and handles it. Signals come here alone, so none is missed. */
static void wait_and_hear(void) {
    uint64_t now = milliseconds(), look_at = next_look(now), left = look_at > now ? look_at - now : 0;
    struct timespec timeout;
    sigset_t none;
    fd_set ports;
    timeout.tv_sec = (time_t)(left / 1000);
    timeout.tv_nsec = (long)(left % 1000) * 1000000;
    sigemptyset(&none);
    FD_ZERO(&ports);
    FD_SET(port, &ports);
    fflush(stdout);
    if (pselect(port + 1, &ports, 0, 0, &timeout, &none) == 1)
        hear();
}

static void catch_signals(void) {
    struct sigaction action;
    memset(&action, 0, sizeof action);
    action.sa_handler = stop;
    sigemptyset(&action.sa_mask);
    sigaction(SIGINT, &action, 0);
    sigaction(SIGTERM, &action, 0);
    sigaddset(&action.sa_mask, SIGINT);
    sigaddset(&action.sa_mask, SIGTERM);
    sigprocmask(SIG_BLOCK, &action.sa_mask, 0);
}

/* Releases the name. The node sends that three times at most, as any request, and then gives up. */
static void release(void) {
    uint8_t out[NBT_PACKET];
    size_t size;
    if (nbt_node_release(&node, milliseconds(), &name, out, &size) != NBT_DONE)
        return;
    state = NBT_STATE_RELEASING;
    send_to(server, out, size);
    while (state == NBT_STATE_RELEASING) {
        wait_and_hear();
        look();
    }
}

static int read_words(int count, char **words) {
    struct in_addr own_ip, server_ip;
    size_t place;
    int number = count > 4 ? atoi(words[4]) : 137, longest = count > 5 ? atoi(words[5]) : 3600;
    if (count < 4 || count > 6 || number < 1 || number > 65535 || longest < 1 || longest > 1000000)
        return 0;
    limits.longest = (uint32_t)longest;
    if (nbt_name_read(false, words[1], strlen(words[1]), "", 0, &name, &place) != NBT_DONE
        || inet_pton(AF_INET, words[2], &own_ip) != 1 || inet_pton(AF_INET, words[3], &server_ip) != 1)
        return 0;
    own.ip = ntohl(own_ip.s_addr);
    server.ip = ntohl(server_ip.s_addr);
    own.port = server.port = (uint16_t)number;
    return 1;
}

int main(int count, char **words) {
    struct sockaddr_in end;
    if (!read_words(count, words)) {
        fprintf(stderr, "usage: node NAME OWN SERVER [PORT [LONGEST]]\n");
        return 2;
    }
    end = to_system(own);
    port = socket(AF_INET, SOCK_DGRAM, 0);
    if (port < 0 || bind(port, (struct sockaddr *)&end, sizeof end) != 0) {
        perror("bind");
        return 1;
    }
    catch_signals();
    if (nbt_node_start_from(&node, own, server, limits, milliseconds(), first_id()) != NBT_DONE)
        return 1;
    while (!stopped) {
        look();
        wait_and_hear();
    }
    release();
    return 0;
}
