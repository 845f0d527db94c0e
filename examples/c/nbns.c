/* SPDX-License-Identifier: MIT OR Apache-2.0 */
/*
 * A name server, until SIGINT or SIGTERM.
 *
 *     nbns ADDRESS [PORT [LONGEST]]        nbns 10.0.0.1 137 600
 *
 * Port 137 needs privileges. LONGEST is the longest lease in seconds, 3600 if it isn't given; `nbt host` has 300 then. The server
 * answers nothing until that time has passed since its start, so that no lease of an earlier run can still be alive; it says so, and
 * when it begins to answer.
 */
#define _POSIX_C_SOURCE 200809L
#include <arpa/inet.h>
#include <nbt.h>
#include <signal.h>
#include <stdio.h>
#include <stdlib.h>
#include <string.h>
#include <sys/select.h>
#include <sys/socket.h>
#include <time.h>

static union nbt_server_memory memory;
static struct nbt_server server = {&memory};
static struct nbt_config limits = {1000, 3600, 4096};
static int port;

static volatile sig_atomic_t stopped;

static void stop(int number) {
    (void)number;
    stopped = 1;
}

static uint64_t milliseconds(void) {
    struct timespec now;
    clock_gettime(CLOCK_MONOTONIC, &now);
    return (uint64_t)now.tv_sec * 1000 + (uint64_t)now.tv_nsec / 1000000;
}

/* Handles one datagram, and sends the reply, if any. */
static void hear(void) {
    uint8_t octets[2048], out[NBT_PACKET];
    struct sockaddr_in end;
    socklen_t end_size = sizeof end;
    struct nbt_addr from;
    size_t size;
    ssize_t count = recvfrom(port, octets, sizeof octets, 0, (struct sockaddr *)&end, &end_size);
    if (count < 0)
        return;
    from.ip = ntohl(end.sin_addr.s_addr);
    from.port = ntohs(end.sin_port);
    if (nbt_server_on_datagram(&server, milliseconds(), from, octets, (size_t)count, out, &size) == NBT_SERVER_OUT_OF_MEMORY)
        fprintf(stderr, "nbns: out of memory\n");
    if (size != 0 && sendto(port, out, size, 0, (struct sockaddr *)&end, end_size) < 0)
        perror("sendto");
}

/* Waits for a datagram, for so long at most where a time is given. Signals come here alone, so none is missed. */
static void wait_and_hear(const struct timespec *most) {
    sigset_t none;
    fd_set ports;
    sigemptyset(&none);
    FD_ZERO(&ports);
    FD_SET(port, &ports);
    fflush(stdout);
    if (pselect(port + 1, &ports, 0, 0, most, &none) == 1)
        hear();
}

/* Serves. A server has nothing to do of its own accord, so no time is waited for but the end of its silence. */
static void serve(void) {
    uint64_t now = milliseconds(), answers_from = now + (uint64_t)limits.longest * 1000;
    struct timespec left;
    if (nbt_server_start(&server, limits, now) != NBT_DONE)
        return;
    printf("silent for %lu s\n", (unsigned long)limits.longest);
    while (!stopped && (now = milliseconds()) < answers_from) {
        left.tv_sec = (time_t)((answers_from - now) / 1000);
        left.tv_nsec = (long)((answers_from - now) % 1000) * 1000000;
        wait_and_hear(&left);
    }
    if (!stopped)
        printf("answering\n");
    while (!stopped)
        wait_and_hear(0);
    nbt_server_end(&server);
}

static void catch_signals(void) {
    struct sigaction action;
    memset(&action, 0, sizeof action);
    action.sa_handler = stop;
    sigemptyset(&action.sa_mask);
    sigaction(SIGINT, &action, 0);
    sigaction(SIGTERM, &action, 0);
    sigaddset(&action.sa_mask, SIGINT);
    sigaddset(&action.sa_mask, SIGTERM);
    sigprocmask(SIG_BLOCK, &action.sa_mask, 0);
}

/* The number that the word at this place is, or `other` where there is none; 0 where it is none from 1 to `most`. */
static unsigned long number_at(int place, int count, char **words, unsigned long other, unsigned long most) {
    char *end;
    unsigned long number;
    if (place >= count)
        return other;
    number = strtoul(words[place], &end, 10);
    return *end == 0 && number <= most ? number : 0;
}

int main(int count, char **words) {
    struct sockaddr_in end;
    unsigned long number = number_at(2, count, words, 137, 65535), longest = number_at(3, count, words, 3600, 1000000);
    memset(&end, 0, sizeof end);
    end.sin_family = AF_INET;
    end.sin_port = htons((uint16_t)number);
    if (count < 2 || count > 4 || number == 0 || longest == 0 || inet_pton(AF_INET, words[1], &end.sin_addr) != 1) {
        fprintf(stderr, "usage: nbns ADDRESS [PORT [LONGEST]]\n");
        return 2;
    }
    limits.longest = (uint32_t)longest;
    port = socket(AF_INET, SOCK_DGRAM, 0);
    if (port < 0 || bind(port, (struct sockaddr *)&end, sizeof end) != 0) {
        perror("bind");
        return 1;
    }
    catch_signals();
    serve();
    return 0;
}
