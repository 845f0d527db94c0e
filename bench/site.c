/* A site of a hundred thousand hosts: `nbt nbns --rows 300000 --state` beside one program that plays them.
 *
 * site PROGRAM FOLDER [PORT]: starts PROGRAM on PORT of 127.0.0.1 with --state FOLDER, which is there and empty. 100,000 addresses from
 * 127.2.0.0 on register three names each, and renew them four times in three leases of 60 s, 64 requests at a time. Then the server is
 * killed and started again, and each name is asked for. It prints how many requests were made, how many had to be repeated after a
 * second, how long the slowest 64 waited, how long it is from the second start to its first line and to its first reply, and the most
 * memory that each of the two had. It takes five minutes and a half, the first of which is the silence. */
#define _GNU_SOURCE
#include <arpa/inet.h>
#include <errno.h>
#include <netinet/in.h>
#include <signal.h>
#include <stdint.h>
#include <stdio.h>
#include <stdlib.h>
#include <string.h>
#include <sys/prctl.h>
#include <sys/socket.h>
#include <sys/time.h>
#include <sys/wait.h>
#include <time.h>
#include <unistd.h>

#include "packets.h"

enum { CLIENTS = 100000, NAMES = 3 * CLIENTS, FIRST_CLIENT = 0x7f020000, OWN_PORT = 21998, LEASE = 60, WINDOW = 64, ROUNDS = 4, ROUND = 45, TRIES = 5 };
enum { GRANTED = 0xad80, FOUND = 0x8580, TOLD_AT = 58, A_LETTER = 10000 }; /* a reply tells the address there */

static int port; /* the socket of all clients */
static struct sockaddr_in server;
static unsigned long repeated, wrong;
static double slowest;

static void fail(const char *what) {
    perror(what);
    exit(1);
}

static double seconds(void) {
    struct timespec t;
    clock_gettime(CLOCK_MONOTONIC, &t);
    return (double)t.tv_sec + (double)t.tv_nsec / 1e9;
}

static void rest_until(double moment) {
    double left = moment - seconds();
    if (left > 0) usleep((useconds_t)(left * 1e6));
}

static void open_port(void) {
    struct sockaddr_in own = {.sin_family = AF_INET, .sin_port = htons(OWN_PORT)};
    struct timeval wait = {.tv_usec = 20000};
    int size = 1 << 20;
    port = socket(AF_INET, SOCK_DGRAM, 0);
    if (port < 0 || bind(port, (struct sockaddr *)&own, sizeof own) < 0) fail("socket");
    setsockopt(port, SOL_SOCKET, SO_RCVTIMEO, &wait, sizeof wait);
    setsockopt(port, SOL_SOCKET, SO_RCVBUF, &size, sizeof size);
}

static uint32_t client_of(unsigned name) {
    return FIRST_CLIENT + name % CLIENTS;
}

/* Sends the request for a name, a query or a registration, from the address of its client. */
static void send_for(unsigned name, int reply) {
    unsigned char out[80];
    char letter = (char)('A' + name / A_LETTER);
    size_t length;
    if (reply == FOUND) length = put_query(out, (uint16_t)name, letter, name % A_LETTER);
    else {
        length = put_registration(out, (uint16_t)name, letter, name % A_LETTER, LEASE);
        put_long(out + ADDRESS_AT, client_of(name));
    }
    union {
        struct cmsghdr head;
        char room[CMSG_SPACE(sizeof(struct in_pktinfo))];
    } control = {.head = {.cmsg_len = CMSG_LEN(sizeof(struct in_pktinfo)), .cmsg_level = IPPROTO_IP, .cmsg_type = IP_PKTINFO}};
    struct in_pktinfo from = {.ipi_spec_dst.s_addr = htonl(client_of(name))};
    memcpy(CMSG_DATA(&control.head), &from, sizeof from);
    struct iovec part = {out, length};
    struct msghdr message = {.msg_name = &server, .msg_namelen = sizeof server, .msg_iov = &part, .msg_iovlen = 1, .msg_control = &control, .msg_controllen = sizeof control};
    if (sendmsg(port, &message, 0) < 0 && errno != ECONNREFUSED) fail("sendmsg");
}

/* Takes what comes for these names until a moment, or all have their reply; has[k] is whether the k-th has it. Returns how many lack one. */
static unsigned take_for(unsigned first, unsigned count, int reply, int *has, double until) {
    unsigned char in[600];
    unsigned left = 0;
    for (unsigned k = 0; k < count; k++) left += !has[k];
    while (left && seconds() < until) {
        if (recv(port, in, sizeof in, 0) < 12) continue;
        unsigned k = (uint16_t)(word_at(in) - first);
        if (k >= count || has[k]) continue;
        if (word_at(in + 2) != reply || (uint32_t)word_at(in + TOLD_AT) << 16 != (client_of(first + k) & 0xffff0000) || (uint32_t)word_at(in + TOLD_AT + 2) != (client_of(first + k) & 0xffff)) wrong++;
        has[k] = 1;
        left--;
    }
    return left;
}

/* Asks for all names in turn, WINDOW at a time, spread over so many seconds; what has no reply after a second is asked for again. */
static void ask_all(int reply, double during) {
    double begun = seconds();
    for (unsigned first = 0; first < NAMES; first += WINDOW) {
        unsigned count = NAMES - first < WINDOW ? NAMES - first : WINDOW;
        int has[WINDOW] = {0};
        rest_until(begun + during * first / NAMES);
        double asked = seconds();
        for (unsigned tries = 0;; tries++) {
            if (tries == TRIES) {
                fprintf(stderr, "no reply for a name after %u\n", first);
                exit(1);
            }
            for (unsigned k = 0; k < count; k++) {
                if (has[k]) continue;
                send_for(first + k, reply);
                repeated += tries > 0;
            }
            if (!take_for(first, count, reply, has, seconds() + 1)) break;
        }
        if (seconds() - asked > slowest) slowest = seconds() - asked;
    }
}

struct child {
    pid_t pid;
    FILE *lines;
};

static struct child start(const char *program, int number, const char *folder) {
    char bind_to[32];
    int ends[2];
    snprintf(bind_to, sizeof bind_to, "127.0.0.1:%d", number);
    if (pipe(ends) < 0) fail("pipe");
    pid_t pid = fork();
    if (pid == 0) {
        prctl(PR_SET_PDEATHSIG, SIGTERM); /* it ends with this program */
        dup2(ends[1], STDOUT_FILENO);
        execl(program, "nbt", "nbns", "--bind", bind_to, "--life", "500ms", "--longest", "60s", "--rows", "300000", "--state", folder, (char *)NULL);
        fail(program);
    }
    close(ends[1]);
    return (struct child){pid, fdopen(ends[0], "r")};
}

static void first_line(struct child *child) {
    char line[512];
    if (!fgets(line, sizeof line, child->lines)) {
        fprintf(stderr, "the server ended\n");
        exit(1);
    }
    fputs(line, stdout);
    fflush(stdout);
}

/* The most resident memory that a process had, in MB. */
static double most_memory(pid_t pid) {
    char path[64], line[256];
    long found = 0;
    snprintf(path, sizeof path, "/proc/%d/status", (int)pid);
    FILE *file = fopen(path, "r");
    while (file && fgets(line, sizeof line, file)) sscanf(line, "VmHWM: %ld", &found);
    if (file) fclose(file);
    return found / 1000.0;
}

static void tell(const char *what, double begun) {
    printf("%-20s %6.1f s, %lu repeated, %lu wrong, slowest %.1f ms\n", what, seconds() - begun, repeated, wrong, slowest * 1000);
    fflush(stdout);
    slowest = 0;
}

/* How long it is until the server answers a query for the first name, which is asked for each 10 ms. */
static void await_reply(double begun) {
    int has[1] = {0};
    while (!has[0]) {
        send_for(0, FOUND);
        take_for(0, 1, FOUND, has, seconds() + 0.01);
    }
    printf("first reply after %.2f s\n", seconds() - begun);
}

int main(int count, char **words) {
    if (count < 3 || count > 4) {
        fprintf(stderr, "usage: site PROGRAM FOLDER [PORT]\n");
        return 2;
    }
    int number = count == 4 ? atoi(words[3]) : 21997;
    server = (struct sockaddr_in){.sin_family = AF_INET, .sin_addr.s_addr = htonl(INADDR_LOOPBACK), .sin_port = htons(number)};
    open_port();
    struct child child = start(words[1], number, words[2]);
    first_line(&child);
    rest_until(seconds() + LEASE + 1);
    double begun = seconds();
    ask_all(GRANTED, 0);
    tell("registered", begun);
    for (int round = 0; round < ROUNDS; round++) {
        begun = seconds();
        ask_all(GRANTED, ROUND);
        tell("renewed", begun);
    }
    printf("memory %.1f MB\n", most_memory(child.pid));
    kill(child.pid, SIGKILL);
    waitpid(child.pid, NULL, 0);
    begun = seconds();
    child = start(words[1], number, words[2]);
    first_line(&child);
    printf("first line after %.2f s\n", seconds() - begun);
    await_reply(begun);
    begun = seconds();
    ask_all(FOUND, 0);
    tell("asked for", begun);
    printf("memory %.1f MB\n", most_memory(child.pid));
    kill(child.pid, SIGKILL);
    waitpid(child.pid, NULL, 0);
    return wrong || repeated;
}
