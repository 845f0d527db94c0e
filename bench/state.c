/* What keeping the leases costs `nbt nbns`: a server with --state beside one without, in one run.
 *
 * state PROGRAM FOLDER [PORT]: starts PROGRAM on PORT of 127.0.0.1, and on PORT + 1 with --state FOLDER, which is there and empty. It
 * prints registrations, renewals and queries a second of both, 32 outstanding, from 64 addresses of 64 names each; how much of a
 * processor a query takes the servers; the most memory that both had; how long the second one takes from its start with 4,096 leases
 * to its first line and to its first reply, each after SIGKILL; and how long a sync of a line of this folder takes, before and after.
 * The two servers are asked in turn, so that other work on the machine hits both alike. A number is the median of the rounds, and a
 * ratio that of their ratios. Each reply's id and flags are checked. It takes a minute and a half, the first of which is the silence. */
#define _GNU_SOURCE
#include <arpa/inet.h>
#include <fcntl.h>
#include <signal.h>
#include <stdint.h>
#include <stdio.h>
#include <stdlib.h>
#include <string.h>
#include <sys/prctl.h>
#include <sys/socket.h>
#include <sys/time.h>
#include <sys/wait.h>
#include <time.h>
#include <unistd.h>

#include "packets.h"

#ifndef WINDOW
#define WINDOW 32
#endif

enum { NAMES = 4096, CLIENTS = 64, FIRST_CLIENT = 0x7f000101, OUTSTANDING = WINDOW, LEASE = 60, SYNCS = 200 };
enum { GRANTED = 0xad80, RELEASED = 0xb400, FOUND = 0x8580 };
enum { ROUNDS = 15, QUERY_ROUNDS = 60, STARTS = 5, MOST_ROUNDS = 60 };

static int sockets[CLIENTS];
static unsigned long lost, wrong;

static void fail(const char *what) {
    perror(what);
    exit(1);
}

static double seconds(void) {
    struct timespec t;
    clock_gettime(CLOCK_MONOTONIC, &t);
    return (double)t.tv_sec + (double)t.tv_nsec / 1e9;
}

/* The socket of a client, which has an address of its own: 127.0.1.1 and those after it. */
static int udp_socket(unsigned client) {
    struct sockaddr_in own = {.sin_family = AF_INET, .sin_addr.s_addr = htonl(FIRST_CLIENT + client)};
    struct timeval wait = {.tv_usec = 500000};
    int s = socket(AF_INET, SOCK_DGRAM, 0);
    if (s < 0 || bind(s, (struct sockaddr *)&own, sizeof own) < 0) fail("socket");
    setsockopt(s, SOL_SOCKET, SO_RCVTIMEO, &wait, sizeof wait);
    return s;
}

static size_t packet(unsigned char *out, unsigned k, int reply) {
    if (reply == FOUND) return put_query(out, (uint16_t)k, 'N', k % NAMES);
    size_t length = put_registration(out, (uint16_t)k, 'N', k % NAMES, LEASE);
    put_long(out + ADDRESS_AT, FIRST_CLIENT + k % CLIENTS);
    if (reply == RELEASED) make_release(out);
    return length;
}

/* How many requests a second, at that port, OUTSTANDING at a time, of each client in turn; what doesn't come within half a second is
 * lost. */
static double ask(uint16_t port, unsigned count, int reply) {
    struct sockaddr_in server = {.sin_family = AF_INET, .sin_addr.s_addr = htonl(INADDR_LOOPBACK), .sin_port = htons(port)};
    unsigned char out[80], in[600];
    double begun = seconds();
    for (unsigned k = 0; k < count + OUTSTANDING; k++) {
        if (k >= OUTSTANDING) {
            unsigned id = k - OUTSTANDING;
            if (recv(sockets[id % CLIENTS], in, sizeof in, 0) < 0) lost++;
            else if (word_at(in) != (uint16_t)id || word_at(in + 2) != reply) wrong++;
        }
        if (k < count) {
            size_t length = packet(out, k, reply);
            if (sendto(sockets[k % CLIENTS], out, length, 0, (struct sockaddr *)&server, sizeof server) < 0) fail("sendto");
        }
    }
    return count / (seconds() - begun);
}

struct child {
    pid_t pid;
    FILE *lines;
};

/* Starts a server, with --state where there is a folder. */
static struct child start(const char *program, uint16_t port, const char *folder) {
    char bind_to[32];
    int ends[2];
    snprintf(bind_to, sizeof bind_to, "127.0.0.1:%u", port);
    if (pipe(ends) < 0) fail("pipe");
    pid_t pid = fork();
    if (pid == 0) {
        prctl(PR_SET_PDEATHSIG, SIGTERM); /* it ends with this program */
        dup2(ends[1], STDOUT_FILENO);
        execl(program, "nbt", "nbns", "--bind", bind_to, "--longest", "60s", folder ? "--state" : (char *)NULL, folder, "--changes-per-client", "0", (char *)NULL);
        fail(program);
    }
    close(ends[1]);
    return (struct child){pid, fdopen(ends[0], "r")};
}

/* Reads the first line of a server. */
static void first_line(struct child *child, char *line, int size) {
    if (!fgets(line, size, child->lines)) {
        fprintf(stderr, "the server ended\n");
        exit(1);
    }
}

/* The most resident memory that a process had, in kB. */
static long most_memory(pid_t pid) {
    char path[64], line[256];
    long found = -1;
    snprintf(path, sizeof path, "/proc/%d/status", (int)pid);
    FILE *file = fopen(path, "r");
    while (file && fgets(line, sizeof line, file)) sscanf(line, "VmHWM: %ld", &found);
    if (file) fclose(file);
    return found;
}

/* How many seconds of a processor a process has had, its own and the system's for it. */
static double processor(pid_t pid) {
    clockid_t clock;
    struct timespec t;
    if (clock_getcpuclockid(pid, &clock) || clock_gettime(clock, &t)) fail("the processor's time of a server");
    return (double)t.tv_sec + (double)t.tv_nsec / 1e9;
}

static int by_size(const void *a, const void *b) {
    double d = *(const double *)a - *(const double *)b;
    return (d > 0) - (d < 0);
}

static double median(double *numbers, size_t count) {
    qsort(numbers, count, sizeof *numbers, by_size);
    return numbers[count / 2];
}

/* How many microseconds a write of a line and a sync take in that folder. */
static double sync_time(const char *folder) {
    double taken[SYNCS];
    char path[4096];
    snprintf(path, sizeof path, "%s/bench", folder);
    int file = open(path, O_CREAT | O_TRUNC | O_WRONLY, 0600);
    if (file < 0) fail(path);
    for (int k = 0; k < SYNCS; k++) {
        double begun = seconds();
        if (dprintf(file, "%0100d\n", k) < 0 || fdatasync(file) < 0) fail(path);
        taken[k] = (seconds() - begun) * 1e6;
    }
    close(file);
    unlink(path);
    return median(taken, SYNCS);
}

/* Two servers, of which the second keeps its leases. */
struct pair {
    uint16_t ports[2];
    struct child children[2];
};

/* What was measured of both, round by round. */
struct measure {
    double of[2][MOST_ROUNDS], ratios[MOST_ROUNDS];
    int count;
};

/* Asks both servers, the one first in one round and the other in the next. */
static void ask_both(struct pair *pair, struct measure *measure, unsigned count, int reply) {
    int round = measure->count++;
    for (int k = 0; k < 2; k++) {
        int which = (k + round) % 2;
        measure->of[which][round] = ask(pair->ports[which], count, reply);
    }
    measure->ratios[round] = measure->of[0][round] / measure->of[1][round];
}

static void tell(const char *label, struct measure *measure) {
    size_t count = (size_t)measure->count;
    double ratio = median(measure->ratios, count), plain = median(measure->of[0], count), kept = median(measure->of[1], count);
    printf("%-38s %9.0f a second, with --state %9.0f: it takes %.3f times as long\n", label, plain, kept, ratio);
}

/* Tells how much of a processor a query took both servers, the system's work for them included. */
static void tell_processors(struct pair *pair, const double *before, unsigned long queries) {
    double spent[2];
    for (int k = 0; k < 2; k++) spent[k] = (processor(pair->children[k].pid) - before[k]) / (double)queries * 1e6;
    printf("%-38s %9.2f us, with --state %9.2f us: %.3f times\n", "processor for a query", spent[0], spent[1], spent[1] / spent[0]);
}

/* Tells how long the server that keeps its leases takes to start with all of them. */
static void tell_starts(const char *program, const char *folder, struct pair *pair) {
    struct child *with = &pair->children[1];
    double lines[STARTS], replies[STARTS];
    char line[256];
    for (int round = 0; round < STARTS; round++) {
        kill(with->pid, SIGKILL);
        waitpid(with->pid, NULL, 0);
        fclose(with->lines);
        double begun = seconds();
        *with = start(program, pair->ports[1], folder);
        first_line(with, line, sizeof line);
        lines[round] = (seconds() - begun) * 1e3;
        if (!strstr(line, "with 4096 leases kept")) wrong++;
        ask(pair->ports[1], 1, FOUND);
        replies[round] = (seconds() - begun) * 1e3;
    }
    double to_line = median(lines, STARTS), to_reply = median(replies, STARTS);
    printf("%-38s %9.1f ms to its first line, %.1f ms to its first reply\n", "a start with 4,096 leases", to_line, to_reply);
}

int main(int count, char **words) {
    if (count < 3) return fprintf(stderr, "state PROGRAM FOLDER [PORT]\n"), 2;
    const char *program = words[1], *folder = words[2];
    uint16_t port = (uint16_t)(count > 3 ? atoi(words[3]) : 21947);
    static struct measure registers, renews, queries, releases;
    double before[2];
    char line[256];
    for (unsigned k = 0; k < CLIENTS; k++) sockets[k] = udp_socket(k);
    printf("%-38s %9.0f us\n", "a line and its sync in that folder", sync_time(folder));
    struct pair pair = {{port, (uint16_t)(port + 1)}, {start(program, port, NULL), start(program, (uint16_t)(port + 1), folder)}};
    for (int k = 0; k < 2; k++) first_line(&pair.children[k], line, sizeof line);
    sleep(LEASE + 1); /* both are silent for the longest lease */
    for (int round = 0; round < ROUNDS; round++) {
        if (round) ask_both(&pair, &releases, NAMES, RELEASED);
        ask_both(&pair, &registers, NAMES, GRANTED);
        ask_both(&pair, &renews, NAMES, GRANTED);
    }
    for (int k = 0; k < 2; k++) before[k] = processor(pair.children[k].pid);
    for (int round = 0; round < QUERY_ROUNDS; round++) ask_both(&pair, &queries, NAMES, FOUND);
    tell("registrations of 4,096 names", &registers);
    tell("renewals of 4,096 names", &renews);
    tell("releases of 4,096 names", &releases);
    tell("queries over 4,096 names", &queries);
    tell_processors(&pair, before, (unsigned long)QUERY_ROUNDS * NAMES);
    printf("%-38s %9ld kB, with --state %ld kB\n", "the most memory", most_memory(pair.children[0].pid), most_memory(pair.children[1].pid));
    tell_starts(program, folder, &pair);
    printf("%-38s %9.0f us\n", "a line and its sync, once more", sync_time(folder));
    printf("lost %lu, wrong %lu\n", lost, wrong);
    for (int k = 0; k < 2; k++) kill(pair.children[k].pid, SIGTERM);
    return wrong || lost;
}
