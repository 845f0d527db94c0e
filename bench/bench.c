/* What a name server's answers cost, beside a loop in C that only receives and sends: all in one run, each number the median of fifteen
 * rounds. What is compared is measured one right after the other, so that other work on the machine hits both alike, and a ratio is the
 * median of the rounds' ratios.
 *
 * bench PROGRAM FOLDER [PORT]: starts PROGRAM on PORT of 127.0.0.1 as `nbt serve`, on PORT + 1 the loop, and on PORT + 2 `nbt nbns` with
 * its log and, in FOLDER, the list of its leases. Leases last 60 s, are renewed before each measure that needs them, and are released
 * after it, so that each round registers its names anew. Each reply's id and flags are checked, and of a query the address too. */
#define _GNU_SOURCE
#include <arpa/inet.h>
#include <signal.h>
#include <stdint.h>
#include <stdio.h>
#include <stdlib.h>
#include <string.h>
#include <sys/resource.h>
#include <sys/socket.h>
#include <sys/time.h>
#include <sys/wait.h>
#include <time.h>
#include <unistd.h>

#include "packets.h"

enum { ROUNDS = 15, NAMES = 4096, GROUP = 1000, SMALL_GROUP = 80, FEW = 10, OUTSTANDING = 32, QUERIES = 8192, LEASE = 60, RENEWALS = 2 };

/* The flags of replies (RFC 1002 sections 4.2.5, 4.2.10, 4.2.13 and 4.2.14). */
enum { GRANTED = 0xad80, RELEASED = 0xb400, FOUND = 0x8580, CUT = 0x8780, NOT_FOUND = 0x8583, ECHOED = 0x0100 };

/* What answers. */
struct end {
    pid_t pid;
    struct sockaddr_in at;
};

static struct end loop, server, logged;

enum row {
    ECHO, FEW_NAMES, ALL_NAMES, NOT_THERE, REGISTER, RENEW, REFRESH, LOGGED_NAMES, LOGGED_RENEW, LOGGED_REFRESH,
    CHAINS, OF_SMALL_GROUP, OF_GROUP, JOINING_SMALL, JOINING, REJOINING, REJOINING_BACK, ROWS,
};

/* What is printed of a row: the row that it is compared with, which is measured before it, and how much more it may cost, where that has a
 * goal. */
static const struct {
    const char *label, *beside;
    enum row than;
    double goal;
} TOLD[ROWS] = {
    [ECHO] = {"queries, echoed by the loop", "", ECHO, 0},
    [FEW_NAMES] = {"queries over 10 names", "the loop", ECHO, 1.15},
    [ALL_NAMES] = {"queries over 4,096 names", "the loop", ECHO, 1.25},
    [NOT_THERE] = {"queries for names that aren't there", "the loop", ECHO, 1.15},
    [REGISTER] = {"registrations of 4,096 names", "the loop", ECHO, 1.6},
    [RENEW] = {"renewals of 4,096 names", "the loop", ECHO, 1.5},
    [REFRESH] = {"refreshes of 4,096 names", "the loop", ECHO, 1.5},
    [LOGGED_NAMES] = {"nbns, queries over 4,096 names", "serve", ALL_NAMES, 1.1},
    [LOGGED_RENEW] = {"nbns, renewals of 4,096 names", "serve", RENEW, 1.1},
    [LOGGED_REFRESH] = {"nbns, refreshes of 4,096 names", "serve", REFRESH, 1.1},
    [CHAINS] = {"queries, each after a chain of pointers", "a query", FEW_NAMES, 0},
    [OF_SMALL_GROUP] = {"queries of a group of 80", "a query", FEW_NAMES, 0},
    [OF_GROUP] = {"queries of a group of 1,000", "a group of 80", OF_SMALL_GROUP, 0},
    [JOINING_SMALL] = {"registrations of 80 members", "a registration", REGISTER, 0},
    [JOINING] = {"registrations of 1,000 members", "80 members", JOINING_SMALL, 0},
    [REJOINING] = {"renewals of 1,000, the first first", "a renewal", RENEW, 0},
    [REJOINING_BACK] = {"renewals of 1,000, the last first", "the first first", REJOINING, 0},
};

/* Of each row and round, the answers a second, the processor time of what answers, in microseconds an answer, and how many times that is what
 * the other row took. */
static double rates[ROWS][ROUNDS], costs[ROWS][ROUNDS], ratios[ROWS][ROUNDS];

static int lookup_socket, owner_sockets[NAMES], member_sockets[GROUP];
static unsigned long lost, wrong;

static void fail(const char *what) {
    perror(what);
    exit(1);
}

static double time_of(clockid_t clock) {
    struct timespec t;
    if (clock_gettime(clock, &t)) fail("clock_gettime");
    return (double)t.tv_sec + (double)t.tv_nsec / 1e9;
}

/* The processor time that a process has taken, in seconds. */
static double processor(pid_t pid) {
    clockid_t clock;
    if (clock_getcpuclockid(pid, &clock)) fail("clock_getcpuclockid");
    return time_of(clock);
}

static struct sockaddr_in address(uint32_t ip, uint16_t port) {
    return (struct sockaddr_in){.sin_family = AF_INET, .sin_addr.s_addr = htonl(ip), .sin_port = htons(port)};
}

static int udp_socket(uint32_t ip, uint16_t port) {
    struct sockaddr_in own = address(ip, port);
    struct timeval wait = {.tv_usec = 500000};
    int s = socket(AF_INET, SOCK_DGRAM, 0);
    if (s < 0 || bind(s, (struct sockaddr *)&own, sizeof own) < 0) fail("socket");
    setsockopt(s, SOL_SOCKET, SO_RCVTIMEO, &wait, sizeof wait);
    return s;
}

static void send_from(int socket, const struct end *to, const unsigned char *octets, size_t length) {
    if (sendto(socket, octets, length, 0, (const struct sockaddr *)&to->at, sizeof to->at) < 0) fail("sendto");
}

/* What many queries ask for, with which flags their replies come, and what is sent before each, if anything is. */
struct asked {
    char letter;
    unsigned names;
    int flags;
    const unsigned char *before;
    size_t before_length;
};

/* Asks QUERIES times, OUTSTANDING at a time; what doesn't come within half a second is lost, and as many are sent anew. */
static void query_all(const struct end *to, const struct asked *asked) {
    unsigned char out[80], in[600];
    unsigned sent = 0, answered = 0, open = 0;
    while (answered < QUERIES) {
        for (; open < OUTSTANDING && answered + open < QUERIES; sent++, open++) {
            size_t length = put_query(out, (uint16_t)sent, asked->letter, sent % asked->names);
            if (asked->before) send_from(lookup_socket, to, asked->before, asked->before_length);
            send_from(lookup_socket, to, out, length);
        }
        ssize_t length = recv(lookup_socket, in, sizeof in, 0);
        if (length < 0) {
            lost += open;
            open = 0;
            continue;
        }
        if ((uint16_t)(sent - word_at(in)) > 2 * OUTSTANDING) {
            wrong++;
            continue;
        }
        int is_one = asked->letter == 'N' && asked->flags == FOUND;
        if (word_at(in + 2) != asked->flags || (is_one && memcmp(in + length - 4, "\x7f\0\0\1", 4))) wrong++;
        answered++;
        open--;
    }
}

/* When a measure began, and the processor time then of what answers. */
struct watch {
    double begun, spent;
};

static struct watch begin(const struct end *end) {
    return (struct watch){.begun = time_of(CLOCK_MONOTONIC), .spent = processor(end->pid)};
}

/* Ends the measure of a row, of so many answers. */
static void finish(enum row row, int round, const struct end *end, struct watch watch, unsigned answers) {
    enum row than = TOLD[row].than;
    rates[row][round] = answers / (time_of(CLOCK_MONOTONIC) - watch.begun);
    costs[row][round] = (processor(end->pid) - watch.spent) * 1e6 / answers;
    ratios[row][round] = costs[row][round] / costs[than][round];
}

static void queries(enum row row, int round, const struct end *to, struct asked asked) {
    struct watch watch = begin(to);
    query_all(to, &asked);
    finish(row, round, to, watch, QUERIES);
}

/* Measures the loop, for the row that is compared with it and measured next. */
static void echo(int round) {
    queries(ECHO, round, &loop, (struct asked){'N', NAMES, ECHOED, NULL, 0});
}

/* Who claims what, from a socket each: 4,096 names by one owner, or a group by so many members. */
struct claims {
    const int *sockets;
    unsigned count;
    char letter;
};

static const struct claims THE_NAMES = {owner_sockets, NAMES, 'N'}, THE_SMALL_GROUP = {member_sockets, SMALL_GROUP, 'S'}, THE_GROUP = {member_sockets, GROUP, 'T'};

enum claim { REGISTRATIONS, REFRESHES, RELEASES };

static size_t put_claim(unsigned char *out, enum claim claim, const struct claims *claims, uint16_t id, unsigned who) {
    size_t length = claims->letter == 'N' ? put_registration(out, id, 'N', who, LEASE) : put_membership(out, id, claims->letter, who, LEASE);
    if (claim == REFRESHES) make_refresh(out);
    if (claim == RELEASES) make_release(out);
    return length;
}

/* Claims, from one socket after the other, or from the last one on, OUTSTANDING at a time. */
static void claim_all(const struct end *to, enum claim claim, const struct claims *claims, int backwards) {
    unsigned char out[80], in[600];
    for (unsigned k = 0; k < claims->count + OUTSTANDING; k++) {
        if (k < claims->count) {
            unsigned who = backwards ? claims->count - 1 - k : k;
            size_t length = put_claim(out, claim, claims, (uint16_t)k, who);
            send_from(claims->sockets[who], to, out, length);
        }
        if (k >= OUTSTANDING) {
            unsigned id = k - OUTSTANDING, who = backwards ? claims->count - 1 - id : id;
            ssize_t length = recv(claims->sockets[who], in, sizeof in, 0);
            if (length < 0) lost++;
            else if (length != 62 || word_at(in) != (uint16_t)id || word_at(in + 2) != (claim == RELEASES ? RELEASED : GRANTED)) wrong++;
        }
    }
}

/* The same so many times, and measured. */
static void claim(enum row row, int round, const struct end *to, enum claim claim, const struct claims *claims, int backwards, int times) {
    struct watch watch = begin(to);
    for (int k = 0; k < times; k++) claim_all(to, claim, claims, backwards);
    finish(row, round, to, watch, (unsigned)times * claims->count);
}

/* The resident memory of a process, in kB. */
static long resident(pid_t pid) {
    char path[64], line[256];
    long found = -1;
    snprintf(path, sizeof path, "/proc/%d/status", (int)pid);
    FILE *file = fopen(path, "r");
    while (file && fgets(line, sizeof line, file)) sscanf(line, "VmRSS: %ld", &found);
    if (file) fclose(file);
    return found;
}

static struct end start_server(uint16_t port, char *const *words) {
    struct end started = {.pid = fork(), .at = address(LOOPBACK, port)};
    if (started.pid == 0) {
        if (!freopen("/dev/null", "w", stdout)) fail("/dev/null");
        execv(words[0], words);
        fail(words[0]);
    }
    return started;
}

static struct end start_loop(uint16_t port) {
    int s = udp_socket(LOOPBACK, port);
    struct end started = {.pid = fork(), .at = address(LOOPBACK, port)};
    if (started.pid == 0) {
        unsigned char octets[600];
        for (;;) {
            struct sockaddr_in from;
            socklen_t size = sizeof from;
            ssize_t length = recvfrom(s, octets, sizeof octets, 0, (struct sockaddr *)&from, &size);
            if (length >= 0) sendto(s, octets, (size_t)length, 0, (struct sockaddr *)&from, size);
        }
    }
    close(s);
    return started;
}

static void start(char *program, const char *folder, uint16_t port) {
    char bind_to[32], log_at[32], seconds[8], span[8], list[4096];
    snprintf(bind_to, sizeof bind_to, "127.0.0.1:%u", port);
    snprintf(log_at, sizeof log_at, "127.0.0.1:%u", port + 2);
    snprintf(seconds, sizeof seconds, "%d", LEASE);
    snprintf(span, sizeof span, "%ds", LEASE);
    snprintf(list, sizeof list, "%s/leases", folder);
    loop = start_loop((uint16_t)(port + 1));
    server = start_server(port, (char *[]){program, "serve", bind_to, "1000", seconds, "--forever", NULL});
    logged = start_server((uint16_t)(port + 2), (char *[]){program, "nbns", "--bind", log_at, "--life", "1s", "--longest", span, "--rows-per-client", "4096", "--log", "--leases", list, NULL});
    lookup_socket = udp_socket(LOOPBACK, 0);
    for (unsigned k = 0; k < NAMES; k++) owner_sockets[k] = udp_socket(LOOPBACK, 0);
    for (unsigned k = 0; k < GROUP; k++) member_sockets[k] = udp_socket(member_ip(k), 0);
}

/* Measures what is asked of one machine's names. */
static void measure_names(int round, const unsigned char *chain, size_t chain_length) {
    echo(round);
    claim(REGISTER, round, &server, REGISTRATIONS, &THE_NAMES, 0, 1);
    claim_all(&logged, REGISTRATIONS, &THE_NAMES, 0);
    echo(round);
    claim(RENEW, round, &server, REGISTRATIONS, &THE_NAMES, 0, RENEWALS);
    claim(LOGGED_RENEW, round, &logged, REGISTRATIONS, &THE_NAMES, 0, RENEWALS);
    echo(round);
    claim(REFRESH, round, &server, REFRESHES, &THE_NAMES, 0, RENEWALS);
    claim(LOGGED_REFRESH, round, &logged, REFRESHES, &THE_NAMES, 0, RENEWALS);
    echo(round);
    queries(FEW_NAMES, round, &server, (struct asked){'N', FEW, FOUND, NULL, 0});
    echo(round);
    queries(ALL_NAMES, round, &server, (struct asked){'N', NAMES, FOUND, NULL, 0});
    queries(LOGGED_NAMES, round, &logged, (struct asked){'N', NAMES, FOUND, NULL, 0});
    echo(round);
    queries(NOT_THERE, round, &server, (struct asked){'X', NAMES, NOT_FOUND, NULL, 0});
    claim_all(&server, REGISTRATIONS, &THE_NAMES, 0);
    queries(CHAINS, round, &server, (struct asked){'N', FEW, FOUND, chain, chain_length});
    claim_all(&server, RELEASES, &THE_NAMES, 0);
    claim_all(&logged, RELEASES, &THE_NAMES, 0);
}

/* Measures what is asked of groups. */
static void measure_groups(int round) {
    claim(JOINING_SMALL, round, &server, REGISTRATIONS, &THE_SMALL_GROUP, 0, 1);
    queries(OF_SMALL_GROUP, round, &server, (struct asked){'S', 1, FOUND, NULL, 0});
    claim_all(&server, RELEASES, &THE_SMALL_GROUP, 0);
    claim(JOINING, round, &server, REGISTRATIONS, &THE_GROUP, 0, 1);
    claim(REJOINING, round, &server, REGISTRATIONS, &THE_GROUP, 0, 1);
    claim(REJOINING_BACK, round, &server, REGISTRATIONS, &THE_GROUP, 1, 1);
    queries(OF_GROUP, round, &server, (struct asked){'T', 1, CUT, NULL, 0});
    claim_all(&server, RELEASES, &THE_GROUP, 0);
}

static int by_size(const void *a, const void *b) {
    double d = *(const double *)a - *(const double *)b;
    return (d > 0) - (d < 0);
}

static double median(double *numbers) {
    qsort(numbers, ROUNDS, sizeof numbers[0], by_size);
    return numbers[ROUNDS / 2];
}

static void print_rows(void) {
    printf("%-40s %10s %12s\n", "", "a second", "us an answer");
    for (int row = 0; row < ROWS; row++) {
        printf("%-40s %10.0f %12.2f", TOLD[row].label, median(rates[row]), median(costs[row]));
        if (*TOLD[row].beside) printf("   %5.2f times %s", median(ratios[row]), TOLD[row].beside);
        if (TOLD[row].goal > 0) printf(", at most %.2f", TOLD[row].goal);
        printf("\n");
    }
}

int main(int count, char **words) {
    unsigned char chain[2048];
    size_t chain_length = put_chain(chain);
    struct rlimit files = {.rlim_cur = NAMES + GROUP + 64, .rlim_max = NAMES + GROUP + 64};
    if (count < 3) return fprintf(stderr, "usage: bench PROGRAM FOLDER [PORT]\n"), 2;
    if (setrlimit(RLIMIT_NOFILE, &files) < 0) fail("setrlimit");
    start(words[1], words[2], (uint16_t)(count > 3 ? atoi(words[3]) : 21937));
    sleep(LEASE + 1); /* a server is silent for the longest lease */
    long before = resident(server.pid), logged_before = resident(logged.pid);
    for (int round = 0; round < ROUNDS; round++) {
        measure_names(round, chain, chain_length);
        measure_groups(round);
    }
    print_rows();
    printf("resident memory: serve %ld kB, and %ld kB at the end; nbns %ld kB, and %ld kB at the end\n", before, resident(server.pid), logged_before, resident(logged.pid));
    printf("lost %lu, wrong %lu\n", lost, wrong);
    kill(logged.pid, SIGTERM);
    kill(server.pid, SIGTERM);
    kill(loop.pid, SIGTERM);
    return 0;
}
