/* How long queries take at `nbt nbns --state` while others renew, where a sync takes long.
 *
 *     cc -O2 -o /tmp/floods bench/floods.c && cc -shared -fPIC -O2 -o /tmp/slow_sync.so bench/slow_sync.c -ldl
 *     /tmp/floods PROGRAM FOLDER /tmp/slow_sync.so [PORT]
 *
 * It starts PROGRAM four times, on PORT of 127.0.0.1 and those after it, each with a folder of its own in FOLDER, which is there, and
 * with a library that makes each sync 0, 10, 50 or 200 ms longer, and none limits the changes of an address. After the silence it asks
 * each for a name that nobody renews, a query every 10 ms 500 times, but for no longer than ten seconds: alone, while one address renews
 * 2,000 times a second, and while 62 addresses do 1,000 times a second each. It prints the median and the 99th hundredth of the times of
 * those that were answered within a second, in ms, and how many were. */
#define _GNU_SOURCE
#include <arpa/inet.h>
#include <signal.h>
#include <stdio.h>
#include <stdlib.h>
#include <string.h>
#include <sys/prctl.h>
#include <sys/socket.h>
#include <sys/stat.h>
#include <sys/time.h>
#include <sys/wait.h>
#include <time.h>
#include <unistd.h>

#include "packets.h"

enum { SERVERS = 4, CLIENTS = 62, FIRST_CLIENT = 0x7f000101, ASKING = 0x7f000201, LEASE = 30, QUERIES = 500, EVERY_MS = 10, LONG = 10, SILENCE = 31 };

static const int delays[SERVERS] = {0, 10, 50, 200};

static void fail(const char *what) {
    perror(what);
    exit(1);
}

static double seconds(void) {
    struct timespec t;
    clock_gettime(CLOCK_MONOTONIC, &t);
    return (double)t.tv_sec + (double)t.tv_nsec / 1e9;
}

static int udp_socket(uint32_t ip) {
    struct sockaddr_in own = {.sin_family = AF_INET, .sin_addr.s_addr = htonl(ip)};
    struct timeval wait = {.tv_sec = 1};
    int s = socket(AF_INET, SOCK_DGRAM, 0);
    if (s < 0 || bind(s, (struct sockaddr *)&own, sizeof own) < 0) fail("socket");
    setsockopt(s, SOL_SOCKET, SO_RCVTIMEO, &wait, sizeof wait);
    return s;
}

static struct sockaddr_in server_at(int port) {
    return (struct sockaddr_in){.sin_family = AF_INET, .sin_addr.s_addr = htonl(INADDR_LOOPBACK), .sin_port = htons((uint16_t)port)};
}

static pid_t start(const char *program, const char *folder, const char *library, int port, int delay) {
    char state[400], bind_to[40], ms[20];
    snprintf(state, sizeof state, "%s/%d", folder, delay);
    snprintf(bind_to, sizeof bind_to, "127.0.0.1:%d", port);
    snprintf(ms, sizeof ms, "%d", delay);
    if (mkdir(state, 0700) < 0) fail(state);
    pid_t child = fork();
    if (child) return child;
    prctl(PR_SET_PDEATHSIG, SIGKILL);
    setenv("LD_PRELOAD", library, 1);
    setenv("SLOW_SYNC_MS", ms, 1);
    if (!freopen("/dev/null", "w", stdout)) fail("/dev/null");
    execl(program, program, "nbns", "--bind", bind_to, "--state", state, "--longest", "30s", "--rows-per-client", "4096", "--changes-per-client", "0", (char *)NULL);
    fail(program);
    return 0;
}

/* Renews so many times a second, from so many addresses in turn, until it is killed. It reads no reply. */
static pid_t flood(int port, unsigned clients, unsigned a_second) {
    pid_t child = fork();
    if (child) return child;
    prctl(PR_SET_PDEATHSIG, SIGKILL);
    int sockets[CLIENTS];
    struct sockaddr_in server = server_at(port);
    unsigned char out[80];
    for (unsigned k = 0; k < clients; k++) sockets[k] = udp_socket(FIRST_CLIENT + k);
    double begun = seconds();
    for (unsigned long sent = 0;;) {
        unsigned long due = (unsigned long)((seconds() - begun) * a_second);
        for (; sent < due; sent++) {
            unsigned client = (unsigned)(sent % clients);
            size_t length = put_registration(out, (uint16_t)sent, 'F', client, LEASE);
            put_long(out + ADDRESS_AT, FIRST_CLIENT + client);
            sendto(sockets[client], out, length, 0, (struct sockaddr *)&server, sizeof server);
        }
        usleep(500);
    }
}

static int by_time(const void *a, const void *b) {
    double x = *(const double *)a, y = *(const double *)b;
    return (x > y) - (x < y);
}

static void ask(const char *beside, int s, int port) {
    struct sockaddr_in server = server_at(port);
    static double times[QUERIES];
    unsigned answered = 0;
    unsigned char out[80], in[600];
    double first = seconds();
    unsigned asked = 0;
    for (unsigned k = 0; k < QUERIES && seconds() - first < LONG; k++, asked++) {
        double begun = seconds();
        size_t length = put_query(out, (uint16_t)(k + 1), 'Q', 0);
        if (sendto(s, out, length, 0, (struct sockaddr *)&server, sizeof server) < 0) fail("sendto");
        ssize_t got;
        do got = recv(s, in, sizeof in, 0);
        while (got > 2 && word_at(in) != (int)(k + 1));
        if (got > 2) times[answered++] = 1000 * (seconds() - begun);
        while (seconds() - begun < EVERY_MS / 1000.0) usleep(200);
    }
    qsort(times, answered, sizeof *times, by_time);
    if (answered) printf("    %-14s %8.3f %8.3f ms, %u of %u answered\n", beside, times[answered / 2], times[answered * 99 / 100], answered, asked);
    else printf("    %-14s none of %u was answered\n", beside, asked);
    fflush(stdout);
}

int main(int count, char **words) {
    if (count < 4) return 2;
    int first = count > 4 ? atoi(words[4]) : 21990, s = udp_socket(ASKING);
    pid_t servers[SERVERS];
    for (int k = 0; k < SERVERS; k++) servers[k] = start(words[1], words[2], words[3], first + k, delays[k]);
    sleep(SILENCE);
    for (int k = 0; k < SERVERS; k++) {
        printf("a sync takes %d ms longer\n", delays[k]);
        ask("alone", s, first + k);
        pid_t child = flood(first + k, 1, 2000);
        ask("one address", s, first + k);
        kill(child, SIGKILL), waitpid(child, NULL, 0);
        sleep(1);
        child = flood(first + k, CLIENTS, 62000);
        ask("62 addresses", s, first + k);
        kill(child, SIGKILL), waitpid(child, NULL, 0);
    }
    for (int k = 0; k < SERVERS; k++) kill(servers[k], SIGKILL);
    return 0;
}
