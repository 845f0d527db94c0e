/* What the library for C takes to read a packet, beside glibc's bare parser, on the same octets.
 *
 * The library's call is nbt_server_on_datagram at a server that is silent after its start: it reads the packet, its names into
 * sixteen octets each, says which message it spells, if any, and does nothing more. glibc's calls are ns_initparse, and then
 * ns_parserr of each question and record: they write each name as text, and know no messages.
 *
 *     parser          prints a line for each packet: what it is, and the nanoseconds that either takes, with tabs between them
 *     parser count    has callgrind count the instructions of both
 */
#include <arpa/nameser.h>
#include <nbt.h>
#include <resolv.h>
#include <stdio.h>
#include <stdlib.h>
#include <string.h>
#include <time.h>

#include "counting.h"
#include "packets.h"

enum { ROUNDS = 9, CALLS = 20000, COUNTED = 100, MEMBERS = 100, LEASE = 3600, PACKETS = 6 };

/* When a server that was started at 0 speaks, in milliseconds. */
enum { SPEAKS = 1000 * LEASE };

static const struct nbt_config LIMITS = {.life = 1000, .longest = LEASE, .rows = 4096};

/* A packet, and how many questions and records it has. */
struct packet {
    const char *what;
    int records;
    size_t size;
    unsigned char octets[2048];
};

static struct packet packets[PACKETS];

/* One way to read a packet. */
typedef void reader(const struct packet *);

static union nbt_server_memory silent_memory, speaking_memory;
static struct nbt_server silent = {&silent_memory}, speaking = {&speaking_memory};

static void fail(const char *what) {
    fprintf(stderr, "parser: %s\n", what);
    exit(1);
}

/* Gives a server a packet, and returns how many octets its reply has. */
static size_t give(struct nbt_server *server, uint64_t now, uint32_t ip, const struct packet *packet, unsigned char *out) {
    struct nbt_addr from = {.ip = ip, .port = 137};
    size_t size = 0;
    uint8_t result = nbt_server_on_datagram(server, now, from, packet->octets, packet->size, out, &size);
    if (result != NBT_DONE) fail("the server refused a datagram");
    return size;
}

/* Makes one packet the speaking server's reply to another. */
static void make_reply(struct packet *reply, const char *what, uint32_t ip, const struct packet *asked, size_t size) {
    unsigned char out[NBT_PACKET];
    reply->what = what;
    reply->records = 1;
    reply->size = give(&speaking, SPEAKS, ip, asked, out);
    if (reply->size != size) fail("the server's reply isn't as long as it has to be");
    memcpy(reply->octets, out, size);
}

/* Makes the reply to a query of a group, which has as many entries as fit. */
static void make_group_reply(struct packet *reply) {
    struct packet asked, joined;
    for (unsigned member = 0; member < MEMBERS; member++) {
        asked.size = put_membership(asked.octets, 3, 'G', member, LEASE);
        make_reply(&joined, "", member_ip(member), &asked, 62);
    }
    asked.size = put_query(asked.octets, 4, 'G', 0);
    make_reply(reply, "a query's reply with 86 entries", LOOPBACK, &asked, 572);
}

/* Makes the packets: two requests, their replies, the longest reply to a query, and one that spells no message. */
static void make_packets(void) {
    struct packet *query = &packets[0], *registration = &packets[1], *chain = &packets[5];
    query->what = "query";
    query->records = 1;
    query->size = put_query(query->octets, 1, 'N', 0);
    registration->what = "registration";
    registration->records = 2;
    registration->size = put_registration(registration->octets, 2, 'N', 0, LEASE);
    make_reply(&packets[2], "its reply", LOOPBACK, registration, 62);
    make_reply(&packets[3], "a query's reply with 1 entry", LOOPBACK, query, 62);
    make_group_reply(&packets[4]);
    chain->what = "a chain of 990 pointers";
    chain->records = 2;
    chain->size = put_chain(chain->octets);
}

static void read_by_library(const struct packet *packet) {
    unsigned char out[NBT_PACKET];
    if (give(&silent, 0, LOOPBACK, packet, out) != 0) fail("a silent server replied");
}

static void read_by_glibc(const struct packet *packet) {
    ns_msg message;
    ns_rr record;
    int records = 0;
    if (ns_initparse(packet->octets, (int)packet->size, &message) < 0) fail("ns_initparse");
    for (int section = 0; section < ns_s_max; section++) {
        for (int k = 0; k < ns_msg_count(message, (ns_sect)section); k++) {
            if (ns_parserr(&message, (ns_sect)section, k, &record) < 0) fail("ns_parserr");
            records++;
        }
    }
    if (records != packet->records) fail("glibc reads another count of records");
}

static double nanoseconds(void) {
    struct timespec now;
    clock_gettime(CLOCK_MONOTONIC, &now);
    return (double)now.tv_sec * 1e9 + (double)now.tv_nsec;
}

static double time_of(reader *read, const struct packet *packet) {
    double begun = nanoseconds();
    for (int k = 0; k < CALLS; k++) read(packet);
    return (nanoseconds() - begun) / CALLS;
}

static int by_size(const void *a, const void *b) {
    double difference = *(const double *)a - *(const double *)b;
    return (difference > 0) - (difference < 0);
}

static double median(double *times) {
    qsort(times, ROUNDS, sizeof times[0], by_size);
    return times[ROUNDS / 2];
}

/* Prints the medians of the rounds, in each of which one way is timed after the other. */
static void print_times(const struct packet *packet) {
    double library[ROUNDS], glibc[ROUNDS];
    for (int round = 0; round < ROUNDS; round++) {
        library[round] = time_of(read_by_library, packet);
        glibc[round] = time_of(read_by_glibc, packet);
    }
    printf("%s\t%.0f\t%.0f\n", packet->what, median(library), median(glibc));
}

static void count_instructions(const char *who, reader *read, const struct packet *packet) {
    for (int k = 0; k < COUNTED; k++) {
        START_COUNTING;
        read(packet);
        STOP_COUNTING;
    }
    count_as(packet->what, who, COUNTED);
}

int main(int count, char **words) {
    int is_counted = count == 2 && !strcmp(words[1], "count");
    if (count != 1 && !is_counted) return fprintf(stderr, "usage: parser [count]\n"), 2;
    if (nbt_server_start(&silent, LIMITS, 0) || nbt_server_start(&speaking, LIMITS, 0)) fail("a server can't start");
    make_packets();
    for (int k = 0; k < PACKETS; k++) {
        read_by_library(&packets[k]);
        read_by_glibc(&packets[k]);
        if (is_counted) {
            count_instructions("library", read_by_library, &packets[k]);
            count_instructions("glibc", read_by_glibc, &packets[k]);
        } else {
            print_times(&packets[k]);
        }
    }
    nbt_server_end(&silent);
    nbt_server_end(&speaking);
    return 0;
}
