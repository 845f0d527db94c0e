/* What a datagram costs a name server, by how many names or members there are: for callgrind, which counts the instructions of
 * nbt_server_on_datagram, the library's call. There is no port, and the clock is a number that grows by 1 ms with each datagram. Each
 * reply's flags are checked. A lease lasts longer than the counts take, so that leases expire only where that is counted. */
#include <nbt.h>
#include <stdio.h>
#include <stdlib.h>
#include <string.h>

#include "counting.h"
#include "packets.h"

/* How many calls are counted for a mean; how many seconds a lease lasts; how far from one name to the next that is picked; and the most
 * entries of a reply. */
enum { COUNTED = 1000, LEASE = 36000, STRIDE = 97, ENTRIES = 86 };

/* The flags of replies (RFC 1002 sections 4.2.5, 4.2.10, 4.2.13 and 4.2.14). */
enum { GRANTED = 0xad80, RELEASED = 0xb400, FOUND = 0x8580, CUT = 0x8780, NOT_FOUND = 0x8583 };

static const struct nbt_config LIMITS = {.life = 1000, .longest = LEASE, .rows = 4096};
static const unsigned HELD[] = {10, 100, 1000, 4096};
static const unsigned MEMBERS[] = {1, 80, 1000};

static union nbt_server_memory memory;
static struct nbt_server server = {&memory};
static uint64_t now;
static unsigned char packet[80];
static size_t packet_size;
static int is_counted;

static void fail(const char *what) {
    fprintf(stderr, "growth: %s\n", what);
    exit(1);
}

/* Starts a server without names, and lets its silence pass. */
static void start(void) {
    now = 0;
    if (nbt_server_start(&server, LIMITS, now) != NBT_DONE) fail("the server can't start");
    now = 1000 * (uint64_t)LEASE;
}

/* Gives the server the packet, from this address, and checks its reply's flags. */
static void give(uint32_t ip, int reply) {
    unsigned char out[NBT_PACKET];
    struct nbt_addr from = {.ip = ip, .port = 137};
    size_t size = 0;
    uint8_t result;
    now++;
    if (is_counted) START_COUNTING;
    result = nbt_server_on_datagram(&server, now, from, packet, packet_size, out, &size);
    if (is_counted) STOP_COUNTING;
    if (result != NBT_DONE || size == 0 || word_at(out + 2) != reply) fail("not the reply that is due");
}

static void query(char letter, unsigned number, int reply) {
    packet_size = put_query(packet, (uint16_t)now, letter, number);
    give(LOOPBACK, reply);
}

/* A registration, which renews a lease that is there. */
static void register_name(unsigned number) {
    packet_size = put_registration(packet, (uint16_t)now, 'N', number, LEASE);
    give(LOOPBACK, GRANTED);
}

static void refresh(unsigned number) {
    packet_size = put_registration(packet, (uint16_t)now, 'N', number, LEASE);
    make_refresh(packet);
    give(LOOPBACK, GRANTED);
}

static void release(unsigned number) {
    packet_size = put_registration(packet, (uint16_t)now, 'N', number, LEASE);
    make_release(packet);
    give(LOOPBACK, RELEASED);
}

static void join(unsigned member) {
    packet_size = put_membership(packet, (uint16_t)now, 'G', member, LEASE);
    give(member_ip(member), GRANTED);
}

/* A number among so many, another each time. */
static unsigned pick(unsigned k, unsigned held) {
    return k * STRIDE % held;
}

/* Counts from here on; and ends it, for this row and the column of so many names or members. */
static void begin(void) {
    is_counted = 1;
}

static void end(const char *row, unsigned number, const char *unit, unsigned calls) {
    char column[32];
    is_counted = 0;
    snprintf(column, sizeof column, "%u %s", number, unit);
    count_as(row, column, calls);
}

/* Registers so many names, one after the other, and counts that. */
static void register_all(unsigned held) {
    begin();
    for (unsigned k = 0; k < held; k++) register_name(k);
    end("registration, mean from the first name on", held, "names", held);
}

/* Queries of names that are held, and of ones that aren't. */
static void count_queries(unsigned held) {
    begin();
    for (unsigned k = 0; k < COUNTED; k++) query('N', pick(k, held), FOUND);
    end("query", held, "names", COUNTED);
    begin();
    for (unsigned k = 0; k < COUNTED; k++) query('X', k, NOT_FOUND);
    end("query of a name that nobody holds", held, "names", COUNTED);
}

/* Renewals and refreshes, of the name with the first expiry each time, as it is where each owner renews in time. */
static void count_renewals(unsigned held) {
    begin();
    for (unsigned k = 0; k < COUNTED; k++) register_name(k % held);
    end("renewal", held, "names", COUNTED);
    begin();
    for (unsigned k = COUNTED; k < 2 * COUNTED; k++) refresh(k % held);
    end("refresh", held, "names", COUNTED);
}

/* Registrations of a new name, which is the last of so many, and before each the release of one. */
static void count_registrations(unsigned held) {
    for (unsigned k = 0; k < COUNTED; k++) {
        release(pick(k, held));
        begin();
        register_name(pick(k, held));
        is_counted = 0;
    }
    end("registration of a new name", held, "names", COUNTED);
    for (unsigned k = 0; k < COUNTED; k++) {
        begin();
        release(pick(k, held));
        is_counted = 0;
        register_name(pick(k, held));
    }
    end("release", held, "names", COUNTED);
}

/* One query when all leases have just expired: the server takes them out then. */
static void count_expiry(unsigned held) {
    now += 1000 * (uint64_t)LEASE;
    begin();
    query('N', 0, NOT_FOUND);
    end("query, all of them expired since the last", held, "names", 1);
}

/* Queries of a group of so many members, and renewals: each by the member with the first expiry; then from the last member on, so that
 * another one has it. */
static void count_group(unsigned members) {
    for (unsigned k = 0; k < members; k++) join(k);
    begin();
    for (unsigned k = 0; k < COUNTED; k++) query('G', 0, members > ENTRIES ? CUT : FOUND);
    end("query of a group", members, "members", COUNTED);
    begin();
    for (unsigned k = 0; k < members; k++) join(k);
    end("renewal by the member with the first expiry", members, "members", members);
    if (members == 1) return;
    begin();
    for (unsigned k = members - 1; k > 0; k--) join(k);
    end("renewal by another member", members, "members", members - 1);
}

int main(void) {
    for (size_t k = 0; k < sizeof HELD / sizeof HELD[0]; k++) {
        start();
        register_all(HELD[k]);
        count_queries(HELD[k]);
        count_renewals(HELD[k]);
        count_registrations(HELD[k]);
        count_expiry(HELD[k]);
        nbt_server_end(&server);
    }
    for (size_t k = 0; k < sizeof MEMBERS / sizeof MEMBERS[0]; k++) {
        start();
        count_group(MEMBERS[k]);
        nbt_server_end(&server);
    }
    return 0;
}
