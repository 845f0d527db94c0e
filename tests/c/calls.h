/* The calls of the library that a scene may make, by their words; what they are given, and what they write. */
#include <nbt.h>
#include <stdio.h>
#include <stdlib.h>
#include <string.h>

#define COUNT(array) (sizeof(array) / sizeof(array)[0])
#define UNTOUCHED 0x55 /* what stands in all that a call may write, before it is made */

/* One object of each kind, whose memory is static, between octets that nobody writes. */
struct objects {
    struct nbt_node node;
    struct nbt_joiner joiner;
    struct nbt_pieces pieces;
    struct nbt_caller caller;
    struct nbt_listener listener;
    struct nbt_server server;
};
static struct objects it;

/* What the next call is given. */
struct given {
    uint64_t now;
    struct nbt_addr from, own;
    struct nbt_config config;
    struct nbt_name name, other;
    struct nbt_session_packet packet;
    struct nbt_entry entry;
    size_t number, room, count;
    uint8_t kind, octets[1024];
    char word[64], scope[64];
};
static struct given in;

/* What a call may write, and how much of the stack it took. */
struct written {
    uint8_t result, next, state, held;
    uint64_t due;
    size_t place, size, second_size;
    struct nbt_addr to;
    struct nbt_name name;
    struct nbt_event event;
    struct nbt_accept accept;
    struct nbt_datagram datagram;
    struct nbt_part part;
    struct nbt_answer answer;
    struct nbt_lease lease;
    uint8_t out[NBT_PACKET + 1], second[NBT_PACKET + 1], lent[NBT_PACKET];
    char text[NBT_SCOPE_TEXT];
};
static struct written out;

/* The groups of calls, and the most of the stack that a call of each may take: here where gcc and clang build for x86-64, and gcc for
 * aarch64; targets.txt has those of other processors. docs/C.md says what is wished for. */
enum group { OF_RESULTS, OF_NAMES, OF_TEXTS, OF_NODES, OF_DATAGRAMS, OF_STREAMS, OF_CALLERS, OF_LISTENERS, OF_SERVERS };
#ifndef STACK_MOST
#define STACK_MOST 128, 2048, 6144, 2048, 3584, 4608, 4096, 6400, 6400
#endif

static const char *const GROUPS[] = {"results", "names", "texts", "nodes", "datagrams", "streams", "callers", "listeners", "servers"};
static const size_t MOST[COUNT(GROUPS)] = {STACK_MOST};

/* A call: its word, whose result it has, the letters of what it is given, its group, and what makes it. */
struct call {
    const char *word;
    uint8_t calls;
    const char *letters;
    enum group group;
    void (*make)(void);
};

/* A part that is a packet is what a later call is given. */
static uint8_t take(void) {
    const uint8_t result = nbt_pieces_take(&it.pieces, in.octets, in.count, &out.part, &out.place);
    if (result == NBT_DONE && out.part.kind == NBT_PART_PACKET)
        in.packet = out.part.packet;
    return result;
}

static uint8_t give(void) {
    in.packet.to = in.from;
    in.packet.code = (uint8_t)in.number;
    in.packet.called = in.name;
    in.packet.calling = in.other;
    return NBT_DONE;
}

static uint8_t listen(void) {
    in.entry.called = in.name;
    in.entry.by_one = in.number != 0;
    in.entry.calling = in.other;
    return nbt_listener_listen(&it.listener, &in.entry);
}

/* A size or an alignment is a place. */
static uint8_t tell_size(size_t size) {
    out.place = size;
    return NBT_DONE;
}

#define X(word, calls, letters, group, call) \
    static void make_##word(void) { out.result = call; }
#include "calls.txt"
#undef X

#define X(word, calls, letters, group, call) {#word, NBT_OF_##calls, letters, group, make_##word},
static const struct call CALLS[] = {
#include "calls.txt"
};
