/* SPDX-License-Identifier: MIT OR Apache-2.0 */
/*
 * nbt: the NetBIOS name, datagram and session services (RFC 1001 and 1002), for programs in C.
 *
 * The library opens no socket, reads no clock, starts no thread and keeps nothing of its own between two calls: octets and
 * times go in, octets come out. Names, nodes, datagrams and sessions take no memory; a name server asks malloc for its leases.
 *
 * What holds of every call:
 *
 *   - A pointer leads to as many octets or values as its parameter says, is aligned for its type and is not null. None may be
 *     null: also where a length or a room is 0. What it leads to may be written by no one else during the call, and two pointers of
 *     one call lead to places that do not overlap where one of them isn't const. The caller must ensure it; nothing tests it.
 *   - No two calls run at the same time with the same object, also where it is const: a program with threads has one lock for each
 *     object. A const pointer to an object says that the object stays as it is.
 *   - Numbers may be any: each length, place and count is tested.
 *   - A result is 0, or the number of what is wrong, by the names below. Numbers from 249 on mean one thing, whichever call returns
 *     them. Numbers from 1 to 248 mean something only together with the call: nbt_result_text is told both. What a call writes
 *     where the result isn't 0 stands above it; all else stays as it was.
 *   - Sizes are octets, unless it says otherwise. Scopes and words are octets with a length, not texts that a zero ends.
 */
#ifndef NBT_H
#define NBT_H

#include <stdbool.h>
#include <stddef.h>
#include <stdint.h>

/* What the compiler is to refuse where it doesn't hold, from C11 and C++11 on. */
#if defined(__cplusplus) && __cplusplus >= 201103L
#define NBT_ASSERT(holds, text) static_assert(holds, text)
#elif defined(__STDC_VERSION__) && __STDC_VERSION__ >= 201112L
#define NBT_ASSERT(holds, text) _Static_assert(holds, text)
#else
#define NBT_ASSERT(holds, text) struct nbt_asserts_nothing
#endif

/*
 * Where pointers have 32 bits, little end first, structs lie as where they have 64: a size in a struct has 8 octets there, of which the
 * last 4 are 0, and stands at a multiple of 8, as an object's memory does.
 */
#if defined(__SIZEOF_POINTER__) && __SIZEOF_POINTER__ == 4
#define NBT_ALIGNED __attribute__((aligned(8)))
#define NBT_SIZE(name) NBT_ALIGNED size_t name; uint32_t name##_is_0
NBT_ASSERT(sizeof(size_t) == 4, "nbt: sizes have 32 bits");
#else
#define NBT_ALIGNED
#define NBT_SIZE(name) size_t name
NBT_ASSERT(sizeof(void *) == 8 && sizeof(size_t) == 8, "nbt: pointers and sizes have 64 bits");
#endif

#ifdef __cplusplus
extern "C" {
#endif

/*
 * The version of this header, and that of the library: 10,000 for each MAJOR, 100 for each MINOR, and 1 for each PATCH. Before 1.0.0 a
 * MINOR may change a size, a struct or a call. The number of a result, an event, a kind or a state never changes.
 */
#define NBT_VERSION_MAJOR 0
#define NBT_VERSION_MINOR 1
#define NBT_VERSION_PATCH 0
#define NBT_VERSION (10000 * NBT_VERSION_MAJOR + 100 * NBT_VERSION_MINOR + NBT_VERSION_PATCH)
uint32_t nbt_version(void);

/* What any call can return (our profile). */
enum {
    NBT_DONE = 0,
    NBT_NO_NAME = 255,    /* a struct nbt_name holds no name */
    NBT_NO_ROOM = 254,    /* the caller's buffer is too small */
    NBT_NO_MOMENT = 253,  /* a time is above 2^60 ms */
    NBT_NO_KIND = 252,    /* a kind is none of those that the call takes */
    NBT_NO_PLACE = 251,   /* a place is above the number of the octets */
    NBT_NO_LEASE = 250,   /* there are no more leases */
    NBT_NOTHING_DUE = 249 /* there is no time at which something is due */
};

/* Whose result it is that nbt_result_text is to tell. */
enum {
    NBT_OF_ANY = 0,       /* of a call that returns nothing but what any call can */
    NBT_OF_NAME = 1,      /* nbt_name_make, nbt_name_any */
    NBT_OF_WORD = 2,      /* nbt_name_read */
    NBT_OF_WIRE = 3,      /* nbt_name_from_wire, nbt_name_in_packet */
    NBT_OF_START = 4,     /* nbt_node_start, nbt_node_start_from, nbt_server_start */
    NBT_OF_ASK = 5,       /* nbt_node_ask */
    NBT_OF_RELEASE = 6,   /* nbt_node_release */
    NBT_OF_LOOKUP = 7,    /* nbt_node_resolve, nbt_node_name_status */
    NBT_OF_NODE = 8,      /* nbt_node_on_datagram, nbt_node_poll, nbt_node_state */
    NBT_OF_DATAGRAM = 9,  /* nbt_datagram_read */
    NBT_OF_SPLIT = 10,    /* nbt_datagram_split */
    NBT_OF_STREAM = 11,   /* nbt_pieces_take */
    NBT_OF_MESSAGE = 12,  /* nbt_session_message */
    NBT_OF_SERVER = 13    /* nbt_server_on_datagram, nbt_server_lease, nbt_server_row */
};

/* What a result means, in English, at most 63 characters; zeros end it, and fill `out` up. */
#define NBT_RESULT_TEXT 64
void nbt_result_text(uint8_t calls, uint8_t result, char out[NBT_RESULT_TEXT]);

/* ---- names */

/*
 * A name (RFC 1001 section 14), 238 octets. The calls below fill it in, the rest of `scope` with zeros: so two names are equal
 * where their structs' octets are. A program may fill it in too; a call that is given one tests it.
 */
struct nbt_name {
    uint8_t octets[16]; /* the last of them mostly a service's number */
    uint8_t scope_size; /* how many octets of scope count: 0 to 221 */
    uint8_t scope[221]; /* labels, each after its length octet, without the closing zero */
};
NBT_ASSERT(sizeof(struct nbt_name) == 238 && offsetof(struct nbt_name, scope) == 17, "nbt: struct nbt_name");

/* Why sixteen octets and a scope make no name, in this order (our profile). */
enum {
    NBT_NAME_STAR = 1,       /* the first octet is '*', with which no machine's name begins (RFC 1001 section 5.2) */
    NBT_NAME_SCOPE_LONG = 2, /* the scope has more than 221 octets */
    NBT_NAME_BAD_LABEL = 3   /* the scope is no row of labels of 1 to 63 octets (RFC 1002 section 4.1) */
};

/* The name of sixteen octets and a scope. */
uint8_t nbt_name_make(const uint8_t octets[16], const uint8_t *scope, size_t scope_size, struct nbt_name *out);

/* The name that stands for all names of a scope: '*' and fifteen zeros (RFC 1002 section 4.2.17). Never NBT_NAME_STAR. */
uint8_t nbt_name_any(const uint8_t *scope, size_t scope_size, struct nbt_name *out);

/* What is wrong with a word that is to spell a name (our profile). */
enum {
    NBT_WORD_EMPTY = 1,     /* no character stands before the suffix */
    NBT_WORD_LONG = 2,      /* more than 15 do: *place is how many */
    NBT_WORD_CHARACTER = 3, /* at *place, counted from 0, stands an octet outside 0x21 to 0x7E */
    NBT_WORD_SUFFIX = 4,    /* a suffix is #20 or <20>, with two hexadecimal digits */
    NBT_WORD_DIGITS = 5,    /* hex: stands before 32 hexadecimal digits */
    NBT_WORD_SCOPE = 6      /* the scope can't be read */
};

/*
 * The name that a word spells as tools do: FILER, FILER#20, FILER<20>, * or hex: and 32 digits; with the scope of a text:
 * NETBIOS.COM, or nothing. Small letters become capitals unless `exact` is true. Writes *place: 0 where it isn't said above.
 */
uint8_t nbt_name_read(bool exact, const char *word, size_t word_size, const char *scope, size_t scope_size, struct nbt_name *out,
                      size_t *place);

/* The size of a buffer for any word that is written, and for any scope's text. */
#define NBT_WORD 36
#define NBT_SCOPE_TEXT 1104

/*
 * A name as text, at the front of `out`, a buffer of `room` characters. Writes *size, how many they are; no zero ends them.
 * The word is FILER#20, or hex: and 32 digits where the octets can't be written so; the scope is NETBIOS.COM, or nothing, and a
 * label of it that can't stand as it is, is hex: and digits. nbt_name_read reads both again, where `exact` is true. NBT_NO_NAME;
 * NBT_NO_ROOM.
 */
uint8_t nbt_name_to_word(const struct nbt_name *name, char *out, size_t room, size_t *size);
uint8_t nbt_name_to_scope(const struct nbt_name *name, char *out, size_t room, size_t *size);

/*
 * The name's wire form (RFC 1002 section 4.1), 34 to 255 octets, at the front of `out`, which has `room` of them. Writes *size,
 * how many they are. NBT_NO_NAME; NBT_NO_ROOM.
 */
uint8_t nbt_name_to_wire(const struct nbt_name *name, uint8_t *out, size_t room, size_t *size);

/* What is wrong with octets where a name is due (RFC 1002 section 4.1; the numbers are our profile's). */
enum {
    NBT_WIRE_SHORT = 1,       /* the octets end within the name */
    NBT_WIRE_BAD_LABEL = 2,   /* no label begins with this octet */
    NBT_WIRE_BAD_HALF = 3,    /* one of the 32 letters is outside 'A' to 'P' */
    NBT_WIRE_BAD_POINTER = 4, /* a pointer that doesn't lead to a smaller place, or one in a plain name */
    NBT_WIRE_LONG = 5         /* with this label the wire form would pass 255 octets */
};

/*
 * The name at a place of the octets, counted from 0, without pointers; in a packet pointers to smaller places are followed.
 * Writes *next: the place after the name, or that of the fault. NBT_NO_PLACE: nothing is written.
 */
uint8_t nbt_name_from_wire(const uint8_t *octets, size_t size, size_t place, struct nbt_name *out, size_t *next);
uint8_t nbt_name_in_packet(const uint8_t *octets, size_t size, size_t place, struct nbt_name *out, size_t *next);

/* ---- endpoints and limits */

/* An endpoint, 8 octets: numbers in the machine's byte order, so that 10.0.0.1 is 0x0A000001. */
struct nbt_addr {
    uint32_t ip;
    uint16_t port;
};
NBT_ASSERT(sizeof(struct nbt_addr) == 8 && offsetof(struct nbt_addr, port) == 4, "nbt: struct nbt_addr");

/* The limits that a server and its nodes share (our profile). */
struct nbt_config {
    uint64_t life;    /* the greatest life of one datagram, 1 to 60,000 milliseconds */
    uint32_t longest; /* the longest lease, 1 to 1,000,000 seconds */
    uint32_t rows;    /* the most live leases of a server, 1 to 4,096 */
};
NBT_ASSERT(sizeof(struct nbt_config) == 16 && offsetof(struct nbt_config, rows) == 12, "nbt: struct nbt_config");

enum {
    NBT_CONFIG_LIFE = 1,
    NBT_CONFIG_LONGEST = 2,
    NBT_CONFIG_ROWS = 3
};

/* Who may hold a name (RFC 1001 section 5.2). */
enum {
    NBT_UNIQUE = 0, /* one machine at a time */
    NBT_GROUP = 1   /* any number of machines */
};

/* The most octets of a packet over UDP (RFC 1002 section 6). */
#define NBT_PACKET 576

/* ---- a node (RFC 1001 section 15): it takes no memory but what the program provides */

/*
 * How many names a node has at most, those that are being released or rest among them: 14. A program whose library was made for 1 or 4
 * (tools/c_library --names) sets this number before it includes this file. The calls that start a node have other names in such a
 * library, so that no program gives a node less memory than it takes: it doesn't link.
 */
#ifndef NBT_NODE_NAMES
#define NBT_NODE_NAMES 14
#endif

/*
 * A node's memory: what the two functions return, and a type of that size and alignment, so that it can be static. Each object's memory
 * has a type of its own. Another's in its place is an error in C++; in C compilers warn, and with -Werror=incompatible-pointer-types, which
 * gcc has by itself from 14 on, it is one too. Octets that a program gets elsewhere, of that size and alignment, it casts.
 */
#if NBT_NODE_NAMES == 14
#define NBT_NODE_SIZE 4944
#elif NBT_NODE_NAMES == 4
#define NBT_NODE_SIZE 1664
#define nbt_node_start nbt_node_start_of_4
#define nbt_node_start_from nbt_node_start_from_of_4
#elif NBT_NODE_NAMES == 1
#define NBT_NODE_SIZE 680
#define nbt_node_start nbt_node_start_of_1
#define nbt_node_start_from nbt_node_start_from_of_1
#else
#error "NBT_NODE_NAMES is 1, 4 or 14"
#endif
#define NBT_NODE_ALIGN 8
union nbt_node_memory {
    NBT_ALIGNED uint64_t aligned;
    uint8_t octets[NBT_NODE_SIZE];
};
NBT_ASSERT(sizeof(union nbt_node_memory) == NBT_NODE_SIZE, "nbt: union nbt_node_memory");

/*
 * A node: `memory` leads to nbt_node_size() octets, aligned to nbt_node_align(), which are the node's from its start on and which
 * no one else reads or writes. The program sets `memory` before the start, copies no struct nbt_node, and may let the memory go at
 * any time, once it calls nothing more with the node. All other calls are for a node that was started.
 *
 * Times, `now`, are milliseconds of a monotonic clock, as CLOCK_MONOTONIC: 0 to 2^60.
 */
struct nbt_node {
    union nbt_node_memory *memory;
};
size_t nbt_node_size(void);
size_t nbt_node_align(void);

/*
 * A node at `own` whose name server is at `server`: both with the port of names, mostly 137, and not with that of datagrams. After the
 * device's address or its server changed, or its clock stood while it slept, it is started anew in the same memory, and its names are
 * requested anew; a network that was away for a while needs nothing. NBT_CONFIG_*; NBT_NO_MOMENT.
 */
uint8_t nbt_node_start(struct nbt_node *node, struct nbt_addr own, struct nbt_addr server, struct nbt_config config, uint64_t now);

/* The same, but the ids of the node's requests count from `first_id`, and not from 1. Pass one that differs from start to start, as a
 * random number, or milliseconds of a clock that goes on over a restart: a reply to an earlier life of the node that comes too late is
 * then not taken for one to this life. */
uint8_t nbt_node_start_from(struct nbt_node *node, struct nbt_addr own, struct nbt_addr server, struct nbt_config config, uint64_t now,
                            uint16_t first_id);

/* Why a name isn't registered, released or looked up (our profile). They are tried in this order: CLOCK_BACK, BAD_NAME, BUSY or
 * NOT_HELD, QUIET, FULL. */
enum {
    NBT_ASK_QUIET = 1,        /* the name is being released, or rests, or the node rests since its start */
    NBT_ASK_BUSY = 2,         /* it is being registered, or is held */
    NBT_ASK_FULL = 3,         /* no slot is free */
    NBT_ASK_CLOCK_BACK = 4,   /* `now` is before the start, or before an earlier call that wasn't refused */
    NBT_ASK_BAD_NAME = 5,     /* the name begins with '*' */
    NBT_RELEASE_NOT_HELD = 1,
    NBT_RELEASE_CLOCK_BACK = 4,
    NBT_LOOKUP_BUSY = 2,      /* a lookup is open */
    NBT_LOOKUP_CLOCK_BACK = 4,
    NBT_LOOKUP_BAD_NAME = 5,
    NBT_CLOCK_BACK = 4
};

/*
 * Each of these writes *size: how many octets of `out` are a packet to be sent, 0 where the result isn't 0. The packet is for the
 * server; that of nbt_node_name_status is for `to`. `ttl` is in seconds, 0 for as long as may be. Also NBT_NO_MOMENT, NBT_NO_NAME,
 * NBT_NO_KIND, in this order, before the node's own.
 */
uint8_t nbt_node_ask(struct nbt_node *node, uint64_t now, const struct nbt_name *name, uint8_t kind, uint32_t ttl,
                     uint8_t out[NBT_PACKET], size_t *size);
uint8_t nbt_node_release(struct nbt_node *node, uint64_t now, const struct nbt_name *name, uint8_t out[NBT_PACKET], size_t *size);
uint8_t nbt_node_resolve(struct nbt_node *node, uint64_t now, const struct nbt_name *name, uint8_t out[NBT_PACKET], size_t *size);
uint8_t nbt_node_name_status(struct nbt_node *node, uint64_t now, struct nbt_addr to, const struct nbt_name *name,
                             uint8_t out[NBT_PACKET], size_t *size);

/* What a datagram was to a node. A field that its kind doesn't name is 0. */
struct nbt_event {
    uint8_t kind;
    uint8_t rcode;        /* of REFUSED, LOST, FREED and NOT_FOUND: the server's reason (RFC 1002 section 4.2.6) */
    bool cut;             /* of FOUND: the name has more entries than these */
    uint32_t seconds;     /* of GRANTED and RENEWED: for how long; of 0 or more than `longest` from the server it is `longest` */
    NBT_SIZE(size);       /* of FOUND: the octets of its entries, 6 each; of STATUS: of its names, 18 each; all, also what is not lent */
    struct nbt_name name; /* of all but NOTHING: the name that the datagram is about; zeros where a NOT_FOUND has none */
};
NBT_ASSERT(sizeof(struct nbt_event) == 256 && offsetof(struct nbt_event, name) == 16, "nbt: struct nbt_event");

enum {
    NBT_EVENT_NOTHING = 0,   /* nothing that the node waited for */
    NBT_EVENT_REPLY = 1,     /* a status request, or a query for a name that it holds: the reply to its sender stands in `out` */
    NBT_EVENT_GRANTED = 2,   /* the name is held */
    NBT_EVENT_RENEWED = 3,   /* the hold goes on */
    NBT_EVENT_REFUSED = 4,   /* the name isn't granted: another machine has it, or the server has no room */
    NBT_EVENT_LOST = 5,      /* the name isn't held or requested any more: the server says so */
    NBT_EVENT_FREED = 6,     /* the server has replied to the release; `rcode` is 0 where it confirms it, also of a name that nobody has */
    NBT_EVENT_WAIT = 7,      /* the server asks to wait: the request is sent again later */
    NBT_EVENT_FOUND = 8,     /* who holds the name that was looked up */
    NBT_EVENT_NOT_FOUND = 9, /* nobody does */
    NBT_EVENT_STATUS = 10    /* which names an endpoint holds */
};

/*
 * Handles a datagram that came from `from`, and answers a status request, or a query for a name that the node holds then (RFC 1002
 * section 4.2.13). Writes *event; the first octets of its entries or names, as many as fit, to `lent`; and *size: how many octets of
 * `out` are a reply to `from`, or 0. NBT_NO_MOMENT; NBT_CLOCK_BACK.
 *
 * Why a name comes and goes: `seconds` of GRANTED below what was asked for, which is the node's `longest` where that was 0, says that
 * the server's longest lease is shorter than the node's, though both are to be the same. Where the seconds are no more than some two
 * `life`, the hold ends before a refresh may be sent: the state goes from HELD to RESTING or IDLE each time, without an event. A server
 * whose longest lease is greater makes no name come and go. No event says that it is; the reply to a request for 0 seconds does: its TTL,
 * four octets with the greatest first, stands 4 behind the place that nbt_name_in_packet(octets, octets_size, 12, ..) leaves.
 *
 * An entry of FOUND is two octets of flags, of which the first bit says that a group has the name, and four of an address, as 10 0 0 5
 * (RFC 1002 section 4.2.13); a name of STATUS sixteen octets, and two of flags (section 4.2.18).
 */
uint8_t nbt_node_on_datagram(struct nbt_node *node, uint64_t now, struct nbt_addr from, const uint8_t *octets, size_t octets_size,
                             struct nbt_event *event, uint8_t *lent, size_t lent_room, uint8_t out[NBT_PACKET], size_t *size);

/* Sends at most one datagram that is due: *size octets of `out`, for *to. Call it until *size is 0. NBT_NO_MOMENT; NBT_CLOCK_BACK. */
uint8_t nbt_node_poll(struct nbt_node *node, uint64_t now, struct nbt_addr *to, uint8_t out[NBT_PACKET], size_t *size);

/*
 * Writes *due: when nbt_node_poll sends something next, if no other call with the node comes before. That is the first time, of those
 * that aren't before the node's last call, at which a poll would: before it a poll sends nothing. NBT_NOTHING_DUE: there is none, and
 * nothing is written. Each call for which the node isn't const may change that time.
 */
uint8_t nbt_node_next_due(const struct nbt_node *node, uint64_t *due);

/* How a name stands at a node. */
enum {
    NBT_STATE_IDLE = 0,      /* it may be requested, once the node has rested from its start */
    NBT_STATE_ASKING = 1,    /* it is requested, and the node waits for the reply */
    NBT_STATE_HELD = 2,
    NBT_STATE_RELEASING = 3, /* it is released, and the node waits for the reply */
    NBT_STATE_RESTING = 4    /* it may not be requested yet, so that no datagram about it is still on its way then */
};

/*
 * Writes *state: how the name stands at `now`. What time ends shows here, and in no event: a request that got no reply (from ASKING
 * to RESTING or IDLE), and a hold that lapsed, since its refreshes got none (from HELD). NBT_NO_MOMENT; NBT_NO_NAME; NBT_CLOCK_BACK.
 */
uint8_t nbt_node_state(const struct nbt_node *node, uint64_t now, const struct nbt_name *name, uint8_t *state);

/* Writes *held: 0 where the node doesn't hold the name, 1 as one machine's, 2 as a group's. NBT_NO_MOMENT; NBT_NO_NAME. */
uint8_t nbt_node_holds(const struct nbt_node *node, uint64_t now, const struct nbt_name *name, uint8_t *held);

/* ---- datagrams (RFC 1001 section 17, RFC 1002 sections 4.4 and 5.3): they take no memory but what the program provides */

/* A joiner's memory: what the two functions return, and a type of that size and alignment, so that it can be static. */
#define NBT_JOINER_SIZE 6344
#define NBT_JOINER_ALIGN 8
union nbt_joiner_memory {
    NBT_ALIGNED uint64_t aligned;
    uint8_t octets[NBT_JOINER_SIZE];
};
NBT_ASSERT(sizeof(union nbt_joiner_memory) == NBT_JOINER_SIZE, "nbt: union nbt_joiner_memory");

/*
 * A joiner of 4 slots: the fragments of up to four unfinished datagrams, which are given up after 2 seconds. `memory` is like a
 * node's, with the size and alignment above. It takes no other memory.
 */
struct nbt_joiner {
    union nbt_joiner_memory *memory;
};
size_t nbt_joiner_size(void);
size_t nbt_joiner_align(void);
void nbt_joiner_start(struct nbt_joiner *joiner);

/* What a datagram's octets mean for a node. A field that its kind doesn't name stays as it was. */
struct nbt_accept {
    uint8_t kind;
    uint8_t code;                /* of ERROR (RFC 1002 section 4.4.3) */
    uint16_t id;                 /* of ERROR: the datagram's */
    struct nbt_addr to;          /* of REPLY: to whom it goes */
    struct nbt_name source;      /* of UP: SOURCE_NAME */
    struct nbt_name destination; /* of UP: DESTINATION_NAME, which the node holds */
    NBT_SIZE(size);              /* of UP: how many octets the data have */
};
NBT_ASSERT(sizeof(struct nbt_accept) == 496 && offsetof(struct nbt_accept, source) == 12, "nbt: struct nbt_accept");

enum {
    NBT_ACCEPT_NOTHING = 0, /* no datagram for a name that the node holds, or none that can be read */
    NBT_ACCEPT_UP = 1,      /* a whole datagram for a name that the node holds */
    NBT_ACCEPT_REPLY = 2,   /* one for a name that it doesn't hold: the error packet for `to` stands in `out` */
    NBT_ACCEPT_ERROR = 3,   /* another endpoint's error */
    NBT_ACCEPT_WAITING = 4  /* other fragments are missing */
};

/*
 * What the octets that came at `now` to the datagram port of `own`, mostly 138, mean for the node. Writes *accept; of UP the first
 * octets of the data, as many as fit, to `data`; and *size: how many octets of `out` are an error packet, or 0. The node
 * stays. NBT_NO_MOMENT: NOTHING.
 */
uint8_t nbt_datagram_accept(struct nbt_joiner *joiner, const struct nbt_node *node, uint64_t now, struct nbt_addr own,
                            const uint8_t *octets, size_t octets_size, struct nbt_accept *accept, uint8_t *data, size_t data_room,
                            uint8_t out[NBT_PACKET], size_t *size);

/* A packet of the datagram service (RFC 1002 section 4.4). A field that its kind doesn't name stays as it was. */
struct nbt_datagram {
    uint8_t kind;                /* MSG_TYPE, as below */
    uint8_t code;                /* of ERROR (RFC 1002 section 4.4.3) */
    bool first;                  /* of a fragment: F, it is the first, and has the names */
    bool more;                   /* of a fragment: M, others follow; a whole datagram is first, and has none */
    uint16_t id;                 /* DGM_ID */
    uint16_t offset;             /* of a fragment: how many octets of data stand before its own */
    struct nbt_addr from;        /* SOURCE_IP and SOURCE_PORT */
    struct nbt_name source;      /* of a first fragment: SOURCE_NAME */
    struct nbt_name destination; /* of a first fragment: DESTINATION_NAME; of a query and its answers: the name asked for */
    NBT_SIZE(place);             /* of a fragment: where its data begin in the packet */
    NBT_SIZE(size);              /* of a fragment: how many octets of data it has */
};
NBT_ASSERT(sizeof(struct nbt_datagram) == 512 && offsetof(struct nbt_datagram, from) == 8, "nbt: struct nbt_datagram");

/* MSG_TYPE: the first three are fragments, or whole datagrams. */
enum {
    NBT_DATAGRAM_UNIQUE = 0x10,
    NBT_DATAGRAM_GROUP = 0x11,
    NBT_DATAGRAM_BROADCAST = 0x12,
    NBT_DATAGRAM_ERROR = 0x13,
    NBT_DATAGRAM_QUERY = 0x14,
    NBT_DATAGRAM_POSITIVE = 0x15,
    NBT_DATAGRAM_NEGATIVE = 0x16
};

/* What is wrong with octets where a datagram is due (RFC 1002 section 4.4; the numbers are our profile's). */
enum {
    NBT_DATAGRAM_SHORT = 1,       /* the octets end within the datagram */
    NBT_DATAGRAM_BAD_LABEL = 2,   /* no label begins with this octet */
    NBT_DATAGRAM_BAD_HALF = 3,    /* one of the 32 letters is outside 'A' to 'P' */
    NBT_DATAGRAM_BAD_POINTER = 4, /* a pointer, which no name of a datagram has */
    NBT_DATAGRAM_LONG = 5,        /* with this label the wire form would pass 255 octets */
    NBT_DATAGRAM_BAD_TYPE = 6,    /* MSG_TYPE is none of the above */
    NBT_DATAGRAM_BAD_OFFSET = 7,  /* a first fragment with a PACKET_OFFSET */
    NBT_DATAGRAM_BAD_LENGTH = 8   /* the names end after the octets that DGM_LENGTH counts */
};

/* The datagram that the octets begin with, whatever names a node holds. Writes *next: how many octets it has, or the fault's place. */
uint8_t nbt_datagram_read(const uint8_t *octets, size_t size, struct nbt_datagram *out, size_t *next);

/* The most octets of data of one datagram that is sent, and why more are refused (our profile). */
#define NBT_DATA 512
enum {
    NBT_SPLIT_TOO_LONG = 1
};

/*
 * The one or two packets that carry `data` from `source`, whose datagrams come to `own`, to `destination` (RFC 1002 section 5.3.2). The
 * port of `own` is that of datagrams, mostly 138. They go to that port of each machine that has `destination`, which a lookup finds:
 * `kind` is NBT_DATAGRAM_UNIQUE, GROUP or BROADCAST, and `id` tells one datagram of a source from another. Writes *first_size and
 * *second_size: how many octets of each are a packet to be sent; the second is 0 where all fit into one packet, and both are
 * where the result isn't 0. NBT_NO_NAME; NBT_NO_KIND; NBT_SPLIT_TOO_LONG.
 */
uint8_t nbt_datagram_split(uint8_t kind, uint16_t id, struct nbt_addr own, const struct nbt_name *source,
                           const struct nbt_name *destination, const uint8_t *data, size_t data_size, uint8_t first[NBT_PACKET],
                           size_t *first_size, uint8_t second[NBT_PACKET], size_t *second_size);

/* ---- sessions (RFC 1001 section 16, RFC 1002 section 4.3): they take no memory but what the program provides */

/* A session packet, but for a message's octets. A field that its kind doesn't name stays as it was. */
struct nbt_session_packet {
    uint8_t kind;            /* TYPE, as below */
    uint8_t code;            /* of NEGATIVE (RFC 1002 section 4.3.4) */
    struct nbt_addr to;      /* of RETARGET: where the call is to be made */
    struct nbt_name called;  /* of REQUEST: the name that is called */
    struct nbt_name calling; /* of REQUEST: the name that calls */
};
NBT_ASSERT(sizeof(struct nbt_session_packet) == 488 && offsetof(struct nbt_session_packet, to) == 4, "nbt: struct nbt_session_packet");

enum {
    NBT_SESSION_MESSAGE = 0x00,
    NBT_SESSION_REQUEST = 0x81,
    NBT_SESSION_POSITIVE = 0x82,
    NBT_SESSION_NEGATIVE = 0x83,
    NBT_SESSION_RETARGET = 0x84,
    NBT_SESSION_KEEP_ALIVE = 0x85
};

/* A part of a session's stream. A field that its kind doesn't name stays as it was. */
struct nbt_part {
    uint8_t kind;
    NBT_SIZE(size);                   /* of MESSAGE: how many octets it has, up to 131,071; of DATA: how many of the piece are its */
    struct nbt_session_packet packet; /* of PACKET */
};
NBT_ASSERT(sizeof(struct nbt_part) == 504 && offsetof(struct nbt_part, packet) == 16, "nbt: struct nbt_part");

enum {
    NBT_PART_NONE = 0,    /* the piece ends no part */
    NBT_PART_MESSAGE = 1, /* a message begins */
    NBT_PART_DATA = 2,    /* the first `size` octets of the piece are the message's next */
    NBT_PART_END = 3,     /* the message is whole */
    NBT_PART_PACKET = 4   /* a packet that is no message */
};

/* A stream's memory: what the two functions return, and a type of that size and alignment, so that it can be static. */
#define NBT_PIECES_SIZE 584
#define NBT_PIECES_ALIGN 8
union nbt_pieces_memory {
    NBT_ALIGNED uint64_t aligned;
    uint8_t octets[NBT_PIECES_SIZE];
};
NBT_ASSERT(sizeof(union nbt_pieces_memory) == NBT_PIECES_SIZE, "nbt: union nbt_pieces_memory");

/*
 * The stream of a TCP connection as it comes in, in pieces of any size. It holds no message: a program gets its octets as they come.
 * `memory` is like a node's, with the size and alignment above; for another connection, another struct may begin there. It takes no
 * other memory.
 */
struct nbt_pieces {
    union nbt_pieces_memory *memory;
};
size_t nbt_pieces_size(void);
size_t nbt_pieces_align(void);
void nbt_pieces_start(struct nbt_pieces *pieces);

/* What is wrong with the octets of a stream (our profile). It stays so for ever. */
enum {
    NBT_STREAM_BAD_TYPE = 1,   /* no packet has this TYPE */
    NBT_STREAM_BAD_FLAGS = 2,  /* a bit of FLAGS other than E is set */
    NBT_STREAM_BAD_LENGTH = 3, /* packets of the type don't have this LENGTH */
    NBT_STREAM_BAD_NAME = 4    /* a request's name can't be read */
};

/*
 * Takes octets of a piece up to the end of one part. Writes *part, and *taken: how many it took, or the fault's place, counted from
 * the packet's first octet. Go on with the rest of the piece until the part is NBT_PART_NONE, with an empty rest too: that a
 * message is whole is told by the call after its last octets. NBT_STREAM_*: *part stays as it was.
 */
uint8_t nbt_pieces_take(struct nbt_pieces *pieces, const uint8_t *piece, size_t size, struct nbt_part *part, size_t *taken);

/* Why a message has no header (our profile). */
enum {
    NBT_SESSION_TOO_LONG = 1 /* more than 131,071 octets */
};

/* The header of a message of `count` octets, which the program sends after it. NBT_SESSION_TOO_LONG: nothing is written. */
uint8_t nbt_session_message(size_t count, uint8_t out[4]);

/*
 * A packet that is no message, at the front of `out`. Writes *size: how many octets of `out` are to be sent, 4 to 514, or 0 where the
 * result isn't 0. NBT_NO_KIND; NBT_NO_NAME.
 */
uint8_t nbt_session_write(const struct nbt_session_packet *packet, uint8_t out[NBT_PACKET], size_t *size);

/* The call's older name, which is the struct's. */
#define nbt_session_packet(packet, out, size) nbt_session_write(packet, out, size)

/* ---- the calling endpoint of a session (RFC 1001 section 16.1, RFC 1002 section 5.2.1) */

/* A call's memory: what the two functions return, and a type of that size and alignment, so that it can be static. */
#define NBT_CALLER_SIZE 512
#define NBT_CALLER_ALIGN 8
union nbt_caller_memory {
    NBT_ALIGNED uint64_t aligned;
    uint8_t octets[NBT_CALLER_SIZE];
};
NBT_ASSERT(sizeof(union nbt_caller_memory) == NBT_CALLER_SIZE, "nbt: union nbt_caller_memory");

/* One call to a name, by a name. `memory` is like a node's, with the size and alignment above. It takes no other memory. */
struct nbt_caller {
    union nbt_caller_memory *memory;
};
size_t nbt_caller_size(void);
size_t nbt_caller_align(void);

/*
 * Begins a call; the program connects to `to`: the first of four tries. It starts a stream for each connection (nbt_pieces_start), and tells
 * nbt_caller_on whether it stands, or is lost. A call that failed, or whose session is over, is begun anew in the same memory. NBT_NO_NAME.
 */
uint8_t nbt_caller_begin(struct nbt_caller *caller, const struct nbt_name *called, const struct nbt_name *calling, struct nbt_addr to);

/* What happens to a connection. */
enum {
    NBT_CONNECTED = 0, /* it stands */
    NBT_CAME = 1,      /* a packet came, or a message is whole */
    NBT_LOST = 2       /* it is gone, couldn't be had, or its stream has a fault */
};

/* What the calling endpoint does next. A field that its kind doesn't name stays as it was. */
struct nbt_answer {
    uint8_t kind;
    uint8_t failure;    /* of FAIL: why */
    uint8_t code;       /* of FAIL because of REFUSED (RFC 1002 section 4.3.4) */
    struct nbt_addr to; /* of CONNECT */
};
NBT_ASSERT(sizeof(struct nbt_answer) == 12 && offsetof(struct nbt_answer, to) == 4, "nbt: struct nbt_answer");

enum {
    NBT_ANSWER_NOTHING = 0,
    NBT_ANSWER_CONNECT = 1, /* connects there, mostly to port 139; an earlier connection is given up, and the new one's stream started */
    NBT_ANSWER_SEND = 2,    /* sends what stands in `out` */
    NBT_ANSWER_OPEN = 3,    /* the session is open */
    NBT_ANSWER_UP = 4,      /* the message is for the user */
    NBT_ANSWER_CLOSED = 5,  /* the session is over */
    NBT_ANSWER_FAIL = 6,    /* the call failed, and its connection is given up */
    NBT_ANSWER_SEND_AND_CLOSE = 7, /* of the listening endpoint: sends what stands in `out`, and then closes the connection */
    NBT_ANSWER_CLOSE = 8           /* of the listening endpoint: closes the connection */
};

/* Why a call failed (our profile). */
enum {
    NBT_CALL_NO_CONNECTION = 1, /* the fourth connection couldn't be had, or was lost before the call was accepted */
    NBT_CALL_REFUSED = 2,
    NBT_CALL_PROTOCOL = 3,      /* a packet came that has no place there */
    NBT_CALL_TOO_MANY_TRIES = 4 /* the fourth try was retargeted */
};

/*
 * What the call does when something happens to its connection. `packet` is read where `happened` is NBT_CAME; of a message its kind
 * alone, since its octets are the program's. Writes *answer, and *size: how many octets of `out` are to be sent, or 0. Refused, the
 * call staying as it was, and the answer being NOTHING: NBT_NO_KIND; NBT_NO_NAME.
 */
uint8_t nbt_caller_on(struct nbt_caller *caller, uint8_t happened, const struct nbt_session_packet *packet, struct nbt_answer *answer,
                      uint8_t out[NBT_PACKET], size_t *size);

/* ---- the listening endpoint (RFC 1001 section 16.1.1, RFC 1002 section 5.2.1) */

/* A listener's memory: what the two functions return, and a type of that size and alignment, so that it can be static. */
#define NBT_LISTENER_SIZE 7416
#define NBT_LISTENER_ALIGN 8
union nbt_listener_memory {
    NBT_ALIGNED uint64_t aligned;
    uint8_t octets[NBT_LISTENER_SIZE];
};
NBT_ASSERT(sizeof(union nbt_listener_memory) == NBT_LISTENER_SIZE, "nbt: union nbt_listener_memory");

/*
 * A listener of 14 entries and 8 connections, numbered 0 to 7. `memory` is like a node's, with the size and alignment above. It takes
 * no other memory.
 */
struct nbt_listener {
    union nbt_listener_memory *memory;
};
size_t nbt_listener_size(void);
size_t nbt_listener_align(void);

/* A listener that accepts no calls yet; `most` of its connections may be open at a time. NBT_NO_PLACE above 8. */
uint8_t nbt_listener_start(struct nbt_listener *listener, size_t most);

/* Calls that are accepted: to a name, by any or by one; here, or at another endpoint. */
struct nbt_entry {
    struct nbt_name called;
    bool by_one;              /* `calling` alone may call */
    struct nbt_name calling;  /* read where `by_one` is true */
    bool elsewhere;           /* the call is to be made at `retarget` instead */
    struct nbt_addr retarget; /* read where `elsewhere` is true */
};
NBT_ASSERT(sizeof(struct nbt_entry) == 488 && offsetof(struct nbt_entry, retarget) == 480, "nbt: struct nbt_entry");

/* Accepts calls by the entry from now on, where no earlier entry accepts them. NBT_NO_NAME; NBT_NO_ROOM where 14 stand. */
uint8_t nbt_listener_listen(struct nbt_listener *listener, const struct nbt_entry *entry);

/* Removes all entries of the name. NBT_NO_NAME. */
uint8_t nbt_listener_unlisten(struct nbt_listener *listener, const struct nbt_name *called);

/*
 * What the listener does when something happens to a connection, by the names that the node holds at `now`: `happened` and `packet`
 * are as for nbt_caller_on. Writes *kind: NBT_ANSWER_NOTHING, SEND, UP, SEND_AND_CLOSE or CLOSE; and *size: how many octets of `out`
 * are to be sent, or 0. The node stays. A connection begins with NBT_CONNECTED at a slot that is free: at first, and after NBT_LOST, CLOSE
 * or SEND_AND_CLOSE. Its stream is started then, also where a machine connects again. Refused, the listener staying as it was, and *kind
 * being NOTHING: NBT_NO_MOMENT; NBT_NO_PLACE where `slot` is above 7; NBT_NO_KIND; NBT_NO_NAME.
 */
uint8_t nbt_listener_on(struct nbt_listener *listener, const struct nbt_node *node, uint64_t now, size_t slot, uint8_t happened,
                        const struct nbt_session_packet *packet, uint8_t *kind, uint8_t out[NBT_PACKET], size_t *size);

/* ---- a name server (RFC 1001 section 15.1.7, RFC 1002 section 5.1.4) */

/* A server's memory: what the two functions return, and a type of that size and alignment, so that it can be static. */
#define NBT_SERVER_SIZE 336
#define NBT_SERVER_ALIGN 8
union nbt_server_memory {
    NBT_ALIGNED uint64_t aligned;
    uint8_t octets[NBT_SERVER_SIZE];
};
NBT_ASSERT(sizeof(union nbt_server_memory) == NBT_SERVER_SIZE, "nbt: union nbt_server_memory");

/*
 * A server: `memory` leads to nbt_server_size() octets, aligned to nbt_server_align(), which are the server's from its start to its
 * end and which no one else reads or writes. The program sets `memory` before the start and copies no struct nbt_server. For its
 * leases the server calls malloc and realloc, which align as C says, and free: nbt_server_on_datagram does, and nbt_server_row
 * while it runs; nbt_server_end frees all. None of these calls is made from a signal handler. All other
 * calls are for a server that was started and has not ended.
 */
struct nbt_server {
    union nbt_server_memory *memory;
};
size_t nbt_server_size(void);
size_t nbt_server_align(void);

/* A server without leases. It is silent until the longest lease has passed since its start. NBT_CONFIG_*; NBT_NO_MOMENT. */
uint8_t nbt_server_start(struct nbt_server *server, struct nbt_config config, uint64_t now);

/* Frees the memory that the server allocated. `memory` is the program's again. */
void nbt_server_end(struct nbt_server *server);

/* Why a server doesn't handle a datagram (our profile). */
enum {
    NBT_SERVER_CLOCK_BACK = 1,   /* `now` is before the start, or before an earlier datagram that was not refused so */
    NBT_SERVER_OUT_OF_MEMORY = 2 /* the live leases are as before */
};

/* Handles a datagram that came from `from`. Writes *size: how many octets of `out` are the reply to `from`, or 0. NBT_NO_MOMENT;
 * NBT_SERVER_*. */
uint8_t nbt_server_on_datagram(struct nbt_server *server, uint64_t now, struct nbt_addr from, const uint8_t *octets,
                               size_t octets_size, uint8_t out[NBT_PACKET], size_t *size);

/* A lease of a name. */
struct nbt_lease {
    uint32_t ip;  /* of the machine that holds the name */
    uint8_t kind; /* 1 as one machine's, 2 as a group's */
    uint64_t end; /* when it expires, in milliseconds: the lease lives before that */
};
NBT_ASSERT(sizeof(struct nbt_lease) == 16 && offsetof(struct nbt_lease, kind) == 4, "nbt: struct nbt_lease");

/*
 * Writes *lease: of the name's leases that live at `now`, in order of their beginnings, number `which`, counted from 0. Else nothing
 * is written: NBT_NO_MOMENT; NBT_NO_NAME; NBT_SERVER_CLOCK_BACK; NBT_NO_LEASE where no more of them live.
 */
uint8_t nbt_server_lease(const struct nbt_server *server, uint64_t now, const struct nbt_name *name, size_t which, struct nbt_lease *lease);

/*
 * Writes *name and *lease: of all leases of all names, number `which`, counted from 0. Those of one name stand together, in order of
 * their beginnings. An expired lease may stand among them: its `end` is not after the time then. The numbers stay until the
 * next datagram. Allocates a list of all of them, and frees it. Else nothing is written: NBT_SERVER_OUT_OF_MEMORY;
 * NBT_NO_LEASE where there are no more.
 */
uint8_t nbt_server_row(const struct nbt_server *server, size_t which, struct nbt_name *name, struct nbt_lease *lease);

#ifdef __cplusplus
}
#endif

#endif
