/* The packets that the programs in this folder give a name server (RFC 1002 section 4.2). */
#ifndef PACKETS_H
#define PACKETS_H

#include <stdint.h>
#include <string.h>

enum { NAME_AT = 12, NAME_LENGTH = 34, TTL_AT = 56, ENTRY_AT = 62, ADDRESS_AT = 64, POINTERS = 990, DATA_AT = 56, LOOPBACK = 0x7f000001 };

static inline void put_word(unsigned char *at, unsigned word) {
    at[0] = (unsigned char)(word >> 8);
    at[1] = (unsigned char)word;
}

static inline void put_long(unsigned char *at, uint32_t number) {
    put_word(at, number >> 16);
    put_word(at + 2, number & 0xffff);
}

static inline int word_at(const unsigned char *at) {
    return at[0] << 8 | at[1];
}

/* The wire form of the name LETTER and four digits, filled up with spaces (RFC 1001 section 14.1). */
static inline void put_name(unsigned char *at, char letter, unsigned number) {
    char octets[16];
    memset(octets, ' ', sizeof octets);
    octets[0] = letter;
    for (int k = 4; k > 0; k--, number /= 10) octets[k] = (char)('0' + number % 10);
    *at++ = 32;
    for (int k = 0; k < 16; k++) {
        *at++ = (unsigned char)('A' + (octets[k] >> 4));
        *at++ = (unsigned char)('A' + (octets[k] & 15));
    }
    *at = 0;
}

static inline size_t put_query(unsigned char *out, uint16_t id, char letter, unsigned number) {
    const unsigned char head[12] = {(unsigned char)(id >> 8), (unsigned char)id, 1, 0, 0, 1};
    memcpy(out, head, sizeof head);
    put_name(out + NAME_AT, letter, number);
    memcpy(out + NAME_AT + NAME_LENGTH, "\0\x20\0\1", 4);
    return 50;
}

/* A registration of the name for so many seconds, as one machine's at 127.0.0.1 (RFC 1002 section 4.2.2). */
static inline size_t put_registration(unsigned char *out, uint16_t id, char letter, unsigned number, uint32_t ttl) {
    put_query(out, id, letter, number);
    out[2] = 0x29;
    out[11] = 1;
    memcpy(out + 50, "\xc0\x0c\0\x20\0\1\0\0\0\0\0\6\x20\0", 14);
    put_long(out + TTL_AT, ttl);
    put_long(out + ADDRESS_AT, LOOPBACK);
    return 68;
}

/* The address of a group's member: 127.1.0.0 and those after it. */
static inline uint32_t member_ip(unsigned member) {
    return 0x7f010000 + member;
}

/* The same of the group LETTER0000, by a member. */
static inline size_t put_membership(unsigned char *out, uint16_t id, char letter, unsigned member, uint32_t ttl) {
    size_t length = put_registration(out, id, letter, 0, ttl);
    out[ENTRY_AT] = 0xa0;
    put_long(out + ADDRESS_AT, member_ip(member));
    return length;
}

/* Makes a registration the refresh of the same name (RFC 1002 section 4.2.4). */
static inline void make_refresh(unsigned char *registration) {
    put_word(registration + 2, 0x4000);
}

/* Makes a registration the release of the same name (RFC 1002 section 4.2.9). */
static inline void make_release(unsigned char *registration) {
    put_word(registration + 2, 0x3000);
    put_long(registration + TTL_AT, 0);
}

/* A packet of 2,048 octets whose additional record's name takes the most steps: it is a pointer to the last of 990, each of
 * which leads to the one before it, and the first to a name (RFC 1002 section 4.2.1.3). The server has no reply to it. */
static inline size_t put_chain(unsigned char *out) {
    const unsigned last = DATA_AT + 2 * (POINTERS - 1), end = DATA_AT + 2 * POINTERS;
    put_query(out, 0, 'N', 0);
    out[2] = 0x85, out[3] = 0x80, out[5] = 0, out[7] = 1, out[11] = 1;
    memset(out + 50, 0, 4);
    put_word(out + 54, 2 * POINTERS);
    for (unsigned k = 0; k < POINTERS; k++) put_word(out + DATA_AT + 2 * k, 0xc000 | (k ? DATA_AT + 2 * (k - 1) : NAME_AT));
    put_word(out + end, 0xc000 | last);
    memcpy(out + end + 2, "\0\x20\0\1\0\0\0\0\0\0", 10);
    return end + 12;
}

#endif
