/* A name server by hand, for IPv4 and unique names, without scopes, limits or an order of expiries: how little a server could cost. It takes
 * queries, registrations and refreshes (RFC 1002 section 4.2) of names in the level-one encoding, and keeps them by their 32 letters.
 *
 *     floor PORT
 */
#include <arpa/inet.h>
#include <stdint.h>
#include <stdlib.h>
#include <string.h>
#include <sys/socket.h>
#include <sys/time.h>
#include <time.h>

enum { HEADER = 12, LETTERS = 32, NAME = LETTERS + 2, QUESTION = NAME + 4, RECORD = 18, ROWS = 1 << 20 };

struct row {
    uint8_t letters[LETTERS];
    uint32_t address;
    uint16_t kind;
    uint64_t end; /* in milliseconds, 0 where the row is free */
};

static struct row rows[ROWS];

static uint64_t hash(const uint8_t *letters)
{
    uint64_t word, sum = 0x9e3779b97f4a7c15u;
    for (int i = 0; i < LETTERS; i += 8) {
        memcpy(&word, letters + i, 8);
        unsigned __int128 product = (unsigned __int128)(sum ^ word) * 0xbf58476d1ce4e5b9u;
        sum = (uint64_t)product ^ (uint64_t)(product >> 64);
    }
    return sum;
}

static struct row *find(const uint8_t *letters)
{
    for (uint64_t i = hash(letters) % ROWS;; i = (i + 1) % ROWS)
        if (!rows[i].end || !memcmp(rows[i].letters, letters, LETTERS))
            return rows + i;
}

static uint32_t read_long(const uint8_t *octets)
{
    uint32_t word;
    memcpy(&word, octets, 4);
    return ntohl(word);
}

static void put_long(uint8_t *octets, uint32_t number)
{
    number = htonl(number);
    memcpy(octets, &number, 4);
}

/* Writes a reply with this name, and returns its octets: a record with one entry, or one without. */
static size_t reply(uint8_t *out, const uint8_t *request, const char *flags, const struct row *row, uint32_t ttl)
{
    memcpy(out, request, 2);
    memcpy(out + 2, flags, 2);
    memcpy(out + 4, "\0\0\0\1\0\0\0\0", 8);
    memcpy(out + HEADER, request + HEADER, NAME);
    uint8_t *record = out + HEADER + NAME;
    memcpy(record, row ? "\0\x20\0\1" : "\0\x0a\0\1", 4);
    put_long(record + 4, ttl);
    memcpy(record + 8, row ? "\0\6" : "\0\0", 2);
    if (!row)
        return HEADER + NAME + 10;
    uint16_t kind = htons(row->kind);
    memcpy(record + 10, &kind, 2);
    put_long(record + 12, row->address);
    return HEADER + NAME + 16;
}

static size_t handle(const uint8_t *in, size_t count, uint32_t from, uint64_t now, uint8_t *out)
{
    if (count < HEADER + QUESTION || in[2] & 0x80 || in[HEADER] != LETTERS || in[HEADER + NAME - 1])
        return 0;
    const uint8_t *letters = in + HEADER + 1;
    int opcode = in[2] >> 3 & 15;
    struct row *row = find(letters);
    if (opcode == 0) {
        if (row->end <= now)
            return reply(out, in, "\x85\x83", NULL, 0);
        return reply(out, in, "\x85\x80", row, (row->end - now + 999) / 1000);
    }
    if ((opcode != 5 && opcode != 8 && opcode != 9) || count != HEADER + QUESTION + RECORD)
        return 0;
    const uint8_t *record = in + HEADER + QUESTION;
    uint32_t ttl = read_long(record + 6), address = read_long(record + 14);
    if (address != from || (row->end > now && row->address != from))
        return 0;
    memcpy(row->letters, letters, LETTERS);
    row->address = address;
    row->kind = (uint16_t)(record[12] << 8 | record[13]);
    row->end = now + 1000ull * ttl;
    return reply(out, in, "\xad\x80", row, ttl);
}

int main(int count, char **words)
{
    if (count != 2)
        return 2;
    int port = socket(AF_INET, SOCK_DGRAM, 0);
    struct sockaddr_in own = {.sin_family = AF_INET, .sin_port = htons(atoi(words[1])), .sin_addr.s_addr = htonl(INADDR_LOOPBACK)};
    struct timeval wait = {.tv_usec = 100000};
    setsockopt(port, SOL_SOCKET, SO_RCVTIMEO, &wait, sizeof wait);
    if (bind(port, (void *)&own, sizeof own))
        return 3;
    uint8_t in[2048], out[576];
    for (;;) {
        struct sockaddr_in from;
        socklen_t size = sizeof from;
        ssize_t got = recvfrom(port, in, sizeof in, 0, (void *)&from, &size);
        if (got < 0)
            continue;
        struct timespec time;
        clock_gettime(CLOCK_MONOTONIC, &time);
        uint64_t now = time.tv_sec * 1000ull + time.tv_nsec / 1000000;
        size_t length = handle(in, got, ntohl(from.sin_addr.s_addr), now, out);
        if (length)
            sendto(port, out, length, 0, (void *)&from, size);
    }
}
