/* SPDX-License-Identifier: MIT OR Apache-2.0 */
/*
 * A node without an operating system, on a Cortex-M0 with 16 KB of RAM: the nRF51 of a micro:bit, as qemu has it. It registers a name at a
 * name server, holds it, answers queries and status requests, and releases it when it is told to.
 *
 *     arm-none-eabi-gcc -mcpu=cortex-m0 -mthumb -Os -ffunction-sections -fdata-sections -Wl,--gc-sections -nostartfiles -Iinclude \
 *         -T examples/c/microbit/board.ld -o node.elf examples/c/microbit/node.c libnbt.a
 *     examples/c/microbit/serial 127.80.0.2:10137 qemu-system-arm -M microbit -display none -monitor none -serial stdio -kernel node.elf
 *
 * Its datagrams go over its serial line, each as a line of text, `127.80.0.1:10137 00012900..`: the endpoint to which it goes, or from which
 * it comes, and its octets in hexadecimal. examples/c/microbit/serial, at the other end, sends and receives them over UDP. A line that begins with #
 * is for people. The line `end` has the node release its name. Other values may be given by -D:
 */
#include <nbt.h>

#ifndef NAME
#define NAME "MICROBIT        " /* fifteen characters, and 0x20 as the last octet: a file server's name */
#endif
#ifndef OWN
#define OWN {0x7F500002, 10137}
#endif
#ifndef SERVER
#define SERVER {0x7F500001, 10137}
#endif
#ifndef LONGEST
#define LONGEST 30 /* the server's longest lease, in seconds */
#endif

#define REFUSED 10000 /* milliseconds from a refusal to the next request */

/* ---- the board: its registers, its start, a clock, a random number and a serial line */

#define REGISTER(address) (*(volatile uint32_t *)(address))
#define UART_START_RECEIVING REGISTER(0x40002000)
#define UART_START_SENDING REGISTER(0x40002008)
#define UART_CAME REGISTER(0x40002108)
#define UART_SENT REGISTER(0x4000211C)
#define UART_ENABLE REGISTER(0x40002500)
#define UART_IN REGISTER(0x40002518)
#define UART_OUT REGISTER(0x4000251C)
#define TIMER_START REGISTER(0x40008000)
#define TIMER_CAPTURE REGISTER(0x40008040)
#define TIMER_BITS REGISTER(0x40008508)
#define TIMER_PRESCALER REGISTER(0x40008510)
#define TIMER_CAPTURED REGISTER(0x40008540)
#define RANDOM_START REGISTER(0x4000D000)
#define RANDOM_READY REGISTER(0x4000D100)
#define RANDOM_VALUE REGISTER(0x4000D508)

extern uint8_t stack_top[], data_from[], data_to[], data_end[], bss_end[];
int main(void);

static void put(char character) {
    UART_SENT = 0;
    UART_OUT = (uint8_t)character;
    while (UART_SENT == 0)
        continue;
}

static void put_text(const char *text) {
    while (*text != 0)
        put(*text++);
}

static void put_number(uint32_t number) {
    if (number >= 10)
        put_number(number / 10);
    put((char)('0' + number % 10));
}

static void fail(void) {
    put_text("# fault\n");
    for (;;)
        continue;
}

#define PAINT 0xA5 /* what stands in a part of the stack that was never used */

void reset(void) {
    uint8_t *at = data_to;
    for (const uint8_t *from = data_from; at < data_end; at++)
        *at = *from++;
    for (; at < bss_end; at++)
        *at = 0;
    for (; at < (uint8_t *)__builtin_frame_address(0) - 64; at++)
        *(volatile uint8_t *)at = PAINT;
    main();
    fail();
}

__attribute__((section(".vectors"), used)) static void *const vectors[16] = {stack_top, (void *)reset, (void *)fail, (void *)fail};

static void start_board(void) {
    UART_ENABLE = 4;
    UART_START_SENDING = 1;
    UART_START_RECEIVING = 1;
    TIMER_BITS = 3;      /* 32 bits */
    TIMER_PRESCALER = 4; /* of 16 MHz: it counts microseconds */
    TIMER_START = 1;
}

/* The timer begins anew after 71 minutes, and the node's clock must not: it is read at each turn of the main loop. */
static uint64_t milliseconds(void) {
    static uint64_t microseconds;
    static uint32_t last;
    TIMER_CAPTURE = 1;
    microseconds += TIMER_CAPTURED - last;
    last = TIMER_CAPTURED;
    return microseconds / 1000;
}

static uint8_t draw(void) {
    RANDOM_READY = 0;
    RANDOM_START = 1;
    while (RANDOM_READY == 0)
        continue;
    return (uint8_t)RANDOM_VALUE;
}

/* Says how much of the stack was used, where that is more than before. */
static void tell_stack(void) {
    static uint32_t told;
    const uint8_t *at = bss_end;
    while (*at == PAINT)
        at++;
    if ((uint32_t)(stack_top - at) <= told)
        return;
    told = (uint32_t)(stack_top - at);
    put_text("# stack ");
    put_number(told);
    put('\n');
}

/* ---- datagrams as lines */

#define LINE (32 + 2 * NBT_PACKET)

static char line[LINE];
static uint32_t line_size;

static void put_datagram(struct nbt_addr to, const uint8_t *octets, size_t size) {
    for (int shift = 24; shift >= 0; shift -= 8) {
        put_number(to.ip >> shift & 255);
        put(shift > 0 ? '.' : ':');
    }
    put_number(to.port);
    put(' ');
    for (; size > 0; size--, octets++) {
        put("0123456789abcdef"[*octets >> 4]);
        put("0123456789abcdef"[*octets & 15]);
    }
    put('\n');
}

/* Whether a line has come, which ends with 0. What of it has no room is lost. */
static bool get_line(void) {
    while (UART_CAME != 0) {
        UART_CAME = 0;
        const char character = (char)UART_IN;
        if (character == '\n') {
            line[line_size] = 0;
            line_size = 0;
            return true;
        }
        if (line_size + 1 < LINE)
            line[line_size++] = character;
    }
    return false;
}

static uint32_t take_number(const char **at) {
    uint32_t number = 0;
    for (; **at >= '0' && **at <= '9'; ++*at)
        number = 10 * number + (uint32_t)(**at - '0');
    if (**at != 0)
        ++*at;
    return number;
}

static uint8_t half(char digit) {
    return (uint8_t)(digit <= '9' ? digit - '0' : digit - 'a' + 10);
}

/* The datagram of the line, from its sender: its octets are put to the front of the line. */
static size_t take_datagram(struct nbt_addr *from) {
    const char *at = line;
    size_t size = 0;
    from->ip = 0;
    for (int each = 0; each < 4; each++)
        from->ip = from->ip << 8 | take_number(&at);
    from->port = (uint16_t)take_number(&at);
    for (; at[0] != 0 && at[1] != 0; at += 2)
        ((uint8_t *)line)[size++] = (uint8_t)(half(at[0]) << 4 | half(at[1]));
    return size;
}

/* ---- the node */

static const struct nbt_addr own = OWN, server = SERVER;
static const struct nbt_config limits = {1000, LONGEST, 4096};
static union nbt_node_memory memory;
static struct nbt_node node = {&memory};
static struct nbt_name name;
static struct nbt_event event;
static uint8_t out[NBT_PACKET];

static uint8_t state;     /* of the name, at the last look */
static uint64_t ask_from; /* when a name that was refused may be requested again */
static bool is_stopped;   /* no name is requested any more */

static void tell(const char *what, uint32_t number) {
    put_text("# ");
    put_text(what);
    put_number(number);
    put('\n');
}

/* Says what a datagram was to the node. */
static void tell_event(uint64_t now) {
    switch (event.kind) {
    case NBT_EVENT_GRANTED: tell("granted for seconds: ", event.seconds); break;
    case NBT_EVENT_RENEWED: tell("renewed for seconds: ", event.seconds); break;
    case NBT_EVENT_LOST: tell("lost, with RCODE ", event.rcode); break;
    case NBT_EVENT_FREED: tell("released with RCODE ", event.rcode); break;
    case NBT_EVENT_REFUSED:
        tell("refused with RCODE ", event.rcode);
        ask_from = now + REFUSED;
        break;
    default: break;
    }
}

static void release(uint64_t now) {
    size_t size;
    is_stopped = true;
    if (nbt_node_release(&node, now, &name, out, &size) == NBT_DONE)
        put_datagram(server, out, size);
}

/* Handles a line that came. */
static void hear(uint64_t now) {
    static uint8_t lent[1];
    struct nbt_addr from;
    size_t count, size;
    if (line[0] == 'e') {
        release(now);
        return;
    }
    count = take_datagram(&from);
    if (nbt_node_on_datagram(&node, now, from, (const uint8_t *)line, count, &event, lent, sizeof lent, out, &size) != NBT_DONE)
        return;
    if (size != 0)
        put_datagram(from, out, size);
    tell_event(now);
}

/* Sends what is due, and requests the name where the node allows it. */
static void look(uint64_t now) {
    struct nbt_addr to;
    size_t size;
    while (nbt_node_poll(&node, now, &to, out, &size) == NBT_DONE && size != 0)
        put_datagram(to, out, size);
    nbt_node_state(&node, now, &name, &state);
    if (state != NBT_STATE_IDLE || is_stopped || now < ask_from || nbt_node_ask(&node, now, &name, NBT_UNIQUE, 0, out, &size) != NBT_DONE)
        return;
    put_text("# requested\n");
    put_datagram(server, out, size);
}

int main(void) {
    start_board();
    const uint16_t first_id = (uint16_t)(draw() << 8 | draw());
    if (nbt_name_make((const uint8_t *)NAME, out, 0, &name) != NBT_DONE
        || nbt_node_start_from(&node, own, server, limits, milliseconds(), first_id) != NBT_DONE)
        return 1;
    for (;;) {
        if (get_line())
            hear(milliseconds());
        look(milliseconds());
        tell_stack();
    }
}
