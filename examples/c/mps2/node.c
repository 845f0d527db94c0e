/* SPDX-License-Identifier: MIT OR Apache-2.0 */
/*
 * The node of lwip_node.c on a Cortex-M4 without an operating system: the board MPS2 with the image AN386, as qemu has it, with its serial
 * line, its clock, and its network chip, a LAN9118. LWIP is a folder with the sources of lwIP 2.1, as Debian's source package lwip has them:
 *
 *     core="$LWIP/src/core" board='-mcpu=cortex-m4 -mthumb -mfloat-abi=soft --specs=picolibc.specs -Wl,--defsym=__flash=0 \
 *         -Wl,--defsym=__flash_size=0x40000 -Wl,--defsym=__ram=0x20000000 -Wl,--defsym=__ram_size=0x20000'
 *     arm-none-eabi-gcc $board -Os -ffunction-sections -fdata-sections -Wl,--gc-sections -Iinclude -Iexamples/c/mps2 -I"$LWIP/src/include" \
 *         -o node.elf examples/c/mps2/node.c "$core"/{def,inet_chksum,init,ip,mem,memp,netif,pbuf,sys,timeouts,udp}.c \
 *         "$core"/ipv4/{etharp,icmp,ip4,ip4_addr,ip4_frag}.c "$LWIP/src/netif/ethernet.c" libnbt.a
 *     qemu-system-arm -M mps2-an386 -display none -monitor none -serial stdio -kernel node.elf -nic tap,ifname=tap0,script=no,downscript=no
 *
 * The line `end` has it release its name. Other values may be given by -D:
 */
#define LWIP_NODE_BOARD
#include "../lwip_node.c"

#include <lwip/etharp.h>

#ifndef NAME
#define NAME "CORTEX          " /* fifteen characters, and 0x20 as the last octet: a file server's name */
#endif
#ifndef OWN
#define OWN 0x0A892B03 /* 10.137.43.3 */
#endif
#ifndef SERVER
#define SERVER 0x0A892B01 /* 10.137.43.1 */
#endif
#ifndef LONGEST
#define LONGEST 30 /* the server's longest lease, in seconds */
#endif
#define NETMASK 0xFFFFFF00

#define REGISTER(address) (*(volatile uint32_t *)(address))

/* ---- the serial line, to which printf writes */

#define UART_DATA REGISTER(0x40004000)
#define UART_STATE REGISTER(0x40004004) /* 1: there is no room for a character; 2: one came */
#define UART_CONTROL REGISTER(0x40004008)
#define UART_DIVISOR REGISTER(0x40004010)

static int put(char character, FILE *unused) {
    (void)unused;
    while (UART_STATE & 1)
        continue;
    UART_DATA = (uint8_t)character;
    return character;
}

static FILE line = FDEV_SETUP_STREAM(put, 0, 0, _FDEV_SETUP_WRITE);
FILE *const stdout = &line;

/* Whether the first character of the line `end` has come. */
static int is_told_to_end(void) {
    return (UART_STATE & 2) != 0 && UART_DATA == 'e';
}

/* ---- the clock, which counts hundredths of a second, and cycles */

#define HUNDREDTHS REGISTER(0x40028014)
#define CYCLES REGISTER(0x40028018)

u32_t sys_now(void) {
    return 10 * HUNDREDTHS;
}

/* The board has no random number: this is when its program came so far, to a cycle. A device takes a better one. */
static uint16_t first_id(void) {
    return (uint16_t)CYCLES;
}

/* ---- the LAN9118 */

#define LAN REGISTER(0x40200000)
#define LAN_SEND REGISTER(0x40200020)
#define LAN_CAME_STATUS REGISTER(0x40200040)
#define LAN_SENT_STATUS REGISTER(0x40200048)
#define LAN_ID REGISTER(0x40200064)
#define LAN_SENDING REGISTER(0x40200070)
#define LAN_HARDWARE REGISTER(0x40200074)
#define LAN_CAME REGISTER(0x4020007C)
#define LAN_SENT REGISTER(0x40200080)
#define LAN_COMMAND REGISTER(0x402000A4)
#define LAN_WORD REGISTER(0x402000A8)

#define FRAME 1518

static void set_mac(uint32_t number, uint32_t value) {
    LAN_WORD = value;
    LAN_COMMAND = 1u << 31 | number;
    while (LAN_COMMAND >> 31)
        continue;
}

static err_t send_frame(struct netif *unused, struct pbuf *packet) {
    static uint32_t frame[(FRAME + 3) / 4];
    const uint32_t count = pbuf_copy_partial(packet, frame, FRAME, 0);
    (void)unused;
    LAN_SEND = count | 1u << 13 | 1u << 12; /* the first part and the last one */
    LAN_SEND = count;
    for (uint32_t i = 0; i < (count + 3) / 4; i++)
        LAN_SEND = frame[i];
    while (LAN_SENT >> 16 & 0xFF)
        (void)LAN_SENT_STATUS;
    return ERR_OK;
}

/* Hands the frames that came to lwIP, but for those with an error. */
static void take_frames(struct netif *network) {
    static uint32_t frame[(FRAME + 3) / 4];
    while (LAN_CAME >> 16 & 0xFF) {
        const uint32_t status = LAN_CAME_STATUS, count = status >> 16 & 0x3FFF;
        for (uint32_t i = 0; i < (count + 3) / 4; i++) {
            const uint32_t word = LAN;
            if (i < sizeof frame / 4)
                frame[i] = word;
        }
        if (status & 1u << 15 || count < 18 || count > FRAME)
            continue;
        struct pbuf *packet = pbuf_alloc(PBUF_RAW, (u16_t)(count - 4), PBUF_POOL); /* without the checksum */
        if (packet != 0 && (pbuf_take(packet, frame, (u16_t)(count - 4)) != ERR_OK || network->input(packet, network) != ERR_OK))
            pbuf_free(packet);
    }
}

static err_t start_lan(struct netif *network) {
    static const uint8_t MAC[6] = {0x52, 0x54, 0x00, 0x12, 0x34, 0x56};
    if (LAN_ID != 0x87654321)
        return ERR_IF;
    LAN_HARDWARE = 1; /* begins anew */
    while (LAN_HARDWARE & 1)
        continue;
    LAN_HARDWARE = 1u << 20 | 5u << 16;
    set_mac(2, (uint32_t)MAC[5] << 8 | MAC[4]);
    set_mac(3, (uint32_t)MAC[3] << 24 | (uint32_t)MAC[2] << 16 | (uint32_t)MAC[1] << 8 | MAC[0]);
    LAN_SENDING = 2;
    set_mac(1, 1u << 20 | 1u << 3 | 1u << 2); /* both ways, sending, receiving */
    network->name[0] = 'e';
    network->name[1] = '0';
    network->output = etharp_output;
    network->linkoutput = send_frame;
    network->mtu = 1500;
    network->hwaddr_len = sizeof MAC;
    memcpy(network->hwaddr, MAC, sizeof MAC);
    network->flags = NETIF_FLAG_BROADCAST | NETIF_FLAG_ETHARP | NETIF_FLAG_ETHERNET | NETIF_FLAG_LINK_UP;
    return ERR_OK;
}

/* ---- the stack: how much of it was used */

#define PAINT 0xA5
extern uint8_t __heap_start[], __stack[];

static void paint_stack(void) {
    for (uint8_t *at = __heap_start; at < (uint8_t *)__builtin_frame_address(0) - 64; at++)
        *(volatile uint8_t *)at = PAINT;
}

static void tell_stack(void) {
    static unsigned told;
    const uint8_t *at = __heap_start;
    while (*at == PAINT)
        at++;
    if ((unsigned)(__stack - at) > told) {
        told = (unsigned)(__stack - at);
        printf("stack %u\n", told);
    }
}

/* ---- the program */

static int is_over;

static void end(void) {
    is_over = 1;
}

int main(void) {
    static struct netif network;
    ip4_addr_t address, mask, gateway;
    paint_stack();
    UART_DIVISOR = 16;
    UART_CONTROL = 3;
    own.ip = OWN;
    server.ip = SERVER;
    own.port = server.port = NAME_PORT;
    limits.longest = LONGEST;
    if (nbt_name_make((const uint8_t *)NAME, (const uint8_t *)"", 0, &name) != NBT_DONE)
        return 1;
    lwip_init();
    ip4_addr_set_u32(&address, lwip_htonl(OWN));
    ip4_addr_set_u32(&mask, lwip_htonl(NETMASK));
    ip4_addr_set_zero(&gateway);
    if (netif_add(&network, &address, &mask, &gateway, 0, start_lan, ethernet_input) == 0) {
        printf("there is no LAN9118\n");
        return 1;
    }
    netif_set_default(&network);
    netif_set_up(&network);
    netif_set_link_up(&network);
    begin();
    while (!is_over) {
        take_frames(&network);
        sys_check_timeouts();
        if (!stopped && is_told_to_end())
            release(0);
        tell_stack();
    }
    printf("over\n");
    for (;;)
        continue;
}
