/* Plays random steps: steps SEED COUNT. Each is a call of calls.txt, with what is drawn for it; what a node sends mostly goes on to the
 * server, and its reply back. Prints a hash of all that the calls wrote, as scenes tell it, and how often some of it came. So the library
 * for one processor is compared with that for another. */
#include "scene.h"

static uint64_t seed, hash = 0xCBF29CE484222325; /* of FNV-1a */

/* A number below that one (xorshift64). */
static uint32_t draw(uint32_t below) {
    seed ^= seed << 13;
    seed ^= seed >> 7;
    seed ^= seed << 17;
    return (uint32_t)(seed >> 20) % below;
}

/* What came: a word of what is told, and how often it stood there. */
static struct {
    const char *word;
    unsigned count;
} seen[] = {{"done", 0},    {"granted", 0}, {"renewed", 0}, {"refused", 0},  {"freed", 0},     {"found", 0},  {"held 1", 0}, {"up", 0},
            {"a reply", 0}, {"waiting", 0}, {"sends", 0},   {"a packet", 0}, {"a message", 0}, {"lost", 0},   {"end", 0},    {"ip", 0}};

static void row(const char *what, bool is_so) {
    (void)what;
    (void)is_so;
}

/* A result is told by its number. */
static const char *words_of(uint8_t calls, uint8_t result) {
    static char words[16];
    snprintf(words, sizeof words, result == NBT_DONE ? "done" : "%u: %u", calls, result);
    return words;
}

static void make(const char *what, const struct call *call) {
    (void)what;
    memset(&out, UNTOUCHED, sizeof out);
    call->make();
    *told = 0;
    tell("%s %s", call->word, words_of(call->calls, out.result));
    tell_all();
    for (const char *at = told; *at != 0; at++)
        hash = (hash ^ (uint8_t)*at) * 0x100000001B3;
    for (size_t i = 0; i < COUNT(seen); i++)
        seen[i].count += strstr(told, seen[i].word) != 0;
}

static const struct call *call_of(const char *word) {
    const struct call *call = CALLS;
    while (strcmp(call->word, word) != 0)
        call++;
    return call;
}

/* ---- what is drawn */

static const struct nbt_addr OWN = {0x0A000005, 137}, SERVER = {0x0A000001, 137};

/* Packets that were written, from which others are made. */
static struct {
    uint8_t octets[NBT_PACKET];
    size_t count;
} pool[64];
static unsigned pooled;

static void keep(void) {
    const size_t count = touched(out.out, NBT_PACKET);
    memcpy(pool[pooled % COUNT(pool)].octets, out.out, NBT_PACKET);
    pool[pooled % COUNT(pool)].count = count;
    pooled += count > 0;
}

/* A packet of the pool, which is mostly changed a little, cut, or longer; or any octets. */
static void draw_octets(void) {
    const size_t from = draw(COUNT(pool));
    if (pool[from].count == 0 || draw(16) == 0) {
        in.count = draw(600);
        for (size_t i = 0; i < in.count; i++)
            in.octets[i] = (uint8_t)draw(256);
        return;
    }
    in.count = pool[from].count;
    memcpy(in.octets, pool[from].octets, in.count);
    for (uint32_t changes = draw(3) == 0 ? 1 + draw(4) : 0; changes > 0 && in.count > 0; changes--) {
        if (draw(4) > 0)
            in.octets[draw((uint32_t)in.count)] ^= (uint8_t)(1u << draw(8));
        else
            in.count = draw((uint32_t)in.count + 20);
    }
}

static struct nbt_name draw_name(void) {
    static const char *const NAMES[] = {"A#20", "B#20", "PRINTER#00", "C#1e", "LONGESTOFTHEM15#20", "D#20.NET", "E#00.A.BC.DEF", "*", "F#03"};
    return name_of(NAMES[draw(COUNT(NAMES))]);
}

static void draw_text(char *text, uint32_t most) {
    static const char LETTERS[] = "abcFILER#20<>.:*hex\\-";
    uint32_t size = draw(most);
    text[size] = 0;
    while (size > 0)
        text[--size] = LETTERS[draw(sizeof LETTERS - 1)];
}

static void draw_given(char letter) {
    static const uint8_t SESSIONS[] = {0, 0x81, 0x82, 0x83, 0x84, 0x85, 7};
    switch (letter) {
    case 't': in.now += draw(8) > 0 ? draw(50) : draw(6000); break;
    case 'a': in.from = (struct nbt_addr){0x0A000001 + draw(6), draw(8) > 0 ? 137 : (uint16_t)draw(65536)}; break;
    case 'b': in.own = (struct nbt_addr){OWN.ip, 138}; break;
    case 'n': in.name = draw_name(); break;
    case 'm': in.other = draw_name(); break;
    case 'u': in.number = draw(2) == 0 ? 0 : draw(2) == 0 ? draw(4) : draw(70); break;
    case 'r': in.room = draw(NBT_PACKET); break;
    case 'k': in.kind = (uint8_t)draw(3); break;
    case 'd': in.kind = (uint8_t)(0x10 + draw(4)); break;
    case 'h': in.kind = (uint8_t)draw(4); break;
    case 'p': in.packet.kind = draw(4) == 0 ? SESSIONS[draw(sizeof SESSIONS)] : in.packet.kind; break;
    case 'w': draw_text(in.word, 20); break;
    case 'x': draw_text(in.scope, 20); break;
    case 'o': draw_octets(); break;
    default: break; /* limits stay */
    }
}

/* ---- steps */

/* What a call wrote goes on: it comes from there to that call. */
static void hand_on(const char *word, struct nbt_addr from) {
    memcpy(in.octets, out.out, NBT_PACKET);
    in.count = touched(out.out, NBT_PACKET);
    in.from = from;
    make("", call_of(word));
    keep();
}

static void begin(void) {
    in.now = 5000;
    in.config = (struct nbt_config){1000, 60, 64};
    in.own = OWN;
    in.from = SERVER;
    in.number = 7;
    for (size_t i = 0; i < COUNT(CALLS); i++)
        if (strstr(CALLS[i].word, "_start") != 0 || strcmp(CALLS[i].word, "caller_begin") == 0)
            make("", &CALLS[i]);
    in.now = 70000;
}

/* Of how many draws of a call one is made. A server starts where one ended, and never else. */
static uint32_t rarity(const char *word) {
    if (strcmp(word, "server_start") == 0)
        return 0;
    if (strstr(word, "_start") != 0 || strcmp(word, "server_end") == 0)
        return 100;
    return strcmp(word, "node_release") == 0 ? 10 : 1;
}

/* One call. A name is made of sixteen octets at least. */
static void step(void) {
    const struct call *call = draw(8) > 0 ? &CALLS[draw(COUNT(CALLS))] : call_of("node_poll");
    if (rarity(call->word) == 0 || draw(rarity(call->word)) > 0)
        return;
    for (const char *letter = call->letters; *letter != 0; letter++)
        draw_given(*letter);
    if (strncmp(call->word, "node_start", 10) == 0) {
        in.own = OWN;
        in.from = SERVER;
    }
    if (strcmp(call->word, "name_make") == 0 && in.count < 16)
        return;
    make("", call);
    keep();
    if (strcmp(call->word, "server_end") == 0)
        make("", call_of("server_start"));
    if (strncmp(call->word, "node_", 5) != 0 || touched(out.out, NBT_PACKET) == 0 || draw(4) == 0)
        return;
    hand_on("server_on_datagram", OWN);
    if (touched(out.out, NBT_PACKET) > 0 && draw(8) > 0)
        hand_on("node_on_datagram", SERVER);
}

#define MEMORY(type, TYPE) \
    static union nbt_##type##_memory type; \
    it.type.memory = &type;

int main(int count, char **words) {
    MEMORY(node, NODE)
    MEMORY(joiner, JOINER)
    MEMORY(pieces, PIECES)
    MEMORY(caller, CALLER)
    MEMORY(listener, LISTENER)
    MEMORY(server, SERVER)
    if (count != 3)
        return 2;
    seed = 88172645463325252 + strtoull(words[1], 0, 10) * 2654435761;
    begin();
    for (unsigned long steps = strtoul(words[2], 0, 10); steps > 0; steps--)
        step();
    nbt_server_end(&it.server);
    printf("%016" PRIx64, hash);
    for (size_t i = 0; i < COUNT(seen); i++)
        printf(", %s %u", seen[i].word, seen[i].count);
    printf("\n");
    (void)play_scenes;
    (void)take_given;
    return 0;
}
