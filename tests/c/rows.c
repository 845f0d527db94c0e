/* Plays scenes, which are files, and what no scene can say: the words of all results, a node with few slots, a name server's memory, and
 * the objects' memory. Prints of each row that failed a line, and last `N passed, M failed`: rows [stack] FILE... With `stack` each call is
 * made on a stack of its own, which was painted before, and may take so much of it. It is linked with `--wrap=malloc,--wrap=realloc`, so
 * that the library's calls of both come here first. */
#define _XOPEN_SOURCE 700
#include "scene.h"

#ifdef __linux__
#include <ucontext.h>
#endif

#define LEASES 300
#define PAINT 0xA5
#define GUARD "0123456789abcdef"

static unsigned passed, failed;

static void row(const char *what, bool is_so) {
    passed += is_so;
    failed += !is_so;
    if (!is_so)
        printf("failed: %s\n", what);
}

/* ---- results */

/* Whose result, which, and its words. */
static const struct {
    uint8_t calls, result;
    const char *words;
} RESULTS[] = {
#include "results.txt"
};

static const char *words_of(uint8_t calls, uint8_t result) {
    for (size_t i = 0; i < COUNT(RESULTS); i++)
        if (RESULTS[i].result == result && (RESULTS[i].calls == calls || RESULTS[i].calls == NBT_OF_ANY))
            return RESULTS[i].words;
    return "no such result";
}

/* Each result of each group has its words, zeros behind them, and no octet more; no other number has any, also of no group. */
static void play_results(void) {
    row("version", nbt_version() == NBT_VERSION);
    for (unsigned calls = 0; calls < 256; calls++) {
        unsigned wrong = 0;
        for (unsigned result = 0; result < 256; result++) {
            char found[NBT_RESULT_TEXT + 1], wanted[NBT_RESULT_TEXT + 1] = {0};
            strcpy(wanted, words_of((uint8_t)calls, (uint8_t)result));
            found[NBT_RESULT_TEXT] = wanted[NBT_RESULT_TEXT] = UNTOUCHED;
            nbt_result_text((uint8_t)calls, (uint8_t)result, found);
            wrong += memcmp(found, wanted, sizeof found) != 0;
        }
        row("the words of a group's results", wrong == 0);
    }
}

/* ---- the stack */

static uint8_t stack[65536] __attribute__((aligned(16)));
static size_t deepest[COUNT(CALLS)]; /* how much each call took at most */
static bool was_made[COUNT(CALLS)], measures;

/* Runs a function on that stack. */
#ifdef __linux__
static void run_there(void (*function)(void)) {
    static ucontext_t here, there;
    getcontext(&there);
    there.uc_stack.ss_sp = stack;
    there.uc_stack.ss_size = sizeof stack;
    there.uc_link = &here;
    makecontext(&there, function, 0);
    swapcontext(&here, &there);
}
#elif defined(__arm__)
static void run_there(void (*function)(void)) {
    __asm__ volatile("mov r4, sp\n mov sp, %0\n blx %1\n mov sp, r4"
                     :
                     : "r"(stack + sizeof stack), "r"(function)
                     : "r0", "r1", "r2", "r3", "r4", "ip", "lr", "cc", "memory");
}
#elif defined(__riscv)
static void run_there(void (*function)(void)) {
    __asm__ volatile("mv s1, sp\n mv sp, %0\n jalr %1\n mv sp, s1"
                     :
                     : "r"(stack + sizeof stack), "r"(function)
                     : "s1", "ra", "t0", "t1", "t2", "t3", "t4", "t5", "t6", "a0", "a1", "a2", "a3", "a4", "a5", "a6", "a7", "memory");
}
#endif

static void do_nothing(void) {}

/* How many octets of the stack a function takes. */
static size_t taken_by(void (*function)(void)) {
    size_t free = 0;
    memset(stack, PAINT, sizeof stack);
    run_there(function);
    while (free < sizeof stack && stack[free] == PAINT)
        free++;
    return sizeof stack - free;
}

/* Makes a call, on a stack of its own where that is wanted, of which it may take so much. */
static void make(const char *what, const struct call *call) {
    if (!measures) {
        call->make();
        return;
    }
    const size_t taken = taken_by(call->make) - taken_by(do_nothing), most = MOST[call->group];
    if (taken > most)
        printf("%s takes %zu of the stack, not %zu\n", call->word, taken, most);
    row(what, taken <= most && *stack == PAINT);
    was_made[call - CALLS] = true;
    if (taken > deepest[call - CALLS])
        deepest[call - CALLS] = taken;
}

/* Says of each group which call took most of the stack. Each call was made. */
static void say_deepest(void) {
    for (size_t group = 0; group < COUNT(GROUPS); group++) {
        size_t most = COUNT(CALLS);
        for (size_t i = 0; i < COUNT(CALLS); i++)
            if (CALLS[i].group == group && (most == COUNT(CALLS) || deepest[i] > deepest[most]))
                most = i;
        printf("deepest: %s %zu, by nbt_%s\n", GROUPS[group], deepest[most], CALLS[most].word);
    }
    for (size_t i = 0; i < COUNT(CALLS); i++)
        row(CALLS[i].word, was_made[i]);
}

/* ---- calls that are many */

static bool refuses;
static size_t asked; /* how often memory was asked for */

#ifdef __cplusplus
extern "C" {
#endif
void *__real_malloc(size_t size);
void *__real_realloc(void *at, size_t size);
void *__wrap_malloc(size_t size);
void *__wrap_realloc(void *at, size_t size);

void *__wrap_malloc(size_t size) {
    asked++;
    return refuses ? 0 : __real_malloc(size);
}

void *__wrap_realloc(void *at, size_t size) {
    asked++;
    return refuses ? 0 : __real_realloc(at, size);
}
#ifdef __cplusplus
}
#endif

/* The call of a line that is printed so. */
static void says(const char *wanted, const char *format, ...) {
    char line[2048];
    va_list more;
    va_start(more, format);
    vsnprintf(line, sizeof line, format, more);
    va_end(more);
    say(line, line, wanted);
}

/* A node makes this request, and hears the server's reply. */
static void exchange(unsigned now, const char *wanted, const char *request, unsigned name) {
    static const char *const SIDES[] = {"server_on_datagram %u 10.0.0.5:137 %s", "node_on_datagram %u 10.0.0.1:137 32 %s"};
    says("done, sends *", request, now, name);
    row("a request", out.size == 68);
    for (size_t side = 0; side < 2; side++) {
        char packet[2 * NBT_PACKET + 1] = "";
        for (size_t i = 0; i < out.size && i < NBT_PACKET; i++)
            snprintf(packet + 2 * i, 3, "%02x", out.out[i]);
        says(side == 0 ? "done, sends *" : wanted, SIDES[side], now, packet);
    }
}

/* A node registers as many names at a server as it has slots, and no more. Each name is a letter. */
static void play_few(void) {
    static const char *const ASK = "node_ask %u %c#20 unique 0", *const HOLDS = "node_holds %u %c#20";
    const char FULL[] = "no slot of the node is free, sends nothing";
    const unsigned now = 3610000, later = now + 10000, more = 'A' + NBT_NODE_NAMES;
    says("done", "server_start 1000/3600/4096 0");
    says("done", "node_start_from 10.0.0.5:137 10.0.0.1:137 1000/3600/4096 0 7");
    for (unsigned name = 'A'; name < more; name++) {
        exchange(now, "done, granted, *", ASK, name);
        says("done, held 1", HOLDS, now, name);
    }
    says(FULL, ASK, now, more);
    for (unsigned name = 'A'; name < more; name++)
        says("done, held 1", HOLDS, now, name);
    exchange(now, "done, freed, *", "node_release %u %c#20", 'A');
    says(FULL, ASK, now, more);
    exchange(later, "done, granted, *", ASK, more);
    says("done, held 1", HOLDS, later, more);
    says("done, held 0", HOLDS, later, 'A');
    says(FULL, ASK, later, 'A');
    says("done", "server_end");
}

/* Registers the name of a number, which is granted where nothing else is wanted. */
static void registers(unsigned name, const char *wanted) {
    char granted[200];
    snprintf(granted, sizeof granted, "done, sends 0001AD800000000100000000 <N%u#20> 0020000100000E10000620000A000005", name);
    wanted = wanted == 0 ? granted : wanted;
    says(wanted, "server_on_datagram 3600000 10.0.0.5:137 0001 2900 0001 0000 0000 0001 <N%u#20> 0020 0001"
                 " C00C 0020 0001 00000000 0006 6000 0A000005", name);
}

static void leased(unsigned name, const char *wanted) {
    says(wanted, "server_lease 3600000 N%u#20 0", name);
}

/* A name server has 300 leases; then memory is refused. */
static void play_heap(void) {
    const char LISTED[] = "done, N*", NO_LEASE[] = "there are no more leases";
    const size_t before = asked;
    unsigned name = LEASES;
    says("done", "server_start 1000/3600/4096 0");
    row("a start asks for no memory", asked == before);
    for (unsigned each = 0; each < LEASES; each++)
        registers(each, 0);
    row("memory was asked for", asked > before);
    for (unsigned each = 0; each < LEASES; each++)
        leased(each, "done, ip 10.0.0.5, kind 1, end 7200000");
    says(LISTED, "server_row %u", LEASES - 1);
    says(NO_LEASE, "server_row %u", LEASES);
    refuses = true;
    says("there is no memory", "server_row 0");
    for (registers(name, "*"); out.result == NBT_DONE && name < 4 * LEASES; registers(++name, "*"))
        row("granted", out.size == 62 && (out.out[3] & 15) == 0);
    row("refused", out.result == NBT_SERVER_OUT_OF_MEMORY && out.size == 0);
    leased(name, NO_LEASE);
    refuses = false;
    says(LISTED, "server_row %u", name - 1);
    says(NO_LEASE, "server_row %u", name);
    registers(name, 0);
    leased(name, "done, ip 10.0.0.5, kind 1, end 7200000");
    says("done", "server_end");
}

/* ---- the objects' memory: the header's numbers are what the library returns, and nobody writes beside it */

#ifdef __cplusplus
#define ALIGN_OF(type) alignof(type)
#else
#define ALIGN_OF(type) _Alignof(type)
#endif

#define OBJECTS(X) X(node, NODE) X(joiner, JOINER) X(pieces, PIECES) X(caller, CALLER) X(listener, LISTENER) X(server, SERVER)

#define GUARDED(type, TYPE) \
    static struct { \
        uint8_t before[16]; \
        union nbt_##type##_memory memory; \
        uint8_t behind[16]; \
    } type;
OBJECTS(GUARDED)

#define LEND(type, TYPE) \
    memset(&type, UNTOUCHED, sizeof type); \
    memcpy(type.before, GUARD, 16); \
    memcpy(type.behind, GUARD, 16); \
    it.type.memory = &type.memory;

#define LOOK_AT(type, TYPE) \
    row(#type ", size", nbt_##type##_size() == NBT_##TYPE##_SIZE); \
    row(#type ", alignment", nbt_##type##_align() == NBT_##TYPE##_ALIGN); \
    row(#type ", aligned", ALIGN_OF(union nbt_##type##_memory) % NBT_##TYPE##_ALIGN == 0); \
    row("before the " #type, memcmp(type.before, GUARD, 16) == 0); \
    row("behind the " #type, memcmp(type.behind, GUARD, 16) == 0);

int main(int count, char **words) {
    OBJECTS(LEND)
    measures = count > 1 && strcmp(words[1], "stack") == 0;
    for (int each = 1 + measures; each < count; each++)
        play_scenes(words[each]);
    play_results();
    play_few();
    play_heap();
    OBJECTS(LOOK_AT)
    if (measures)
        say_deepest();
    printf("%u passed, %u failed\n", passed, failed);
    return failed != 0;
}
