/* Plays scenes. A line is a call's word and what it is given; the line behind it, further in, is all that it has to write. Numbers are as
 * in C, or `max`; limits are 1000/3600/4096, and an endpoint is 10.0.0.5:137. A name is FRED#20, with labels FRED#20.NETBIOS.COM, * for all
 * names, or ^ for the last one that was written; with :222 behind it says that it has so many octets of scope. Octets are hexadecimal
 * digits, 00*5 for five times one, "TEXT", <FRED#20> for a name's wire form (RFC 1001 section 14.1), and /37 for no more than 37 of all. */
#include "calls.h"

#include <inttypes.h>
#include <stdarg.h>

/* What each row needs: whether what it shows is so, the words of a result of a group of calls, and a call that is made. */
static void row(const char *what, bool is_so);
static const char *words_of(uint8_t calls, uint8_t result);
static void make(const char *what, const struct call *call);

enum words {
    OF_A_NAME, OF_AN_EVENT, OF_A_STATE, OF_AN_ACCEPT, OF_A_DATAGRAM, OF_A_PART, OF_A_SESSION, OF_A_CONNECTION, OF_AN_ANSWER, OF_A_FAILURE
};

static const struct {
    enum words of;
    uint8_t number;
    const char *word;
} WORDS[] = {
#include "words.txt"
};

static char told[8192], *rest;
static struct nbt_name last;

/* ---- what a call is given */

/* The next word of the line, or of a text in quotes, whose first one it keeps; "" behind the last. */
static char *next(void) {
    char *word = rest += strspn(rest, " ");
    rest = *word == '"' ? word + 1 + strcspn(word + 1, "\"") : word + strcspn(word, " ");
    if (*rest != 0)
        *rest++ = 0;
    return word;
}

static uint64_t number_of(const char *word) {
    return strcmp(word, "max") == 0 ? UINT64_MAX : strtoull(word, 0, 0);
}

/* A size, or a place: of one that is greater than any the last bits. */
static size_t count_of(const char *word) { return (size_t)number_of(word); }

static uint8_t kind_of(enum words of, const char *word) {
    for (size_t i = 0; i < COUNT(WORDS); i++)
        if (WORDS[i].of == of && strcmp(WORDS[i].word, word) == 0)
            return WORDS[i].number;
    return (uint8_t)number_of(word);
}

static struct nbt_addr endpoint_of(const char *word) {
    unsigned ip[4] = {0}, port = 0;
    sscanf(word, "%u.%u.%u.%u:%u", ip, ip + 1, ip + 2, ip + 3, &port);
    const struct nbt_addr endpoint = {ip[0] << 24 | ip[1] << 16 | ip[2] << 8 | ip[3], (uint16_t)port};
    return endpoint;
}

static struct nbt_config limits_of(const char *word) {
    struct nbt_config config = {0, 0, 0};
    sscanf(word, "%" SCNu64 "/%" SCNu32 "/%" SCNu32, &config.life, &config.longest, &config.rows);
    return config;
}

static struct nbt_name name_of(const char *word) {
    struct nbt_name name = last;
    const char *suffix = strrchr(word, '#'), *label = strchr(word, '.'), *size = strchr(word, ':');
    if (*word != '^')
        memset(&name, 0, sizeof name);
    if (*word == '*')
        name.octets[0] = '*';
    if (suffix != 0) {
        memset(name.octets, ' ', 15);
        memcpy(name.octets, word, (size_t)(suffix - word));
        name.octets[15] = (uint8_t)strtoul(suffix + 1, 0, 16);
    }
    for (; label != 0; label = strchr(label + 1, '.')) {
        const size_t count = strcspn(label + 1, ".:>");
        name.scope[name.scope_size] = (uint8_t)count;
        memcpy(name.scope + name.scope_size + 1, label + 1, count);
        name.scope_size = (uint8_t)(name.scope_size + 1 + count);
    }
    if (size != 0)
        name.scope_size = (uint8_t)number_of(size + 1);
    return name;
}

/* Puts the name's wire form there, and returns how many octets it has. */
static size_t wire(const struct nbt_name *name, uint8_t *at) {
    *at = 32;
    for (size_t i = 0; i < 16; i++) {
        at[1 + 2 * i] = (uint8_t)('A' + (name->octets[i] >> 4));
        at[2 + 2 * i] = (uint8_t)('A' + (name->octets[i] & 15));
    }
    memcpy(at + 33, name->scope, name->scope_size);
    at[33 + name->scope_size] = 0;
    return 34u + name->scope_size;
}

static void take_octets(void) {
    in.count = 0;
    for (char *word = next(); *word != 0; word = next()) {
        uint8_t *const at = in.octets + in.count;
        if (*word == '"') {
            memcpy(at, word + 1, strlen(word + 1));
            in.count += strlen(word + 1);
        } else if (*word == '<') {
            const struct nbt_name name = name_of(word + 1);
            in.count += wire(&name, at);
        } else if (*word == '/') {
            in.count = count_of(word + 1);
        } else if (word[2] == '*') {
            in.count += count_of(word + 3);
            memset(at, (int)strtoul(word, 0, 16), count_of(word + 3));
        } else {
            for (unsigned octet; sscanf(word, "%2x", &octet) == 1; word += 2)
                in.octets[in.count++] = (uint8_t)octet;
        }
    }
}

static void take_given(char letter) {
    switch (letter) {
    case 't': in.now = number_of(next()); break;
    case 'a': in.from = endpoint_of(next()); break;
    case 'b': in.own = endpoint_of(next()); break;
    case 'c': in.config = limits_of(next()); break;
    case 'n': in.name = name_of(next()); break;
    case 'm': in.other = name_of(next()); break;
    case 'u': in.number = count_of(next()); break;
    case 'r': in.room = count_of(next()); break;
    case 'k': in.kind = kind_of(OF_A_NAME, next()); break;
    case 'd': in.kind = kind_of(OF_A_DATAGRAM, next()); break;
    case 'h': in.kind = kind_of(OF_A_CONNECTION, next()); break;
    case 'p': in.packet.kind = kind_of(OF_A_SESSION, next()); break;
    case 'w': strcpy(in.word, next() + 1); break;
    case 'x': strcpy(in.scope, next() + 1); break;
    default: take_octets();
    }
}

/* ---- what a call wrote */

static void tell(const char *format, ...) {
    const size_t size = strlen(told);
    va_list more;
    va_start(more, format);
    vsnprintf(told + size, sizeof told - size, format, more);
    va_end(more);
}

/* How many octets were written there, up to the last one. */
static size_t touched(const void *at, size_t size) {
    while (size > 0 && ((const uint8_t *)at)[size - 1] == UNTOUCHED)
        size--;
    return size;
}

static void tell_number(const char *what, const void *at, size_t size) {
    uint64_t number = 0;
    memcpy(&number, at, size);
    if (touched(at, size) > 0)
        tell(", %s %" PRIu64, what, number);
}

static void tell_kind(enum words of, const uint8_t *at) {
    if (*at == UNTOUCHED)
        return;
    for (size_t i = 0; i < COUNT(WORDS); i++) {
        if (WORDS[i].of == of && WORDS[i].number == *at) {
            tell(", %s", WORDS[i].word);
            return;
        }
    }
    tell(", kind %u", *at);
}

/* An address, and the port behind it of an endpoint. */
static void tell_endpoint(const char *what, const void *at, bool has_port) {
    struct nbt_addr end = {0, 0};
    memcpy(&end.ip, at, sizeof end.ip);
    if (touched(at, has_port ? 6 : 4) == 0)
        return;
    tell(", %s %u.%u.%u.%u", what, end.ip >> 24, end.ip >> 16 & 255, end.ip >> 8 & 255, end.ip & 255);
    if (has_port)
        memcpy(&end.port, (const uint8_t *)at + 4, sizeof end.port);
    tell(has_port ? ":%u" : "", end.port);
}

/* Characters of a name, of which those are in hexadecimal digits that could be mistaken. */
static void tell_letters(const uint8_t *at, size_t size) {
    for (size_t i = 0; i < size; i++)
        tell(at[i] < ' ' || at[i] > '~' || strchr("#.:<>\\", at[i]) != 0 ? "\\%02x" : "%c", at[i]);
}

static void tell_name(const struct nbt_name *name) {
    static const uint8_t STAR[16] = "*";
    size_t size = 15, at = 0;
    while (size > 0 && name->octets[size - 1] == ' ')
        size--;
    if (memcmp(name->octets, STAR, 16) == 0) {
        tell("*");
    } else {
        tell_letters(name->octets, size);
        tell("#%02x", name->octets[15]);
    }
    for (; at < name->scope_size && at < sizeof name->scope; at += 1u + name->scope[at]) {
        tell(".");
        tell_letters(name->scope + at + 1, name->scope[at]);
    }
    for (; at < sizeof name->scope; at++)
        if (name->scope[at] != 0)
            tell("!");
}

static void tell_written_name(const char *what, const void *at) {
    struct nbt_name name;
    memcpy(&name, at, sizeof name);
    if (touched(at, sizeof name) == 0)
        return;
    tell(", %s", what);
    tell_name(&name);
}

/* Octets as a line has them: a name's wire form as that name, and many that are the same as so many. */
static void tell_octets(const uint8_t *at, size_t size) {
    bool is_apart = false;
    for (size_t i = 0, same = 1; i < size; i += same) {
        uint8_t form[255];
        struct nbt_name name;
        memset(&name, 0, sizeof name);
        for (size_t half = 1; half <= 32 && i + half < size; half++)
            name.octets[(half - 1) / 2] = (uint8_t)(name.octets[(half - 1) / 2] << 4 | ((at[i + half] - 'A') & 15));
        for (size_t end = i + 33; end < size && at[end] != 0 && name.scope_size < sizeof name.scope; end++)
            name.scope[name.scope_size++] = at[end];
        const size_t count = wire(&name, form);
        const bool is_name = i + count <= size && memcmp(form, at + i, count) == 0;
        for (same = 1; i + same < size && at[i + same] == at[i];)
            same++;
        tell(i > 0 && (is_name || same > 4 || is_apart) ? " " : "");
        is_apart = is_name || same > 4;
        if (is_name) {
            tell("<");
            tell_name(&name);
            tell(">");
            same = count;
        } else {
            tell(same > 4 ? "%02X*%zu" : "%02X", at[i], same);
            same = is_apart ? same : 1;
        }
    }
}

/* What is to be sent, or that it is nothing. What is written without a size, or behind it, shows too. */
static void tell_sent(const char *what, const size_t *size, const uint8_t *at) {
    const size_t count = touched(at, NBT_PACKET + 1);
    const bool is_sized = touched(size, sizeof *size) > 0;
    if (is_sized && *size != count)
        tell(", %s %zu", what, *size);
    else if (is_sized || count > 0)
        tell(", %s%s", is_sized ? what : "writes", count == 0 ? " nothing" : " ");
    tell_octets(at, count);
}

static void tell_event(const struct nbt_event *event) {
    if (touched(event, sizeof *event) == 0)
        return;
    tell_kind(OF_AN_EVENT, &event->kind);
    tell(event->rcode != 0 ? ", RCODE %u" : "", event->rcode);
    tell(event->cut ? ", cut" : "");
    tell(event->seconds != 0 ? ", %" PRIu32 " s" : "", event->seconds);
    tell(event->size != 0 ? ", of %zu" : "", event->size);
    if (event->name.octets[0] != 0)
        tell_written_name("", &event->name);
}

/* What stands in all that a call may write: its words, how it is told, where it is, and its size or whose kinds it has. */
enum how { NUMBER, KIND, NAME, IP, ENDPOINT };

static const struct {
    const char *what;
    enum how how;
    size_t at, of;
} FIELDS[] = {
#define AT(field) offsetof(struct written, field)
#include "fields.txt"
};

static void tell_all(void) {
    for (size_t i = 0; i < COUNT(FIELDS); i++) {
        const uint8_t *const at = (const uint8_t *)&out + FIELDS[i].at;
        switch (FIELDS[i].how) {
        case NUMBER: tell_number(FIELDS[i].what, at, FIELDS[i].of); break;
        case KIND: tell_kind((enum words)FIELDS[i].of, at); break;
        case NAME: tell_written_name(FIELDS[i].what, at); break;
        default: tell_endpoint(FIELDS[i].what, at, FIELDS[i].how == ENDPOINT);
        }
    }
    if (touched(out.text, sizeof out.text) > 0)
        tell(", \"%.*s\"", (int)touched(out.text, sizeof out.text), out.text);
    tell_event(&out.event);
    tell_sent("sends", &out.size, out.out);
    tell_sent("then", &out.second_size, out.second);
    if (touched(out.lent, sizeof out.lent) > 0) {
        tell(", lent ");
        tell_octets(out.lent, touched(out.lent, sizeof out.lent));
    }
}

/* ---- lines */

/* Makes the call of this line, and compares what it wrote with what is wanted; behind a * anything may stand. */
static void say(const char *what, const char *line, const char *wanted) {
    static char words[2048];
    const struct call *call = CALLS;
    size_t count = strcspn(wanted, "*");
    strcpy(words, line);
    rest = words;
    const char *word = next();
    while (call < CALLS + COUNT(CALLS) && strcmp(call->word, word) != 0)
        call++;
    memset(&out, UNTOUCHED, sizeof out);
    *told = 0;
    if (call < CALLS + COUNT(CALLS)) {
        for (const char *letter = call->letters; *letter != 0; letter++)
            take_given(*letter);
        make(what, call);
        if (touched(&out.name, sizeof out.name) > 0)
            last = out.name;
        tell("%s", words_of(call->calls, out.result));
        tell_all();
    }
    if (wanted[count] == 0 || wanted[count + 1] != 0)
        count = sizeof told;
    if (strncmp(told, wanted, count) != 0)
        printf("%s: %s\n    it is   %s\n    wanted  %s\n", what, line, told, wanted);
    row(what, strncmp(told, wanted, count) == 0);
}

static void play_scenes(const char *path) {
    static char line[2048], call[2048];
    char what[600];
    unsigned number = 0;
    FILE *file = fopen(path, "r");
    *call = 0;
    while (file != 0 && fgets(line, sizeof line, file) != 0) {
        number++;
        line[strcspn(line, "\n")] = 0;
        snprintf(what, sizeof what, "%s:%u", path, number);
        if (*line == ' ' && *call != 0)
            say(what, call, line + strspn(line, " "));
        else if (*call != 0)
            row(what, false);
        strcpy(call, *line == ' ' || *line == '#' ? "" : line);
    }
    row(path, file != 0 && *call == 0 && number > 0);
    if (file != 0)
        fclose(file);
}
