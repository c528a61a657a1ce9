/* Calls every entry of the library with random and damaged input: random bytes, almost legal paths, malformed UTF-8, places
   outside their store, counts that exceed their slices, overlapping places, short buffers, the largest numbers, NaN and
   infinities. All lent slices have exactly the stated length: they end just before an inaccessible page or start just after
   one, so that accessing one byte too many is a fault; or they are allocated with malloc, so that valgrind checks them. After
   each call the program checks that the reply is well formed, that a refused call has changed nothing, that an accepted one
   has changed only its result, that its input and the bytes around the lent slices are unchanged, that an accepted path is
   UTF-8 without the characters that no name has, that a written path is legal and such UTF-8, too, that a rest is the end of
   the given path and of the written one, that stripping and mapping leave brackets as they are, and that the same call with
   other buffers and other old contents has the same result.

       robust [--calls N | --seconds N] [--seed N] [--table] */
#define _GNU_SOURCE
#include "mudvizsor.h"

#include <math.h>
#include <signal.h>
#include <stdio.h>
#include <stdlib.h>
#include <string.h>
#include <sys/mman.h>
#include <time.h>
#include <unistd.h>

/* ---- Random numbers ---- */

static uint64_t random_state;

static uint64_t random_bits(void) {
    uint64_t z = random_state += UINT64_C(0x9e3779b97f4a7c15);
    z = (z ^ (z >> 30)) * UINT64_C(0xbf58476d1ce4e5b9);
    z = (z ^ (z >> 27)) * UINT64_C(0x94d049bb133111eb);
    return z ^ (z >> 31);
}

static size_t below(size_t n) { return n == 0 ? 0 : random_bits() % n; }
static bool percent(size_t n) { return below(100) < n; }

static size_t huge_number(void) {
    const size_t numbers[] = {SIZE_MAX, SIZE_MAX - 1, SIZE_MAX / 2, SIZE_MAX / 2 + 1, SIZE_MAX / 4 + 1, SIZE_MAX / 3 + 1,
                              SIZE_MAX / 255 + 1, (size_t)1 << 62, (size_t)1 << 32, 1000000, 256, 65, 17};
    return numbers[below(sizeof numbers / sizeof *numbers)];
}

static double some_float(void) {
    const double floats[] = {0, -0.0, 1, -1, 2, 0.5, 1e-6, 1e300, -1e300, 5e-324, INFINITY, -INFINITY, NAN, 24, -10};
    if (percent(70)) return floats[below(sizeof floats / sizeof *floats)];
    uint64_t bits = random_bits();
    double made;
    memcpy(&made, &bits, sizeof made);
    return made;
}

/* ---- The lent slices: their contents and their location ---- */

enum {
    STORE, PLACES, ISTORE, IPLACES, LEGS, PATH, SECOND, THIRD, TEXTS, SPOTS, OUT, SLOTS, TIME,
    KEPT, OPEN_BYTES, OPEN_PLACES, LEG_STORE, LEG_SLOTS, LEG_TABLE, LENT
};
enum { CAPACITY = 1 << 18, ZONE = 64 };
enum where { BEFORE_GUARD, AFTER_GUARD, HEAP };

/* A copy of the contents, with which the lent slice is compared after the call. */
static struct contents {
    unsigned char bytes[CAPACITY];
    size_t length;
} contents[LENT];

static struct lent {
    unsigned char *arena, *at;
    enum where where;
    unsigned char zone[ZONE];
} lent[LENT];

static size_t count, icount, paths, direction;
static bool mark, imark, flag;
static double floats[4];

static void make_arenas(void) {
    size_t page = (size_t)sysconf(_SC_PAGESIZE);
    for (size_t i = 0; i < LENT; i++) {
        char *all = mmap(NULL, CAPACITY + 2 * page, PROT_NONE, MAP_PRIVATE | MAP_ANONYMOUS, -1, 0);
        if (all == MAP_FAILED || mprotect(all + page, CAPACITY, PROT_READ | PROT_WRITE) != 0) abort();
        lent[i].arena = (unsigned char *)all + page;
    }
}

/* The bytes on the side of the slice that is not next to a guard page. */
static unsigned char *zone_of(size_t i) {
    if (lent[i].where == BEFORE_GUARD) return lent[i].at - ZONE;
    return lent[i].at + contents[i].length;
}

static bool has_zone(size_t i) { return lent[i].where != HEAP && contents[i].length + ZONE <= CAPACITY; }

static void lend(size_t i) {
    size_t length = contents[i].length;
    lent[i].where = (enum where)below(3);
    if (lent[i].where == HEAP) lent[i].at = length == 0 && percent(50) ? NULL : malloc(length);
    else lent[i].at = lent[i].where == BEFORE_GUARD ? lent[i].arena + CAPACITY - length : lent[i].arena;
    if (length > 0) memcpy(lent[i].at, contents[i].bytes, length);
    if (!has_zone(i)) return;
    for (size_t k = 0; k < ZONE; k += 8) memcpy(lent[i].zone + k, &(uint64_t){random_bits()}, 8);
    memcpy(zone_of(i), lent[i].zone, ZONE);
}

static void release(size_t i) {
    if (lent[i].where == HEAP) free(lent[i].at);
}

/* Returns whether the slice has its old contents from byte `from` to byte `to`. */
static bool unchanged(size_t i, size_t from, size_t to) {
    return from >= to || memcmp(lent[i].at + from, contents[i].bytes + from, to - from) == 0;
}

static bool all_unchanged(size_t i) { return unchanged(i, 0, contents[i].length); }
static size_t numbers_in(size_t i) { return contents[i].length / sizeof(size_t); }

static void set_number(size_t i, size_t k, size_t number) {
    memcpy(contents[i].bytes + k * sizeof number, &number, sizeof number);
}

static size_t number_at(size_t i, size_t k) {
    size_t number;
    memcpy(&number, contents[i].bytes + k * sizeof number, sizeof number);
    return number;
}

/* Makes a buffer of this length with random old contents. */
static void make_buffer(size_t i, size_t length) {
    contents[i].length = length > CAPACITY ? CAPACITY : length;
    for (size_t k = 0; k < contents[i].length; k += 8) memcpy(contents[i].bytes + k, &(uint64_t){random_bits()}, 8);
}

/* ---- Random texts ---- */

enum { MAX_TEXT = 1200 };

static size_t append(char *text, size_t at, const char *more) {
    size_t length = strlen(more);
    memcpy(text + at, more, length);
    return at + length;
}

/* Names, the common ones first. Some have characters of two, three and four bytes, which share their first bytes. */
static size_t append_name(char *text, size_t at) {
    const char *const names[] = {"A", "B", "é", "C", "è", "Ab", "Aé", "éA", "_1", "Stop", "Jelző_12", "日本", "旦",
                                 "e\xCC\x81", "\xF0\x9F\x9A\x8B", "\xF4\x8F\xBF\xBF"};
    return append(text, at, names[below(percent(80) ? 3 : sizeof names / sizeof *names)]);
}

/* Sequences that no name has: malformed UTF-8, and characters at both ends of each excluded range. */
static size_t append_bad_character(char *text, size_t at) {
    const char *const characters[] = {
        "\xC3", "\xE6\x97", "\xF0\x9F\x9A", "\xA9", "\xC3\xA9\xA9", "\xC1\xBF", "\xE0\x9F\xBF", "\xF0\x8F\xBF\xBF",
        "\xED\xA0\x80", "\xED\xBF\xBF", "\xF4\x90\x80\x80", "\xF8\x88\x80\x80\x80", "\xFF", "\xC2\x80", "\xC2\x9F",
        "\xC2\xA0", "\xE1\x9A\x80", "\xE2\x80\x80", "\xE2\x80\x8A", "\xE2\x80\xA8", "\xE2\x80\xA9", "\xE2\x80\xAF",
        "\xE2\x81\x9F", "\xE3\x80\x80"};
    return append(text, at, characters[below(sizeof characters / sizeof *characters)]);
}

/* Appends a path of this many names, with selections and a property if `rich` is true. */
static size_t append_path(char *text, size_t at, size_t names, bool rich) {
    bool slash = true;
    for (size_t i = 0; i < names; i++) {
        if (slash) text[at++] = '/';
        at = append_name(text, at);
        slash = !(rich && percent(15));
        if (!slash) at = append(text, at, percent(50) ? "{v=p}" : percent(50) ? "{w=q}{v=1}" : "{é=p}");
    }
    if (names == 0 && percent(50)) text[at++] = '/';
    if (names > 0 && rich && percent(20)) at = append(text, at, percent(70) ? ".b" : percent(50) ? ".c:d" : ".ő:é");
    return at;
}

/* A path of this many names, with selections and a property if `rich` is true. */
static size_t legal_text(char *text, size_t names, bool rich) { return append_path(text, 0, names, rich); }

/* A path with brackets, sometimes with more than the four that are legal or with nothing in the innermost ones. */
static size_t bracketed_text(char *text) {
    size_t at = 0, depth = percent(60) ? 1 : 1 + below(5);
    for (size_t i = 0; i < depth; i++) {
        at = append_path(text, at, 1 + below(3), false);
        if (percent(20)) at = append(text, at, "{v=p}");
        at = append(text, at, percent(70) ? ".b[" : ".c:d[");
    }
    at = append_path(text, at, percent(95) ? 1 + below(3) : 0, true);
    for (size_t i = 0; i < depth; i++) text[at++] = ']';
    return at;
}

/* A path of one long name, near the limit of 255 bytes, sometimes of characters of two bytes. */
static size_t long_text(char *text) {
    size_t length = 245 + below(15);
    memset(text, 'A', length);
    for (size_t at = 1; at + 1 < length && length % 3 == 0;) at = append(text, at, "é");
    text[0] = '/';
    return percent(50) ? length : append(text, length, percent(50) ? ".b" : "/B");
}

static size_t noise(char *text) {
    const char letters[] = "/A/B{v=p}.:_1[/]\xC3\xA9\xE6\x97";
    size_t length = percent(90) ? below(12) : below(MAX_TEXT);
    bool any = percent(30);
    for (size_t i = 0; i < length; i++) text[i] = any ? (char)random_bits() : letters[below(sizeof letters - 1)];
    return length;
}

/* Inserts a sequence that no name has somewhere in the text. */
static size_t with_bad_character(char *text, size_t length) {
    char after[MAX_TEXT + 16];
    size_t at = below(length + 1), left = length - at;
    memcpy(after, text + at, left);
    at = append_bad_character(text, at);
    memcpy(text + at, after, left);
    return at + left;
}

static size_t some_text(char *text) {
    size_t kind = below(100);
    if (kind < 6) return noise(text);
    if (kind < 10) return long_text(text);
    size_t length = percent(30) ? bracketed_text(text) : legal_text(text, below(5), true);
    if (kind < 16 && length > 0) text[below(length)] = (char)random_bits();
    if (kind >= 16 && kind < 20) length = with_bad_character(text, length);
    return length;
}

/* An end of a pair; if `flawed` is true, sometimes a text that is not an end. */
static size_t some_end(char *text, bool flawed) {
    if (flawed && percent(10)) return some_text(text);
    if (percent(2)) return long_text(text) % 256;
    return legal_text(text, percent(8) ? 0 : 1 + below(3), false);
}

static void make_text(size_t i) {
    char text[MAX_TEXT + 16];
    contents[i].length = percent(40) ? some_end(text, false) : some_text(text);
    memcpy(contents[i].bytes, text, contents[i].length);
}

/* ---- Random lists, routes and many paths ---- */

/* Appends a text to slice i and stores its place at number k of slice j; sometimes uses the place of an earlier text, or a part
   of it, instead. */
static void append_text(size_t i, size_t j, size_t k, const char *text, size_t length) {
    if (k >= 2 && percent(15)) {
        size_t other = 2 * below(k / 2), whole = number_at(j, other + 1);
        set_number(j, k, number_at(j, other));
        set_number(j, k + 1, percent(80) ? whole : below(whole + 1));
        return;
    }
    memcpy(contents[i].bytes + contents[i].length, text, length);
    set_number(j, k, contents[i].length);
    set_number(j, k + 1, length);
    contents[i].length += length;
}

/* Damages places: one outside its store, one huge, or the places or the store a little too short. */
static void damage(size_t store, size_t places) {
    size_t numbers = numbers_in(places), length = contents[store].length;
    const size_t values[] = {length, length + 1, SIZE_MAX - length, SIZE_MAX - length + 1, huge_number(), 256};
    if (numbers > 0 && percent(70)) set_number(places, below(numbers), values[below(6)]);
    if (numbers > 0 && percent(15)) contents[places].length -= sizeof(size_t) * (1 + below(numbers < 4 ? numbers : 4));
    if (length > 0 && percent(15)) contents[store].length -= 1 + below(length < 4 ? length : 4);
}

static size_t some_count(void) {
    if (percent(80)) return below(5);
    return percent(70) ? below(20) : 60 + below(8);
}

/* Makes a list of pairs and returns its stated count. */
static size_t make_list(size_t store, size_t places) {
    char text[MAX_TEXT + 16];
    size_t pairs = some_count(), stated = pairs;
    bool flawed = percent(10);
    contents[store].length = 0;
    for (size_t k = 0; k < 4 * pairs; k += 2) append_text(store, places, k, text, some_end(text, flawed));
    contents[places].length = 4 * pairs * sizeof(size_t);
    if (percent(8)) damage(store, places);
    if (percent(3)) stated = percent(50) ? huge_number() : pairs + 1;
    return stated;
}

/* Makes the legs of a route from the existing pairs. */
static void make_legs(void) {
    size_t pairs = count > 70 ? 70 : count, legs = percent(85) ? below(4) : below(19);
    for (size_t k = 0; k < legs; k++) {
        size_t first = below(pairs + 1), left = pairs - first;
        set_number(LEGS, 3 * k, percent(95) ? below(3) : huge_number());
        set_number(LEGS, 3 * k + 1, first);
        set_number(LEGS, 3 * k + 2, percent(50) ? left : below(left + 1));
    }
    contents[LEGS].length = 3 * legs * sizeof(size_t);
    if (legs > 0 && percent(5)) set_number(LEGS, below(3 * legs), huge_number());
    if (legs > 0 && percent(3)) contents[LEGS].length -= sizeof(size_t);
    count = percent(97) ? legs : percent(50) ? huge_number() : legs + 1;
}

static void make_many(void) {
    char text[MAX_TEXT + 16];
    paths = below(5);
    contents[TEXTS].length = 0;
    for (size_t k = 0; k < 2 * paths; k += 2) append_text(TEXTS, SPOTS, k, text, some_text(text));
    contents[SPOTS].length = 2 * paths * sizeof(size_t);
    if (percent(10)) damage(TEXTS, SPOTS);
}

/* ---- The entries ---- */

#define BYTES(i) (const char *)lent[i].at, contents[i].length
#define NUMBERS(i) (const size_t *)lent[i].at, numbers_in(i)
#define OUT_BUFFER (char *)lent[OUT].at, contents[OUT].length
#define SLOTS_BUFFER (size_t *)lent[SLOTS].at, numbers_in(SLOTS)
#define MAP_BUFFERS OUT_BUFFER, SLOTS_BUFFER, (double *)lent[TIME].at
#define PAIRS BYTES(STORE), NUMBERS(PLACES), count
#define MAP PAIRS, mark, floats[0], floats[1]
#define IMAP BYTES(ISTORE), NUMBERS(IPLACES), icount, imark, floats[2], floats[3]
#define ROUTE BYTES(STORE), NUMBERS(PLACES), NUMBERS(LEGS), count
#define MANY BYTES(TEXTS), NUMBERS(SPOTS), paths, OUT_BUFFER, SLOTS_BUFFER

#define BIT(i) (1u << (i))
#define A_LIST (BIT(STORE) | BIT(PLACES))
#define A_SECOND_LIST (BIT(ISTORE) | BIT(IPLACES))
#define MANY_PATHS (BIT(TEXTS) | BIT(SPOTS) | BIT(OUT) | BIT(SLOTS))
#define A_MAP_BUFFERS (BIT(OUT) | BIT(SLOTS) | BIT(TIME))

/* The kind of result of an entry. */
enum kind {
    A_TEST, A_COUNT, A_PATH, LENGTHS, STATUSES, A_MAP, A_CHAIN, MANY_REPLIES,
    STRIPPED,   /* the path without selections */
    EMBEDDED,   /* the path in brackets */
    REPLACED,   /* the path with another one in its brackets */
    REST_START, /* whether there is a prefix, and where the rest begins */
    CARRIED,    /* a path and the rest */
    TRANSLATED  /* the same of a call that removes selections */
};

/* Each entry: its name, its kind of result, the slices that it is lent, and its arguments. */
#define ENTRIES(E)                                                                                                            \
    E(path_new, A_TEST, BIT(PATH), BYTES(PATH))                                                                               \
    E(path_is_end, A_TEST, BIT(PATH), BYTES(PATH))                                                                            \
    E(path_has_variant_selection, A_TEST, BIT(PATH), BYTES(PATH))                                                             \
    E(path_element_count, A_COUNT, BIT(PATH), BYTES(PATH))                                                                    \
    E(path_prim_element_count, A_COUNT, BIT(PATH), BYTES(PATH))                                                               \
    E(path_has_prefix, A_TEST, BIT(PATH) | BIT(SECOND), BYTES(PATH), BYTES(SECOND))                                           \
    E(path_rest_start, REST_START, BIT(PATH) | BIT(SECOND), BYTES(PATH), BYTES(SECOND))                                       \
    E(path_replace_prefix, A_PATH, BIT(PATH) | BIT(SECOND) | BIT(THIRD) | BIT(OUT), BYTES(PATH), BYTES(SECOND),               \
      BYTES(THIRD), OUT_BUFFER)                                                                                               \
    E(path_parent, A_PATH, BIT(PATH) | BIT(OUT), BYTES(PATH), OUT_BUFFER)                                                     \
    E(path_prim_path, A_PATH, BIT(PATH) | BIT(OUT), BYTES(PATH), OUT_BUFFER)                                                  \
    E(path_split_property, A_PATH, BIT(PATH) | BIT(OUT), BYTES(PATH), OUT_BUFFER)                                             \
    E(path_strip_variant_selections, STRIPPED, BIT(PATH) | BIT(OUT), BYTES(PATH), OUT_BUFFER)                                 \
    E(path_ancestors, LENGTHS, BIT(PATH) | BIT(SLOTS), BYTES(PATH), SLOTS_BUFFER)                                             \
    E(path_embedded_target, EMBEDDED, BIT(PATH) | BIT(OUT), BYTES(PATH), OUT_BUFFER)                                          \
    E(path_replace_embedded_target, REPLACED, BIT(PATH) | BIT(SECOND) | BIT(OUT), BYTES(PATH), BYTES(SECOND), OUT_BUFFER)     \
    E(map_source_to_target, A_PATH, A_LIST | BIT(PATH) | BIT(OUT), PAIRS, mark, BYTES(PATH), OUT_BUFFER)                      \
    E(map_target_to_source, A_PATH, A_LIST | BIT(PATH) | BIT(OUT), PAIRS, mark, BYTES(PATH), OUT_BUFFER)                      \
    E(translate_to_target, A_PATH, A_LIST | BIT(PATH) | BIT(OUT), PAIRS, mark, BYTES(PATH), OUT_BUFFER)                       \
    E(map_source_to_target_carried, CARRIED, A_LIST | BIT(PATH) | BIT(OUT), PAIRS, mark, BYTES(PATH), OUT_BUFFER)             \
    E(map_target_to_source_carried, CARRIED, A_LIST | BIT(PATH) | BIT(OUT), PAIRS, mark, BYTES(PATH), OUT_BUFFER)             \
    E(translate_to_target_carried, TRANSLATED, A_LIST | BIT(PATH) | BIT(OUT), PAIRS, mark, BYTES(PATH), OUT_BUFFER)           \
    E(map_all, MANY_REPLIES, A_LIST | MANY_PATHS, PAIRS, mark, direction, MANY)                                                     \
    E(map_new, A_MAP, A_LIST | A_MAP_BUFFERS, PAIRS, MAP_BUFFERS)                                                             \
    E(map_with_root_identity, A_MAP, A_LIST | A_MAP_BUFFERS, MAP, MAP_BUFFERS)                                                \
    E(map_compose, A_MAP, A_LIST | A_SECOND_LIST | A_MAP_BUFFERS, MAP, IMAP, MAP_BUFFERS)                                     \
    E(map_from_pair, A_MAP, BIT(PATH) | BIT(SECOND) | A_MAP_BUFFERS, BYTES(PATH), BYTES(SECOND), MAP_BUFFERS)                 \
    E(map_from_pair_identity, A_MAP, BIT(PATH) | BIT(SECOND) | A_MAP_BUFFERS, BYTES(PATH), BYTES(SECOND), MAP_BUFFERS)        \
    E(map_inverse, A_MAP, A_LIST | A_MAP_BUFFERS, MAP, MAP_BUFFERS)                                                           \
    E(map_dropping_source, A_MAP, A_LIST | BIT(PATH) | A_MAP_BUFFERS, MAP, BYTES(PATH), MAP_BUFFERS)                          \
    E(map_rebase_target, A_MAP, A_LIST | BIT(PATH) | BIT(SECOND) | A_MAP_BUFFERS, MAP, BYTES(PATH), BYTES(SECOND),            \
      MAP_BUFFERS)                                                                                                            \
    E(map_deepen_to, A_MAP, A_LIST | BIT(PATH) | A_MAP_BUFFERS, MAP, BYTES(PATH), MAP_BUFFERS)                                \
    E(map_implied_class, A_MAP, A_LIST | A_SECOND_LIST | A_MAP_BUFFERS, MAP, IMAP, MAP_BUFFERS)                               \
    E(map_is_noop, A_TEST, A_LIST, MAP)                                                                                       \
    E(analyze_relocate_occurrences, STATUSES, A_LIST | BIT(OUT), PAIRS, OUT_BUFFER)                                           \
    E(chain_through_relocates, A_CHAIN, A_LIST | BIT(PATH) | BIT(SECOND) | BIT(OUT), PAIRS, flag, BYTES(SECOND),              \
      BYTES(PATH), OUT_BUFFER)                                                                                                \
    E(shift_through_nearest_ancestor, A_PATH, A_LIST | BIT(PATH) | BIT(OUT), PAIRS, BYTES(PATH), OUT_BUFFER)                  \
    E(route_out, A_PATH, A_LIST | BIT(LEGS) | BIT(PATH) | BIT(OUT), ROUTE, BYTES(PATH), OUT_BUFFER)                           \
    E(route_home, A_PATH, A_LIST | BIT(LEGS) | BIT(PATH) | BIT(OUT), ROUTE, BYTES(PATH), OUT_BUFFER)                          \
    E(route_out_carried, TRANSLATED, A_LIST | BIT(LEGS) | BIT(PATH) | BIT(OUT), ROUTE, BYTES(PATH), OUT_BUFFER)               \
    E(route_home_carried, CARRIED, A_LIST | BIT(LEGS) | BIT(PATH) | BIT(OUT), ROUTE, BYTES(PATH), OUT_BUFFER)                 \
    E(route_all, MANY_REPLIES, A_LIST | BIT(LEGS) | MANY_PATHS, ROUTE, flag, MANY)

#define CALL(name, kind, uses, ...) \
    static size_t call_##name(void) { return mudvizsor_##name(__VA_ARGS__); }
ENTRIES(CALL)

#define ROW(name, kind, uses, ...) {"mudvizsor_" #name, kind, uses, call_##name, 0, {0}},
static struct entry {
    const char *name;
    enum kind kind;
    unsigned uses;
    size_t (*call)(void);
    size_t calls, numbers[10];
} entries[] = {ENTRIES(ROW)};

enum { ENTRY_COUNT = sizeof entries / sizeof *entries };

/* ---- Checks ---- */

static const char *entry_name = "none";
static size_t call_count, wrong_count;
static uint64_t seed = 1;

static void check(bool good, const char *what) {
    if (good) return;
    printf("wrong: %s, call %zu, seed %llu: %s\n", entry_name, call_count, (unsigned long long)seed, what);
    if (++wrong_count == 20) exit(1);
}

/* Handles the signal of an access to a guard page. */
static void fault(int signal) {
    char text[200];
    int length = snprintf(text, sizeof text, "signal %d: %s, call %zu\n", signal, entry_name, call_count);
    if (write(2, text, (size_t)length) < 0) _exit(3);
    _exit(2);
}

static size_t slot_at(size_t k) { return ((const size_t *)(const void *)lent[SLOTS].at)[k]; }

/* Returns the length of the character at the start of the text, and its number; 0 if there is no well-formed one. */
static size_t character_at(const unsigned char *text, size_t length, uint32_t *number) {
    const uint32_t least[] = {0, 0, 0x80, 0x800, 0x10000};
    size_t bytes = text[0] < 0x80 ? 1 : text[0] < 0xC0 ? 0 : text[0] < 0xE0 ? 2 : text[0] < 0xF0 ? 3 : text[0] < 0xF8 ? 4 : 0;
    if (bytes == 0 || bytes > length) return 0;
    uint32_t found = bytes == 1 ? text[0] : text[0] & (0x7Fu >> bytes);
    for (size_t i = 1; i < bytes; i++) {
        if (text[i] >> 6 != 2) return 0;
        found = found << 6 | (text[i] & 0x3Fu);
    }
    *number = found;
    return found < least[bytes] || found > 0x10FFFF || found >> 11 == 0x1B ? 0 : bytes;
}

/* Returns whether this is a control or white space outside ASCII. */
static bool is_excluded(uint32_t number) {
    const uint32_t ranges[][2] = {{0x80, 0x9F}, {0xA0, 0xA0}, {0x1680, 0x1680}, {0x2000, 0x200A}, {0x2028, 0x2029},
                                  {0x202F, 0x202F}, {0x205F, 0x205F}, {0x3000, 0x3000}};
    for (size_t i = 0; i < sizeof ranges / sizeof *ranges; i++)
        if (number >= ranges[i][0] && number <= ranges[i][1]) return true;
    return false;
}

/* Returns whether the text is UTF-8 without the characters that no name has. It uses nothing of the library. */
static bool is_text(const unsigned char *text, size_t length) {
    uint32_t number = 0;
    for (size_t at = 0, bytes; at < length; at += bytes) {
        bytes = character_at(text + at, length - at, &number);
        if (bytes == 0 || is_excluded(number)) return false;
    }
    return true;
}

static bool legal_at(size_t from, size_t length) {
    const unsigned char *text = lent[OUT].at + from;
    return is_text(text, length) && mudvizsor_path_new((const char *)text, length) == 0;
}

/* Checks that only the first `bytes` bytes of OUT and `numbers` numbers of SLOTS have changed. */
static void check_rest(unsigned uses, size_t bytes, size_t numbers) {
    if (uses & BIT(OUT)) check(unchanged(OUT, bytes, contents[OUT].length), "a byte after the result changed");
    if (uses & BIT(SLOTS)) check(unchanged(SLOTS, numbers * sizeof(size_t), contents[SLOTS].length), "a number changed");
}

/* The length of the part of a text before its brackets. */
static size_t own_length(const unsigned char *text, size_t length) {
    const unsigned char *bracket = length == 0 ? NULL : memchr(text, '[', length);
    return bracket == NULL ? length : (size_t)(bracket - text);
}

/* Returns whether the given path and the written one have the same brackets, or none. */
static bool same_brackets(size_t length) {
    size_t own = own_length(lent[PATH].at, contents[PATH].length), brackets = contents[PATH].length - own;
    size_t made = own_length(lent[OUT].at, length);
    if (length - made != brackets) return false;
    return brackets == 0 || memcmp(lent[PATH].at + own, lent[OUT].at + made, brackets) == 0;
}

/* Checks a written path. A call that takes a list and a path maps that path, and so leaves its brackets. */
static void check_path(unsigned uses, size_t length) {
    bool maps = (uses & BIT(STORE)) && (uses & BIT(PATH));
    check(length <= 255 && contents[OUT].length >= 255, "a path in a buffer that is too small");
    check(legal_at(0, length), "an illegal path");
    if (maps) check(same_brackets(length), "brackets that mapping changed");
    check_rest(uses, length, 0);
}

static void check_stripped(unsigned uses, size_t length) {
    check_path(uses, length);
    check(mudvizsor_path_has_variant_selection((const char *)lent[OUT].at, length) == 0, "a selection is left");
    check(same_brackets(length), "brackets that stripping changed");
}

/* Checks that the written path is what the given one has between its first bracket and the last byte. */
static void check_embedded(unsigned uses, size_t length) {
    size_t given = contents[PATH].length, own = own_length(lent[PATH].at, given);
    bool inside = own + length + 2 == given && memcmp(lent[PATH].at + own + 1, lent[OUT].at, length) == 0;
    check_path(uses, length);
    check(inside, "another path than the one in brackets");
}

/* Checks the three parts of the written path: the given one up to its first bracket, the target, a bracket. */
static void check_replaced(unsigned uses, size_t length) {
    size_t own = own_length(lent[PATH].at, contents[PATH].length), target = contents[SECOND].length;
    check_path(uses, length);
    if (own == contents[PATH].length || target == 0 || length != own + target + 2) {
        check(false, "the length of a path with another target");
        return;
    }
    check(memcmp(lent[PATH].at, lent[OUT].at, own + 1) == 0, "another path before the brackets");
    check(memcmp(lent[SECOND].at, lent[OUT].at + own + 1, target) == 0, "another target in the brackets");
    check(lent[OUT].at[length - 1] == ']', "no bracket at the end");
}

/* Checks the index of the rest: the length of the prefix, but 0 if the prefix is `/` and the path is longer. */
static void check_prefix_rest(size_t reply) {
    size_t path = contents[PATH].length, prefix = contents[SECOND].length;
    bool found = mudvizsor_path_has_prefix(BYTES(PATH), BYTES(SECOND)) == 256;
    size_t start = prefix == 1 && path > 1 ? 0 : prefix;
    check(mudvizsor_prefix_found(reply) == found, "another answer than has_prefix");
    check(reply == (found ? 256 + 65536 * start : 0), "the start of the rest");
}

/* Checks a path and its rest: the end of the given path and of the written one, or 0 and 0 if selections are removed. */
static void check_carried(unsigned uses, size_t reply, bool translated) {
    size_t length = mudvizsor_carried_length(reply), start = mudvizsor_carried_rest_start(reply);
    size_t rest = mudvizsor_carried_rest_length(reply);
    bool no_legs = (uses & BIT(LEGS)) && count == 0;
    bool stripped = translated && !no_legs && mudvizsor_path_has_variant_selection(BYTES(PATH)) == 256;
    check_path(uses, length);
    check(start + rest == (stripped ? 0 : contents[PATH].length), "a rest that is not the end of the path");
    if (rest > length || start + rest > contents[PATH].length) check(false, "a rest that is too long");
    else if (rest > 0) {
        check(memcmp(lent[PATH].at + start, lent[OUT].at + length - rest, rest) == 0, "a rest that is not the end of the result");
        check(lent[PATH].at[start] >> 6 != 2, "a rest that begins within a character");
    }
}

static void check_lengths(unsigned uses, size_t value) {
    check(value >= 1 && value <= 128 && value <= numbers_in(SLOTS), "the number of ancestors");
    check(slot_at(0) == contents[PATH].length, "the first ancestor");
    for (size_t k = 1; k < value; k++) check(slot_at(k) < slot_at(k - 1), "an ancestor that is not shorter");
    for (size_t k = 0; k < value; k++) check(is_text(lent[PATH].at, slot_at(k)), "an ancestor that divides a character");
    check_rest(uses, 0, value);
}

static void check_statuses(unsigned uses, size_t value) {
    check(value == count && value <= contents[OUT].length, "the number of statuses");
    for (size_t k = 0; k < value; k++) check(lent[OUT].at[k] <= 3, "a status above 3");
    check_rest(uses, value, 0);
}

/* Checks that a map that was built is stored consecutively, and that its ends are ends. */
static void check_map(unsigned uses, size_t reply) {
    size_t pairs = mudvizsor_pairs(reply), at = 0;
    check(pairs <= 64 && 4 * pairs <= numbers_in(SLOTS), "the number of pairs");
    for (size_t k = 0; k < 2 * pairs; k++) {
        size_t length = slot_at(2 * k + 1);
        check(slot_at(2 * k) == at, "a list that is not stored consecutively");
        check(length <= 255 && at + length <= contents[OUT].length, "an end outside its buffer");
        check(legal_at(at, length), "an illegal end");
        check(mudvizsor_path_is_end((const char *)lent[OUT].at + at, length) == 256, "not an end");
        at += length;
    }
    check_rest(uses, at, 4 * pairs);
}

/* Returns whether text k of slice i, whose places are in slice j, is UTF-8 without the characters that no name has. */
static bool is_text_at(size_t i, size_t j, size_t k) {
    return is_text(contents[i].bytes + number_at(j, 2 * k), number_at(j, 2 * k + 1));
}

/* Checks the bytes and the reply of each path. */
static void check_many(unsigned uses) {
    check(paths <= numbers_in(SLOTS) && 255 * paths <= contents[OUT].length, "many paths in a buffer that is too small");
    check(paths <= numbers_in(SPOTS) / 2, "more paths than spots");
    for (size_t k = 0; k < paths; k++) {
        size_t reply = slot_at(k), length = mudvizsor_number(reply) == 0 ? mudvizsor_value(reply) : 0;
        check(mudvizsor_number(reply) <= 8 && mudvizsor_value(reply) <= 255, "a reply");
        check(mudvizsor_number(reply) == 0 || mudvizsor_value(reply) == 0, "a refusal with a value");
        check(legal_at(255 * k, length), "an illegal path of many");
        check(mudvizsor_number(reply) != 0 || is_text_at(TEXTS, SPOTS, k), "a path of many that is no text was accepted");
        check(unchanged(OUT, 255 * k + length, 255 * k + 255), "a byte after a path of many changed");
    }
    check_rest(uses, 255 * paths, paths);
}

/* Checks that the given path and the ends of the given lists, which the call accepted, are texts. */
static void check_accepted(unsigned uses) {
    if (uses & BIT(PATH)) check(is_text(contents[PATH].bytes, contents[PATH].length), "a path that is no text was accepted");
    for (size_t k = 0; (uses & A_LIST) && !(uses & BIT(LEGS)) && k < 2 * count; k++)
        check(is_text_at(STORE, PLACES, k), "an end that is no text was accepted");
    for (size_t k = 0; (uses & A_SECOND_LIST) && k < 2 * icount; k++)
        check(is_text_at(ISTORE, IPLACES, k), "an end that is no text was accepted");
}

static void check_answer(const struct entry *entry, size_t reply) {
    size_t value = mudvizsor_value(reply);
    check_accepted(entry->uses);
    switch (entry->kind) {
    case A_TEST: check(value <= 1, "neither 0 nor 1"); break;
    case A_COUNT: check(value <= 255, "a count"); break;
    case A_PATH: check_path(entry->uses, value); break;
    case LENGTHS: check_lengths(entry->uses, value); break;
    case STATUSES: check_statuses(entry->uses, value); break;
    case A_MAP: check_map(entry->uses, reply); break;
    case A_CHAIN:
        check(mudvizsor_chain_steps(reply) <= count && count <= 64, "the number of steps");
        check_path(entry->uses, mudvizsor_chain_length(reply));
        break;
    case MANY_REPLIES: check(value == 0, "a value"), check_many(entry->uses); break;
    case STRIPPED: check_stripped(entry->uses, value); break;
    case EMBEDDED: check_embedded(entry->uses, value); break;
    case REPLACED: check_replaced(entry->uses, value); break;
    case REST_START: check_prefix_rest(reply); break;
    case CARRIED: check_carried(entry->uses, reply, false); break;
    case TRANSLATED: check_carried(entry->uses, reply, true); break;
    }
}

static void check_refusal(const struct entry *entry, size_t reply) {
    check(reply <= 8, "an unknown refusal");
    check_rest(entry->uses, 0, 0);
    if (entry->uses & BIT(TIME)) check(all_unchanged(TIME), "a refused call wrote a time");
}

/* Checks that the input and the bytes around the slices are unchanged. */
static void check_around(const struct entry *entry) {
    for (size_t i = 0; i < LENT; i++) {
        if (!(entry->uses & BIT(i))) continue;
        if (i < OUT) check(all_unchanged(i), "the input changed");
        if (has_zone(i)) check(memcmp(zone_of(i), lent[i].zone, ZONE) == 0, "memory next to a lent slice changed");
    }
}

/* ---- Calls ---- */

/* A capacity of a buffer: just enough, more, one too few, or any. */
static size_t some_capacity(size_t needed) {
    size_t kind = below(100);
    if (kind < 55) return needed;
    if (kind < 80) return 3 * needed + 16;
    if (kind < 90) return needed == 0 ? 0 : needed - 1;
    return below(2 * needed + 8);
}

static size_t some_path_capacity(void) {
    size_t kind = below(100);
    if (kind < 85) return 255;
    return kind < 90 ? 254 : below(400);
}

static void make_buffers(const struct entry *entry) {
    size_t bytes = contents[STORE].length, slots = numbers_in(PLACES);
    if (entry->uses & BIT(ISTORE)) bytes += contents[ISTORE].length, slots += numbers_in(IPLACES);
    if (!(entry->uses & BIT(STORE))) bytes = contents[PATH].length + contents[SECOND].length, slots = 4;
    switch (entry->kind) {
    case LENGTHS: slots = some_capacity(1 + below(8)); break;
    case STATUSES: bytes = some_capacity(count > 70 ? 70 : count); break;
    case A_MAP: bytes = some_capacity(bytes), slots = some_capacity(slots); break;
    case MANY_REPLIES:
        bytes = percent(90) ? 255 * paths : below(256 * paths + 1);
        slots = percent(90) ? paths : below(paths + 2);
        if (percent(3)) paths = huge_number();
        break;
    default: bytes = some_path_capacity(); break;
    }
    make_buffer(OUT, bytes);
    make_buffer(SLOTS, slots * sizeof(size_t));
    make_buffer(TIME, 2 * sizeof(double));
}

static void make_input(const struct entry *entry) {
    if (entry->uses & BIT(STORE)) count = make_list(STORE, PLACES);
    if (entry->uses & BIT(ISTORE)) icount = make_list(ISTORE, IPLACES);
    if (entry->uses & BIT(LEGS)) make_legs();
    if (entry->uses & BIT(TEXTS)) make_many();
    for (size_t i = PATH; i <= THIRD; i++)
        if (entry->uses & BIT(i)) make_text(i);
    mark = percent(50), imark = percent(50), flag = percent(50);
    direction = percent(95) ? below(3) : huge_number();
    for (size_t i = 0; i < 4; i++) floats[i] = percent(50) ? (double)(i % 2) : some_float();
}

static size_t call_once(struct entry *entry) {
    for (size_t i = 0; i < LENT; i++)
        if (entry->uses & BIT(i)) lend(i);
    size_t reply = entry->call();
    call_count++, entry->calls++;
    check_around(entry);
    if (mudvizsor_number(reply) == 0) check_answer(entry, reply);
    else check_refusal(entry, reply);
    entry->numbers[mudvizsor_number(reply) <= 8 ? mudvizsor_number(reply) : 9]++;
    return reply;
}

static void release_all(const struct entry *entry) {
    for (size_t i = 0; i < LENT; i++)
        if (entry->uses & BIT(i)) release(i);
}

/* The number of bytes at the start of the buffer that the result fills. */
static size_t filled(const struct entry *entry, size_t i, size_t reply) {
    size_t value = mudvizsor_value(reply), bytes = 0;
    if (mudvizsor_number(reply) != 0) return 0;
    if (i == TIME) return 2 * sizeof(double);
    if (entry->kind == LENGTHS) return value * sizeof(size_t);
    if (entry->kind == A_CHAIN) return mudvizsor_chain_length(reply);
    if (entry->kind == CARRIED || entry->kind == TRANSLATED) return mudvizsor_carried_length(reply);
    if (entry->kind == MANY_REPLIES) return i == SLOTS ? paths * sizeof(size_t) : 0;
    if (entry->kind != A_MAP) return value;
    if (i == SLOTS) return mudvizsor_pairs(reply) * 4 * sizeof(size_t);
    for (size_t k = 0; k < 2 * mudvizsor_pairs(reply); k++) bytes += slot_at(2 * k + 1);
    return bytes;
}

/* Makes the same call twice, with other buffers and other old contents: the reply and the result must be the same. */
static void call_twice(struct entry *entry) {
    static unsigned char answers[LENT][CAPACITY];
    entry_name = entry->name;
    make_input(entry);
    make_buffers(entry);
    size_t lengths[LENT] = {0}, first = call_once(entry);
    for (size_t i = OUT; i <= TIME; i++) {
        if (!(entry->uses & BIT(i))) continue;
        lengths[i] = filled(entry, i, first);
        if (lengths[i] > 0) memcpy(answers[i], lent[i].at, lengths[i]);
    }
    release_all(entry);
    for (size_t i = OUT; i <= TIME; i++) make_buffer(i, contents[i].length);
    size_t second = call_once(entry);
    check(first == second, "another reply to the same call");
    for (size_t i = OUT; i <= TIME; i++)
        if (lengths[i] > 0) check(memcmp(answers[i], lent[i].at, lengths[i]) == 0, "another result of the same call");
    release_all(entry);
}

/* ---- Time offsets, and maps without their pairs ---- */

static bool same_float(double a, double b) { return (isnan(a) && isnan(b)) || memcmp(&a, &b, sizeof a) == 0; }

static void check_time(const char *name, double offset, double scale) {
    double made[2];
    memcpy(made, lent[TIME].at, sizeof made);
    entry_name = name;
    check(same_float(made[0], offset) && same_float(made[1], scale), "a time offset");
    if (has_zone(TIME)) check(memcmp(zone_of(TIME), lent[TIME].zone, ZONE) == 0, "memory next to a time changed");
}

static uint64_t bits_of(double x) {
    uint64_t bits;
    memcpy(&bits, &x, sizeof bits);
    return isnan(x) ? UINT64_C(0x7ff8000000000000) : bits;
}

static void check_resulting_times(double o, double s, double io, double is) {
    double *out = (double *)(void *)lent[TIME].at;
    bool fit = isfinite(o) && isfinite(s) && s > 0;
    mudvizsor_layer_offset_new(o, s, out), check_time("layer_offset_new", o, s);
    mudvizsor_layer_offset_scale_only(s, out), check_time("layer_offset_scale_only", 0, s);
    mudvizsor_layer_offset_sanitized(o, s, out), check_time("layer_offset_sanitized", fit ? o : 0, fit ? s : 1);
    mudvizsor_layer_offset_inverse(o, s, out);
    check_time("layer_offset_inverse", s == 0 ? 0 : -o / s, s == 0 ? 1 : 1 / s);
    mudvizsor_layer_offset_concatenate(o, s, io, is, out);
    check_time("layer_offset_concatenate", o + s * io, s * is);
    mudvizsor_layer_offset_to_bits(o, s, (uint64_t *)(void *)out);
    uint64_t bits[2] = {bits_of(o), bits_of(s)};
    check(memcmp(out, bits, sizeof bits) == 0, "bits");
    call_count += 6;
}

static void check_time_tests(double o, double s, double io, double is) {
    bool valid = isfinite(o) && isfinite(s), other = isfinite(io) && isfinite(is);
    bool near = fabs(o - io) < 1e-6 && fabs(s - is) < 1e-6;
    bool same = bits_of(o) == bits_of(io) && bits_of(s) == bits_of(is);
    entry_name = "layer_offset_is_..";
    check(mudvizsor_layer_offset_is_valid(o, s) == valid, "is_valid");
    check(mudvizsor_layer_offset_is_identity(o, s) == (o == 0 && s == 1), "is_identity");
    check(mudvizsor_layer_offset_is_valid_composition(o, s) == (valid && s > 0), "is_valid_composition");
    check(mudvizsor_layer_offset_is_close(o, s, io, is) == (valid ? other && near : !other && same), "is_close");
    check(same_float(mudvizsor_layer_offset_apply(o, s, io), o + s * io), "apply");
    call_count += 5;
}

/* Checks the calls for maps without their pairs. After a refused call the time is still that of the call before. */
static void check_map_info(size_t pairs, bool marked, double o, double s, double io, double is) {
    double *out = (double *)(void *)lent[TIME].at;
    bool same = pairs == 0 && marked, few = pairs <= 64;
    entry_name = "map_is_..";
    check(mudvizsor_map_is_null(pairs, marked, o, s) == (pairs == 0 && !marked), "is_null");
    check(mudvizsor_map_path_is_identity(pairs, marked, o, s) == same, "path_is_identity");
    check(mudvizsor_map_is_identity(pairs, marked, o, s) == (same && o == 0 && s == 1), "is_identity");
    check(mudvizsor_map_has_root_identity(pairs, marked, o, s) == marked, "has_root_identity");
    check(mudvizsor_map_identity(out) == 256, "identity"), check_time("map_identity", 0, 1);
    check(mudvizsor_map_null(out) == 0, "null"), check_time("map_null", 0, 1);
    mudvizsor_map_time_offset(pairs, marked, o, s, out), check_time("map_time_offset", o, s);
    size_t reply = mudvizsor_map_with_time_offset(pairs, marked, o, s, io, is, out);
    check_time("map_with_time_offset", few ? io : o, few ? is : s);
    check(reply == (few ? 512 * pairs + 256 * marked : MUDVIZSOR_TOO_MANY), "the reply");
    call_count += 8;
}

static void call_times(void) {
    double o = some_float(), s = some_float(), io = some_float(), is = some_float();
    if (percent(20)) io = o, is = s;
    make_buffer(TIME, 2 * sizeof(double));
    lend(TIME);
    check_resulting_times(o, s, io, is);
    check_time_tests(o, s, io, is);
    check_map_info(percent(90) ? some_count() : huge_number(), percent(50), o, s, io, is);
    release(TIME);
}

/* ---- Lines of frames ---- */

static size_t frames_answered, frames_refused;

static void append_digits(size_t byte) {
    const char digits[] = "0123456789ABCDEF0123456789abcdef";
    size_t lower = percent(50) ? 16 : 0, at = contents[PATH].length;
    contents[PATH].bytes[at] = (unsigned char)digits[lower + byte / 16 % 16];
    contents[PATH].bytes[at + 1] = (unsigned char)digits[lower + byte % 16];
    contents[PATH].length = at + 2;
}

static void append_frame_text(const char *text, size_t length, bool counted) {
    if (counted) append_digits(length / 256), append_digits(length);
    for (size_t i = 0; i < length; i++) append_digits((unsigned char)text[i]);
}

/* A random frame, mostly well formed; sometimes random bytes or an overlong line. */
static void make_line(void) {
    char text[MAX_TEXT + 16];
    size_t kind = percent(97) ? 1 + below(7) : below(256);
    contents[PATH].length = 0;
    if (kind > 2 && kind < 5 && percent(60)) kind = 1;
    append_digits(kind);
    for (size_t i = 0; i < 2 && kind == 1; i++) append_frame_text(text, some_end(text, percent(10)), true);
    if (kind == 5 || kind == 6) append_frame_text(text, some_text(text), false);
    if (percent(4)) contents[PATH].bytes[below(contents[PATH].length)] = (unsigned char)random_bits();
    if (percent(2)) contents[PATH].length -= 1;
    if (percent(1)) contents[PATH].length += 4090 + below(10);
}

/* Makes the state of a new run, with buffers of any length. */
static void make_frames_memory(void) {
    const size_t enough[] = {5 * 8, 32640, 256 * 8, 32768, 4096 * 8, 48 * 8};
    for (size_t i = KEPT; i < LENT; i++) {
        size_t whole = enough[i - KEPT] / 8;
        make_buffer(i, 8 * (percent(80) ? (percent(30) ? whole : whole / 16 + 5) : below(whole + 2)));
    }
    memset(contents[KEPT].bytes, 0, contents[KEPT].length);
}

/* Alters one number of the state. */
static void alter_frames_memory(void) {
    const size_t which[] = {KEPT, OPEN_PLACES, LEG_SLOTS, LEG_TABLE};
    size_t i = which[below(4)], numbers = numbers_in(i) < 40 ? numbers_in(i) : 40;
    if (numbers > 0) set_number(i, below(numbers), percent(50) ? huge_number() : below(70));
}

static bool used_by_frames(size_t i) { return i == PATH || i == OUT || i >= KEPT; }

static size_t call_frames_once(void) {
    for (size_t i = 0; i < LENT; i++)
        if (used_by_frames(i)) lend(i);
    size_t reply = mudvizsor_frames_line(
        BYTES(PATH), (size_t *)lent[KEPT].at, numbers_in(KEPT), (char *)lent[OPEN_BYTES].at, contents[OPEN_BYTES].length,
        (size_t *)lent[OPEN_PLACES].at, numbers_in(OPEN_PLACES), (char *)lent[LEG_STORE].at, contents[LEG_STORE].length,
        (size_t *)lent[LEG_SLOTS].at, numbers_in(LEG_SLOTS), (size_t *)lent[LEG_TABLE].at, numbers_in(LEG_TABLE), OUT_BUFFER);
    call_count++;
    for (size_t i = 0; i < LENT; i++)
        if (used_by_frames(i) && has_zone(i))
            check(memcmp(zone_of(i), lent[i].zone, ZONE) == 0, "memory next to a lent slice changed");
    check(all_unchanged(PATH), "the line changed");
    check(unchanged(KEPT, 5 * sizeof(size_t), contents[KEPT].length), "a number after the five changed");
    return reply;
}

/* The answer must be a line of capital digits. A refused call, and one that is answered FF09, must not change the state. A
   bad frame needs no more than the 5 bytes of its answer. */
static void check_frames(size_t reply) {
    size_t length = mudvizsor_value(reply);
    bool enough = numbers_in(KEPT) >= 5 && contents[OUT].length >= 515;
    bool bad = length == 5 && memcmp(lent[OUT].at, "FF09\n", 5) == 0;
    bool answered = enough || bad;
    check(mudvizsor_number(reply) == (answered ? 0 : MUDVIZSOR_NO_ROOM), "a wrong refusal number for the sizes of the buffers");
    check(answered ? length >= 5 && length <= 515 && length % 2 == 1 : length == 0, "the length of the answer");
    check(unchanged(OUT, length, contents[OUT].length), "a byte after the result changed");
    check(length == 0 || lent[OUT].at[length - 1] == '\n', "no newline at the end");
    for (size_t k = 0; k + 1 < length; k++) check(strchr("0123456789ABCDEF", lent[OUT].at[k]) != NULL, "not a digit");
    for (size_t i = KEPT; i < LENT && (!enough || bad); i++) check(all_unchanged(i), "the state changed though nothing was done");
    if (answered) frames_answered++;
    else frames_refused++;
}

static void release_frames(void) {
    for (size_t i = 0; i < LENT; i++)
        if (used_by_frames(i)) release(i);
}

/* Processes a line twice with equal states in different buffers; the resulting state is used for the next line. */
static void call_frames(void) {
    static unsigned char after[LENT][CAPACITY];
    entry_name = "mudvizsor_frames_line";
    if (contents[KEPT].length == 0 || percent(2)) make_frames_memory();
    if (percent(3)) alter_frames_memory();
    make_line();
    make_buffer(OUT, percent(95) ? 515 : below(600));
    size_t first = call_frames_once(), length = mudvizsor_value(first);
    check_frames(first);
    for (size_t i = OUT; i < LENT; i++)
        if (used_by_frames(i) && contents[i].length > 0) memcpy(after[i], lent[i].at, contents[i].length);
    release_frames();
    make_buffer(OUT, contents[OUT].length);
    size_t second = call_frames_once();
    check_frames(second);
    check(first == second && (length == 0 || memcmp(after[OUT], lent[OUT].at, length) == 0), "another answer to a line");
    for (size_t i = KEPT; i < LENT; i++)
        check(contents[i].length == 0 || memcmp(after[i], lent[i].at, contents[i].length) == 0, "another state");
    release_frames();
    for (size_t i = KEPT; i < LENT; i++) memcpy(contents[i].bytes, after[i], contents[i].length);
}

/* ---- The run ---- */

static double seconds_now(void) {
    struct timespec now;
    clock_gettime(CLOCK_MONOTONIC, &now);
    return (double)now.tv_sec + 1e-9 * (double)now.tv_nsec;
}

static void print_table(void) {
    printf("%-42s %9s %9s  refused with 1 to 8\n", "entry", "calls", "answers");
    for (size_t i = 0; i < ENTRY_COUNT; i++) {
        printf("%-42s %9zu %9zu ", entries[i].name, entries[i].calls, entries[i].numbers[0]);
        for (size_t k = 1; k <= 8; k++) printf(" %zu", entries[i].numbers[k]);
        printf("\n");
    }
    printf("%-42s %9zu %9zu  0 0 0 0 %zu 0 0 0\n", "mudvizsor_frames_line", frames_answered + frames_refused,
           frames_answered, frames_refused);
}

/* Checks that a long run had accepted and refused calls of every entry. */
static void check_coverage(void) {
    if (call_count < 100000) return;
    for (size_t i = 0; i < ENTRY_COUNT; i++) {
        entry_name = entries[i].name;
        check(entries[i].numbers[0] > 0 && entries[i].numbers[0] < entries[i].calls, "never answered or never refused");
    }
}

static int usage(void) {
    fputs("usage: robust [--calls N | --seconds N] [--seed N] [--table]\n", stderr);
    return 2;
}

int main(int argc, char **argv) {
    double seconds = 0, start = seconds_now();
    size_t calls = 1000000;
    bool table = false;
    for (int i = 1; i < argc; i++) {
        if (strcmp(argv[i], "--table") == 0) table = true;
        else if (i + 1 == argc) return usage();
        else if (strcmp(argv[i], "--seconds") == 0) seconds = strtod(argv[++i], NULL);
        else if (strcmp(argv[i], "--calls") == 0) calls = strtoull(argv[++i], NULL, 10);
        else if (strcmp(argv[i], "--seed") == 0) seed = strtoull(argv[++i], NULL, 10);
        else return usage();
    }
    random_state = seed;
    make_arenas();
    signal(SIGSEGV, fault), signal(SIGBUS, fault);
    while (seconds > 0 ? seconds_now() - start < seconds : call_count < calls) {
        for (size_t i = 0; i < ENTRY_COUNT; i++) call_twice(&entries[i]);
        call_times();
        call_frames();
    }
    check_coverage();
    if (table) print_table();
    printf("%zu calls of %d entries, seed %llu, %.1f s, %zu wrong\n", call_count, ENTRY_COUNT + 20,
           (unsigned long long)seed, seconds_now() - start, wrong_count);
    return wrong_count == 0 ? 0 : 1;
}
