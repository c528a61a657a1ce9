/* Calls every entry of the library with input that is accepted and with input that is refused, and checks the reply and every
   lent byte: what is written, what must not change, and the memory around it. */
#include "mudvizsor.h"

#include <math.h>
#include <stdio.h>
#include <stdlib.h>
#include <string.h>

#define TEXT(s) (s), strlen(s)
#define LIST(l) (l)->store, (l)->store_length, (l)->places, (l)->places_length, (l)->count
#define OUT(r) (r)->out.lent, (r)->out_length
#define MAP_BUFFERS(r) OUT(r), (r)->slots.lent, (r)->slots_length, (r)->time
#define ENTRY(name) "mudvizsor_" #name, mudvizsor_##name
#define ENTRY_AND_CARRIED(name) ENTRY(name), ENTRY(name##_carried)
#define LENGTH(a) (sizeof(a) / sizeof((a)[0]))

/* ---- Checks, and which entries were called ---- */

enum { MAX_ENTRIES = 100 };

static struct coverage {
    const char *entry;
    bool accepted, refused;
} coverage[MAX_ENTRIES];
static size_t entry_count, check_count, failure_count;

static void check(bool good, const char *entry, const char *input, const char *what) {
    check_count++;
    if (!good) {
        failure_count++;
        printf("wrong: %s of %s: %s\n", entry, input, what);
    }
}

static struct coverage *coverage_of(const char *entry) {
    for (size_t i = 0; i < entry_count; i++)
        if (strcmp(coverage[i].entry, entry) == 0) return &coverage[i];
    if (entry_count == MAX_ENTRIES) abort();
    coverage[entry_count].entry = entry;
    return &coverage[entry_count++];
}

/* Checks a reply: its refusal number and its value. */
static void check_reply(const char *entry, const char *input, size_t reply, int number, size_t value) {
    if (number == 0) coverage_of(entry)->accepted = true;
    else coverage_of(entry)->refused = true;
    check(mudvizsor_number(reply) == number, entry, input, "number");
    check(mudvizsor_value(reply) == (number == 0 ? value : 0), entry, input, "value");
}

/* ---- Lent buffers, with guard zones before and after ---- */

enum { ZONE = 64, MAX_BYTES = 2000, MAX_NUMBERS = 400 };

struct buffers {
    struct { char before[ZONE], lent[MAX_BYTES], after[ZONE]; } out;
    struct { size_t before[ZONE], lent[MAX_NUMBERS], after[ZONE]; } slots;
    double time[2];
    size_t out_length, slots_length;
};

static char old_byte(size_t i) { return (char)(0x80 + i % 101); }
static size_t old_number(size_t i) { return SIZE_MAX - 7 * i; }
static const double old_time[2] = {-77.25, 1234.5};

static struct buffers *lend(size_t out_length, size_t slots_length) {
    static struct buffers buffers;
    char *bytes = (char *)&buffers.out;
    size_t *numbers = (size_t *)&buffers.slots;
    for (size_t i = 0; i < sizeof buffers.out; i++) bytes[i] = old_byte(i);
    for (size_t i = 0; i < sizeof buffers.slots / sizeof *numbers; i++) numbers[i] = old_number(i);
    memcpy(buffers.time, old_time, sizeof old_time);
    buffers.out_length = out_length;
    buffers.slots_length = slots_length;
    return &buffers;
}

/* Returns whether the lent bytes start with these, and all others are unchanged. */
static bool bytes_are(const struct buffers *buffers, const char *text, size_t length) {
    const char *bytes = (const char *)&buffers->out;
    for (size_t i = 0; i < sizeof buffers->out; i++) {
        bool written = i >= ZONE && i < ZONE + length;
        if (bytes[i] != (written ? text[i - ZONE] : old_byte(i))) return false;
    }
    return true;
}

static bool numbers_are(const struct buffers *buffers, const size_t *numbers, size_t length) {
    const size_t *lent = (const size_t *)&buffers->slots;
    for (size_t i = 0; i < sizeof buffers->slots / sizeof *lent; i++) {
        bool written = i >= ZONE && i < ZONE + length;
        if (lent[i] != (written ? numbers[i - ZONE] : old_number(i))) return false;
    }
    return true;
}

/* Compares the bits, so that -0 differs from 0. */
static bool floats_are(const double *floats, double offset, double scale) {
    double want[2] = {offset, scale};
    return memcmp(floats, want, sizeof want) == 0;
}

/* Checks a call that writes a path: the path, or a refusal and nothing written. */
static void check_path(const char *entry, const char *input, size_t reply, const struct buffers *buffers, int number,
                  const char *path) {
    size_t length = number == 0 ? strlen(path) : 0;
    check_reply(entry, input, reply, number, length);
    check(bytes_are(buffers, path, length), entry, input, "bytes");
    check(numbers_are(buffers, NULL, 0), entry, input, "numbers");
}

/* Checks a call that writes a path and tells also where the rest of the given path is. */
static void check_carried(const char *entry, const char *input, size_t reply, const struct buffers *buffers, int number,
                          const char *path, size_t rest_start, size_t rest_length) {
    size_t length = number == 0 ? strlen(path) : 0;
    check_reply(entry, input, reply, number, length + 256 * rest_start + 65536 * rest_length);
    check(mudvizsor_carried_length(reply) == length, entry, input, "length");
    check(mudvizsor_carried_rest_start(reply) == rest_start, entry, input, "start of the rest");
    check(mudvizsor_carried_rest_length(reply) == rest_length, entry, input, "length of the rest");
    check(bytes_are(buffers, path, length), entry, input, "bytes");
    check(numbers_are(buffers, NULL, 0), entry, input, "numbers");
    check(rest_length <= length && memcmp(input + rest_start, path + length - rest_length, rest_length) == 0, entry, input,
          "rest of both paths");
}

/* ---- Lists, written as "/A>/X /B>/" ---- */

struct list {
    char store[MAX_BYTES];
    size_t places[MAX_NUMBERS];
    size_t store_length, places_length, count;
};

/* Appends the end at the start of the text to the list, and returns the text after the end. */
static const char *append_end(struct list *list, const char *text) {
    size_t length = strcspn(text, "> ");
    memcpy(list->store + list->store_length, text, length);
    list->places[list->places_length++] = list->store_length;
    list->places[list->places_length++] = length;
    list->store_length += length;
    return text + length;
}

/* Each call uses the next of four lists, so that a test may use several at once. */
static struct list *list_of(const char *pairs) {
    static struct list lists[4];
    static size_t next;
    struct list *list = &lists[next++ % 4];
    memset(list, 0, sizeof *list);
    while (*pairs != 0) {
        pairs = append_end(list, pairs);
        pairs = append_end(list, pairs + 1);
        pairs += *pairs == ' ';
        list->count++;
    }
    return list;
}

/* The text of n pairs /A>/X. */
static const char *pairs_of(size_t n) {
    static char text[6 * 100 + 1];
    text[0] = 0;
    for (size_t i = 0; i < n; i++) strcat(text, i == 0 ? "/A>/X" : " /A>/X");
    return text;
}

/* A path of one name, with n bytes in total. */
static const char *path_of(size_t n) {
    static char text[300];
    memset(text, 'A', sizeof text);
    text[0] = '/';
    text[n] = 0;
    return text;
}

/* ---- Paths ---- */

/* A path with as many brackets as are legal. */
#define FOUR_DEEP "/A.r[/B.s[/C.t[/D.u[/E]]]]"

typedef size_t path_test(const char *, size_t);

static const struct {
    const char *entry;
    path_test *call;
    const char *path;
    int number;
    size_t value;
} path_tests[] = {
    {ENTRY(path_new), "/A{v=p}{w=q}B.c:d", 0, 0},
    {ENTRY(path_new), "", 0, 0},
    {ENTRY(path_new), "A", 2, 0},
    {ENTRY(path_new), "/A/", 2, 0},
    {ENTRY(path_new), "/A{v=p}B.r[/T{w=q}C]", 0, 0},
    {ENTRY(path_new), "/A.r:s[/]", 0, 0},
    {ENTRY(path_new), FOUR_DEEP, 0, 0},
    {ENTRY(path_new), "/Z.z[" FOUR_DEEP "]", 2, 0},
    {ENTRY(path_new), "/A.r[]", 2, 0},
    {ENTRY(path_new), "/A.r[T]", 2, 0},
    {ENTRY(path_new), "/A[/C]", 2, 0},
    {ENTRY(path_new), "/A{v=p}[/C]", 2, 0},
    {ENTRY(path_new), "/A.r[/T].x", 2, 0},
    {ENTRY(path_new), "/A.r[/T][/U]", 2, 0},
    {ENTRY(path_new), "/A.r[/T", 2, 0},
    {ENTRY(path_new), "/A.r[/T]]", 2, 0},
    {ENTRY(path_new), "/Széll_Kálmán_tér{idő=fagy}Jelző_12.állás", 0, 0},
    {ENTRY(path_new), "/A.ő[/É]", 0, 0},
    {ENTRY(path_new), "/A{v=é}", 2, 0},
    {ENTRY(path_new), "/A\xC2\xA0", 2, 0},         /* U+00A0, white space */
    {ENTRY(path_new), "/A\xC2\x85", 2, 0},         /* U+0085, a control */
    {ENTRY(path_new), "/A\xC3", 2, 0},             /* truncated */
    {ENTRY(path_new), "/A\xA9", 2, 0},             /* a continuation alone */
    {ENTRY(path_new), "/A\xC1\xA1", 2, 0},         /* overlong */
    {ENTRY(path_new), "/A\xED\xA0\x80", 2, 0},     /* a surrogate */
    {ENTRY(path_new), "/A\xF4\x90\x80\x80", 2, 0}, /* above U+10FFFF */
    {ENTRY(path_is_end), "/A/B", 0, 1},
    {ENTRY(path_is_end), "/A.b", 0, 0},
    {ENTRY(path_is_end), "/A.r[/T]", 0, 0},
    {ENTRY(path_is_end), "/A{v=}", 2, 0},
    {ENTRY(path_is_end), "/Á/É", 0, 1},
    {ENTRY(path_is_end), "/Á\xFF", 2, 0},
    {ENTRY(path_has_variant_selection), "/A{v=p}", 0, 1},
    {ENTRY(path_has_variant_selection), "/A", 0, 0},
    {ENTRY(path_has_variant_selection), "/A{v=p}.r[/T]", 0, 1},
    {ENTRY(path_has_variant_selection), "/A.r[/T{w=q}]", 0, 0},
    {ENTRY(path_has_variant_selection), "/A{", 2, 0},
    {ENTRY(path_element_count), "/A{v=p}B.c", 0, 3},
    {ENTRY(path_element_count), "/", 0, 0},
    {ENTRY(path_element_count), "/A{v=p}B.r[/T{w=q}C]", 0, 3},
    {ENTRY(path_element_count), "/.c", 2, 0},
    {ENTRY(path_element_count), "/Á{é=p}É.ü", 0, 3},
    {ENTRY(path_prim_element_count), "/A{v=p}B.c", 0, 2},
    {ENTRY(path_prim_element_count), "/A{v=p}B.r[/T{w=q}C]", 0, 2},
    {ENTRY(path_prim_element_count), "//", 2, 0},
};

static void test_path_tests(void) {
    for (size_t i = 0; i < LENGTH(path_tests); i++) {
        size_t reply = path_tests[i].call(TEXT(path_tests[i].path));
        check_reply(path_tests[i].entry, path_tests[i].path, reply, path_tests[i].number, path_tests[i].value);
        reply = path_tests[i].call(TEXT(path_of(256)));
        check_reply(path_tests[i].entry, "256 bytes", reply, MUDVIZSOR_TOO_LONG, 0);
    }
    check_reply("mudvizsor_path_new", "255 bytes", mudvizsor_path_new(TEXT(path_of(255))), 0, 0);
    check_reply("mudvizsor_path_new", "NULL", mudvizsor_path_new(NULL, 0), 0, 0);
}

static void test_has_prefix(void) {
    const char *entry = "mudvizsor_path_has_prefix";
    check_reply(entry, "/A/B, /A", mudvizsor_path_has_prefix(TEXT("/A/B"), TEXT("/A")), 0, 1);
    check_reply(entry, "/AB, /A", mudvizsor_path_has_prefix(TEXT("/AB"), TEXT("/A")), 0, 0);
    check_reply(entry, "/A, NULL", mudvizsor_path_has_prefix(TEXT("/A"), NULL, 0), 0, 1);
    check_reply(entry, "/A.r[/T], /A", mudvizsor_path_has_prefix(TEXT("/A.r[/T]"), TEXT("/A")), 0, 1);
    check_reply(entry, "/A.r[/T], /A.r", mudvizsor_path_has_prefix(TEXT("/A.r[/T]"), TEXT("/A.r")), 0, 0);
    check_reply(entry, "/Aé, /A", mudvizsor_path_has_prefix(TEXT("/Aé"), TEXT("/A")), 0, 0);
    check_reply(entry, "/é, a part of it", mudvizsor_path_has_prefix(TEXT("/é"), TEXT("/\xC3")), 2, 0);
    check_reply(entry, "/A, A", mudvizsor_path_has_prefix(TEXT("/A"), TEXT("A")), 2, 0);
    check_reply(entry, "A, 256 bytes", mudvizsor_path_has_prefix(TEXT("A"), TEXT(path_of(256))), 1, 0);
}

static const struct {
    const char *path, *prefix;
    int number;
    bool found;
    size_t rest_start;
} prefix_rests[] = {
    {"/A/B", "/A", 0, true, 2},
    {"/A{v=p}B", "/A", 0, true, 2},
    {"/A.b", "/A.b", 0, true, 4},
    {"/A/B", "/", 0, true, 0},
    {"/", "/", 0, true, 1},
    {"/A/B", "", 0, true, 0},
    {"", "", 0, true, 0},
    {"/AB", "/A", 0, false, 0},
    {"/A", "/A/B", 0, false, 0},
    {"", "/", 0, false, 0},
    {"/A.r[/T]", "/A", 0, true, 2},
    {"/A.r[/T]", "/A.r[/T]", 0, true, 8},
    {"/A.r[/T]", "/", 0, true, 0},
    {"/A.r[/T]", "/A.r", 0, false, 0},
    {"/Á/É", "/Á", 0, true, 3},
    {"/Áé", "/Á", 0, false, 0},
    {"/A", "A", 2, false, 0},
    {"A", "/A", 2, false, 0},
};

static void test_rest_start(void) {
    const char *entry = "mudvizsor_path_rest_start";
    for (size_t i = 0; i < LENGTH(prefix_rests); i++) {
        const char *path = prefix_rests[i].path;
        size_t rest_start = prefix_rests[i].rest_start, value = prefix_rests[i].found ? 1 + 256 * rest_start : 0;
        size_t reply = mudvizsor_path_rest_start(TEXT(path), TEXT(prefix_rests[i].prefix));
        check_reply(entry, path, reply, prefix_rests[i].number, value);
        check(mudvizsor_prefix_found(reply) == prefix_rests[i].found, entry, path, "prefix");
        check(mudvizsor_prefix_rest_start(reply) == rest_start, entry, path, "start of the rest");
    }
    check_reply(entry, "/A, NULL", mudvizsor_path_rest_start(TEXT("/A"), NULL, 0), 0, 1);
    check_reply(entry, "255 bytes", mudvizsor_path_rest_start(TEXT(path_of(255)), TEXT(path_of(255))), 0, 1 + 256 * 255);
    check_reply(entry, "A, 256 bytes", mudvizsor_path_rest_start(TEXT("A"), TEXT(path_of(256))), 1, 0);
}

static const struct {
    const char *path, *old_prefix, *new_prefix;
    size_t out_length;
    int number;
    const char *result;
} replacements[] = {
    {"/A{v=p}B", "/A{v=p}", "/C", 255, 0, "/C/B"},
    {"/A/B", "/A", "/C{v=p}", 300, 0, "/C{v=p}B"},
    {"/AB", "/A", "/C", 255, 6, ""},
    {"/A.b", "/A", "/", 255, 8, ""},
    {"/B", "/", "/C{v=p}", 255, 8, ""},
    {"/A.r[/A]", "/A", "/X", 255, 0, "/X.r[/A]"},
    {"/A.r[/A]", "/A.r[/A]", "/X", 255, 0, "/X"},
    {"/A.r[/T]", "/A.r", "/X.s", 255, 6, ""},
    {"/A.r[/T]", "/A", "/", 255, 8, ""},
    {"/A{v=p}é/b", "/A{v=p}", "/C", 255, 0, "/C/é/b"},
    {"/A/é", "/A", "/C{ő=p}", 255, 0, "/C{ő=p}é"},
    {"/Aé", "/A", "/C", 255, 6, ""},
    {"/A/B", "/A", "/C", 254, 5, ""},
    {"/A/B", "/A", "C", 0, 2, ""},
    {"/A/B", "/A", "/C\xC3", 255, 2, ""},
};

static void test_replace_prefix(void) {
    const char *entry = "mudvizsor_path_replace_prefix";
    for (size_t i = 0; i < LENGTH(replacements); i++) {
        struct buffers *buffers = lend(replacements[i].out_length, 0);
        size_t reply = mudvizsor_path_replace_prefix(TEXT(replacements[i].path), TEXT(replacements[i].old_prefix),
                                                     TEXT(replacements[i].new_prefix), OUT(buffers));
        check_path(entry, replacements[i].path, reply, buffers, replacements[i].number, replacements[i].result);
    }
    struct buffers *buffers = lend(255, 0);
    size_t reply = mudvizsor_path_replace_prefix(TEXT("/B/C"), TEXT("/B"), TEXT(path_of(254)), OUT(buffers));
    check_path(entry, "a result of 256 bytes", reply, buffers, MUDVIZSOR_MADE_TOO_LONG, "");
}

typedef size_t part(const char *, size_t, char *, size_t);

static const struct {
    const char *entry;
    part *call;
    const char *path;
    int number;
    const char *result;
} parts[] = {
    {ENTRY(path_parent), "/A.b", 0, "/A"},
    {ENTRY(path_parent), "/A{v=p}B", 0, "/A{v=p}"},
    {ENTRY(path_parent), "/A", 0, "/"},
    {ENTRY(path_parent), "/", 6, ""},
    {ENTRY(path_parent), "/A.r[/T]", 0, "/A.r"},
    {ENTRY(path_parent), "/Á/É", 0, "/Á"},
    {ENTRY(path_parent), "/Á/É\xC3", 2, ""},
    {ENTRY(path_prim_path), "/A{v=p}.b", 0, "/A{v=p}"},
    {ENTRY(path_prim_path), "/A{v=p}{w=q}", 0, "/A{v=p}"},
    {ENTRY(path_prim_path), "/A.r[/T]", 0, "/A"},
    {ENTRY(path_prim_path), "/A..b", 2, ""},
    {ENTRY(path_split_property), "/A/B.c:d", 0, "/A/B"},
    {ENTRY(path_split_property), "/A/B", 6, ""},
    {ENTRY(path_split_property), "/A/B.r[/T]", 6, ""},
    {ENTRY(path_strip_variant_selections), "/A{v=p}{w=q}B.c", 0, "/A/B.c"},
    {ENTRY(path_strip_variant_selections), "/A{v=p}B.r[/T{w=q}C]", 0, "/A/B.r[/T{w=q}C]"},
    {ENTRY(path_strip_variant_selections), "/A{é=p}ß.ő", 0, "/A/ß.ő"},
    {ENTRY(path_strip_variant_selections), "/A{v=p", 2, ""},
    {ENTRY(path_embedded_target), "/A.r[/B.s[/C]]", 0, "/B.s[/C]"},
    {ENTRY(path_embedded_target), "/A{v=p}B.r[/T{w=q}C]", 0, "/T{w=q}C"},
    {ENTRY(path_embedded_target), "/A.r[/]", 0, "/"},
    {ENTRY(path_embedded_target), "/A.r", 6, ""},
    {ENTRY(path_embedded_target), "", 6, ""},
    {ENTRY(path_embedded_target), "/A.r[/T", 2, ""},
};

static void test_parts(void) {
    for (size_t i = 0; i < LENGTH(parts); i++) {
        struct buffers *buffers = lend(255, 0);
        size_t reply = parts[i].call(TEXT(parts[i].path), OUT(buffers));
        check_path(parts[i].entry, parts[i].path, reply, buffers, parts[i].number, parts[i].result);
        buffers = lend(254, 0);
        reply = parts[i].call(TEXT("/A.b"), OUT(buffers));
        check_path(parts[i].entry, "254 lent bytes", reply, buffers, MUDVIZSOR_NO_ROOM, "");
        buffers = lend(0, 0);
        reply = parts[i].call(TEXT(path_of(256)), OUT(buffers));
        check_path(parts[i].entry, "256 bytes", reply, buffers, MUDVIZSOR_TOO_LONG, "");
    }
}

static const struct {
    const char *path, *target;
    size_t out_length;
    int number;
    const char *result;
} new_targets[] = {
    {"/A.r[/B.s[/C]]", "/U", 255, 0, "/A.r[/U]"},
    {"/A{v=p}.r[/T]", "/B{w=q}.s[/C]", 300, 0, "/A{v=p}.r[/B{w=q}.s[/C]]"},
    {"/A.r[/T]", "/", 255, 0, "/A.r[/]"},
    {"/A.r[/T]", "/B.s[/C.t[/D.u[/E]]]", 255, 0, FOUR_DEEP},
    {"/A.r[/T]", FOUR_DEEP, 255, 8, ""},
    {"/A.r[/T]", "", 255, 8, ""},
    {"/A.r", "/U", 255, 6, ""},
    {"/A", "", 255, 6, ""},
    {"/A.r", "/U", 254, 5, ""},
    {"/A.r[/T]", "U", 254, 2, ""},
    {"/A.r[/T", "/U", 254, 2, ""},
};

static void test_replace_embedded_target(void) {
    const char *entry = "mudvizsor_path_replace_embedded_target";
    for (size_t i = 0; i < LENGTH(new_targets); i++) {
        struct buffers *buffers = lend(new_targets[i].out_length, 0);
        size_t reply = mudvizsor_path_replace_embedded_target(TEXT(new_targets[i].path), TEXT(new_targets[i].target),
                                                              OUT(buffers));
        check_path(entry, new_targets[i].path, reply, buffers, new_targets[i].number, new_targets[i].result);
    }
    const struct { size_t length; int number; } long_targets[] = {{249, 0}, {250, 7}, {255, 7}, {256, 1}};
    for (size_t i = 0; i < LENGTH(long_targets); i++) {
        const char *target = path_of(long_targets[i].length);
        struct buffers *buffers = lend(255, 0);
        char result[300] = "/A.r[";
        strcat(strcat(result, target), "]");
        size_t reply = mudvizsor_path_replace_embedded_target(TEXT("/A.r[/T]"), TEXT(target), OUT(buffers));
        check_path(entry, "a long target", reply, buffers, long_targets[i].number, result);
    }
}

static void test_ancestors(void) {
    const char *entry = "mudvizsor_path_ancestors";
    const char *path = "/A{v=p}B.c";
    const size_t lengths[] = {10, 8, 7, 2, 1};
    struct buffers *buffers = lend(0, 5);
    size_t reply = mudvizsor_path_ancestors(TEXT(path), buffers->slots.lent, buffers->slots_length);
    check_reply(entry, path, reply, 0, 5);
    check(numbers_are(buffers, lengths, 5), entry, path, "lengths");
    buffers = lend(0, 4);
    reply = mudvizsor_path_ancestors(TEXT(path), buffers->slots.lent, buffers->slots_length);
    check_reply(entry, path, reply, MUDVIZSOR_NO_ROOM, 0);
    check(numbers_are(buffers, NULL, 0), entry, path, "lengths are unchanged");
    const char *address = "/L/S.next[/L/T]";
    const size_t address_lengths[] = {15, 9, 4, 2, 1};
    buffers = lend(0, 5);
    reply = mudvizsor_path_ancestors(TEXT(address), buffers->slots.lent, buffers->slots_length);
    check_reply(entry, address, reply, 0, 5);
    check(numbers_are(buffers, address_lengths, 5), entry, address, "lengths");
}

/* ---- Mapping a path ---- */

typedef size_t mapper(const char *, size_t, const size_t *, size_t, size_t, bool, const char *, size_t, char *, size_t);

static const struct {
    const char *entry;
    mapper *map;
    const char *carried_entry;
    mapper *map_carried;
    const char *pairs;
    bool mark;
    const char *path;
    int number;
    const char *result;
    size_t rest_start, rest_length;
} mappings[] = {
    {ENTRY_AND_CARRIED(map_source_to_target), "/A>/X /A>/Y", false, "/A/c", 0, "/Y/c", 2, 2},
    {ENTRY_AND_CARRIED(map_source_to_target), "/A/B>/Y /A>/X", false, "/A/B/c", 0, "/Y/c", 4, 2},
    {ENTRY_AND_CARRIED(map_source_to_target), "/A>/X", true, "/X/y", 0, "/X/y", 0, 4},
    {ENTRY_AND_CARRIED(map_source_to_target), ">/", true, "/A", 0, "/A", 0, 2},
    {ENTRY_AND_CARRIED(map_source_to_target), "/A>/X", false, "/A{v=p}B.c", 0, "/X{v=p}B.c", 2, 8},
    {ENTRY_AND_CARRIED(map_source_to_target), "/A>/X", true, "/A", 0, "/X", 2, 0},
    {ENTRY_AND_CARRIED(map_source_to_target), "/>/X", false, "/A/B", 0, "/X/A/B", 0, 4},
    {ENTRY_AND_CARRIED(map_source_to_target), "/>/X", false, "/", 0, "/X", 1, 0},
    {ENTRY_AND_CARRIED(map_source_to_target), "/A/B>/", false, "/A/B/c", 0, "/c", 4, 2},
    {ENTRY_AND_CARRIED(map_source_to_target), "/A>", false, "/A/B", 6, "", 0, 0},
    {ENTRY_AND_CARRIED(map_source_to_target), "/A>/", false, "/A.b", 8, "", 0, 0},
    {ENTRY_AND_CARRIED(map_source_to_target), "/A{v=p}>/X", false, "/A", 3, "", 0, 0},
    {ENTRY_AND_CARRIED(map_source_to_target), "/A>/X", false, "/A{v=p}.r[/A]", 0, "/X{v=p}.r[/A]", 2, 11},
    {ENTRY_AND_CARRIED(map_source_to_target), "/A>/X", true, "/B.r[/A]", 0, "/B.r[/A]", 0, 8},
    {ENTRY_AND_CARRIED(map_source_to_target), "/A>/X", false, "/B.r[/A]", 6, "", 0, 0},
    {ENTRY_AND_CARRIED(map_source_to_target), "/A>/", false, "/A.r[/T]", 8, "", 0, 0},
    {ENTRY_AND_CARRIED(map_source_to_target), "/A.r[/T]>/X", false, "/A", 3, "", 0, 0},
    {ENTRY_AND_CARRIED(map_source_to_target), "/A>/X", false, "/A[/T]", 2, "", 0, 0},
    {ENTRY_AND_CARRIED(map_source_to_target), "/é>/Jelző /A>/X", false, "/é/ő.ü", 0, "/Jelző/ő.ü", 3, 6},
    {ENTRY_AND_CARRIED(map_source_to_target), "/é>/Jelző /A>/X", false, "/Aé", 6, "", 0, 0},
    {ENTRY_AND_CARRIED(map_source_to_target), "/é>/Jelző\xC5", false, "/é", 2, "", 0, 0},
    {ENTRY_AND_CARRIED(map_target_to_source), "/A>/X", false, "/X/y", 0, "/A/y", 2, 2},
    {ENTRY_AND_CARRIED(map_target_to_source), ">/X", false, "/X/y", 0, "/y", 2, 2},
    {ENTRY_AND_CARRIED(map_target_to_source), "/A>/X/Y", false, "/X/Y", 0, "/A", 4, 0},
    {ENTRY_AND_CARRIED(map_target_to_source), "/A>/", false, "/B.c", 0, "/A/B.c", 0, 4},
    {ENTRY_AND_CARRIED(map_target_to_source), "/A>", true, "/B.c", 0, "/B.c", 0, 4},
    {ENTRY_AND_CARRIED(map_target_to_source), "/A>/X", false, "/A", 6, "", 0, 0},
    {ENTRY_AND_CARRIED(map_target_to_source), ">/X", false, "/X.p", 8, "", 0, 0},
    {ENTRY_AND_CARRIED(map_target_to_source), "/A>/X", false, "/X.r[/X]", 0, "/A.r[/X]", 2, 6},
    {ENTRY_AND_CARRIED(translate_to_target), "/A>/X", false, "/A{v=p}B.c", 0, "/X/B.c", 0, 0},
    {ENTRY_AND_CARRIED(translate_to_target), "/A>/X", true, "/B{v=p}", 0, "/B", 0, 0},
    {ENTRY_AND_CARRIED(translate_to_target), "/A>/X", false, "/A/B.c", 0, "/X/B.c", 2, 4},
    {ENTRY_AND_CARRIED(translate_to_target), "/A>/X /A/B>/Y", false, "/A/B.c", 0, "/Y.c", 4, 2},
    {ENTRY_AND_CARRIED(translate_to_target), "/A>/X", false, "/A", 0, "/X", 2, 0},
    {ENTRY_AND_CARRIED(translate_to_target), "/>/X", false, "/A", 0, "/X/A", 0, 2},
    {ENTRY_AND_CARRIED(translate_to_target), "/A>/X", true, "/B/C", 0, "/B/C", 0, 4},
    {ENTRY_AND_CARRIED(translate_to_target), "/A>/X", true, "/X/y", 6, "", 0, 0},
    {ENTRY_AND_CARRIED(translate_to_target), ">/", true, "/A", 6, "", 0, 0},
    {ENTRY_AND_CARRIED(translate_to_target), "/A>/ /B>/", false, "/A.b", 6, "", 0, 0},
    {ENTRY_AND_CARRIED(translate_to_target), "/A>/X", false, "A", 2, "", 0, 0},
    {ENTRY_AND_CARRIED(translate_to_target), "/A>/X", false, "/A{v=p}B.r[/A{w=q}]", 0, "/X/B.r[/A{w=q}]", 0, 0},
    {ENTRY_AND_CARRIED(translate_to_target), "/A>/X", false, "/A/B.r[/A{w=q}]", 0, "/X/B.r[/A{w=q}]", 2, 13},
    {ENTRY_AND_CARRIED(translate_to_target), "/A>/X", true, "/X.r[/A]", 6, "", 0, 0},
};

static void test_mappings(void) {
    for (size_t i = 0; i < LENGTH(mappings); i++) {
        struct list *list = list_of(mappings[i].pairs);
        struct buffers *buffers = lend(255, 0);
        size_t reply = mappings[i].map(LIST(list), mappings[i].mark, TEXT(mappings[i].path), OUT(buffers));
        check_path(mappings[i].entry, mappings[i].path, reply, buffers, mappings[i].number, mappings[i].result);
        list = list_of("/A>/X");
        buffers = lend(254, 0);
        reply = mappings[i].map(LIST(list), true, TEXT("/A"), OUT(buffers));
        check_path(mappings[i].entry, "254 lent bytes", reply, buffers, MUDVIZSOR_NO_ROOM, "");
        buffers = lend(255, 0);
        reply = mappings[i].map(NULL, 0, NULL, 0, 0, true, TEXT("/A"), OUT(buffers));
        check_path(mappings[i].entry, "no pairs", reply, buffers, 0, "/A");
    }
}

/* The same calls in the form that tells the rest. */
static void test_carried_mappings(void) {
    for (size_t i = 0; i < LENGTH(mappings); i++) {
        const char *entry = mappings[i].carried_entry;
        struct list *list = list_of(mappings[i].pairs);
        struct buffers *buffers = lend(255, 0);
        size_t reply = mappings[i].map_carried(LIST(list), mappings[i].mark, TEXT(mappings[i].path), OUT(buffers));
        check_carried(entry, mappings[i].path, reply, buffers, mappings[i].number, mappings[i].result,
                      mappings[i].rest_start, mappings[i].rest_length);
        list = list_of("/A>/X");
        buffers = lend(254, 0);
        reply = mappings[i].map_carried(LIST(list), true, TEXT("/A"), OUT(buffers));
        check_carried(entry, "254 lent bytes", reply, buffers, MUDVIZSOR_NO_ROOM, "", 0, 0);
        buffers = lend(255, 0);
        reply = mappings[i].map_carried(NULL, 0, NULL, 0, 0, true, TEXT("/A"), OUT(buffers));
        check_carried(entry, "/A", reply, buffers, 0, "/A", 0, 2);
        buffers = lend(255, 0);
        reply = mappings[i].map_carried(NULL, 0, NULL, 0, 0, true, TEXT(path_of(255)), OUT(buffers));
        check_carried(entry, path_of(255), reply, buffers, 0, path_of(255), 0, 255);
    }
}

/* Damaged lists. Every call that takes a list refuses them in the same way. */
static void test_damaged_lists(void) {
    const char *entry = "mudvizsor_map_source_to_target";
    const struct { size_t which, value; int number; } damages[] = {
        {0, 4, 1}, {0, SIZE_MAX, 1}, {1, 5, 1}, {1, SIZE_MAX, 1}, {0, 1, 2}, {3, SIZE_MAX - 1, 1}, {2, 0, 0},
    };
    for (size_t i = 0; i < LENGTH(damages); i++) {
        struct list *list = list_of("/A>/X");
        list->places[damages[i].which] = damages[i].value;
        struct buffers *buffers = lend(255, 0);
        size_t reply = mudvizsor_map_source_to_target(LIST(list), false, TEXT("/A"), OUT(buffers));
        check_path(entry, "damaged place", reply, buffers, damages[i].number, "/A");
    }
    const struct { size_t pairs, count; int number; } counts[] = {
        {64, 64, 0}, {65, 65, 4}, {2, 3, 4}, {2, SIZE_MAX, 4}, {65, SIZE_MAX, 4}, {65, 1, 0},
    };
    for (size_t i = 0; i < LENGTH(counts); i++) {
        struct list *list = list_of(pairs_of(counts[i].pairs));
        list->count = counts[i].count;
        struct buffers *buffers = lend(255, 0);
        size_t reply = mudvizsor_map_source_to_target(LIST(list), false, TEXT("/A"), OUT(buffers));
        check_path(entry, "damaged count", reply, buffers, counts[i].number, "/X");
    }
}

/* ---- Many paths ---- */

static const char many_texts[] = "/A/c/Q/A.b";
static const size_t many_spots[] = {0, 4, 4, 2, 6, 4, 9, 2, 4, 6};

/* Checks a call for the five paths "/A/c", "/Q", "/A.b", one outside the texts, "/Q/A.b": what is written to the 255 bytes of
   each, and the replies. */
static void check_many(const char *entry, size_t reply, const struct buffers *buffers, const char *const *results,
                       const size_t *replies) {
    char want[5 * 255];
    for (size_t i = 0; i < sizeof want; i++) want[i] = old_byte(ZONE + i);
    for (size_t i = 0; i < 5; i++) memcpy(want + 255 * i, results[i], strlen(results[i]));
    check_reply(entry, "five paths", reply, 0, 0);
    check(bytes_are(buffers, want, sizeof want), entry, "five paths", "bytes");
    check(numbers_are(buffers, replies, 5), entry, "five paths", "replies");
}

static void check_many_refused(const char *entry, const char *input, size_t reply, int number, const struct buffers *buffers) {
    check_reply(entry, input, reply, number, 0);
    check(bytes_are(buffers, "", 0) && numbers_are(buffers, NULL, 0), entry, input, "nothing is written");
}

static void test_map_all(void) {
    const char *entry = "mudvizsor_map_all";
    const char *const results[][5] = {
        {"/X/c", "", "/X.b", "", ""}, {"", "", "", "", ""}, {"/X/c", "", "/X.b", "", ""}};
    const size_t replies[][5] = {{256 * 4, 6, 256 * 4, 1, 6}, {6, 6, 6, 1, 6}, {256 * 4, 6, 256 * 4, 1, 6}};
    struct list *list = list_of("/A>/X");
    for (size_t direction = 0; direction < 3; direction++) {
        struct buffers *buffers = lend(5 * 255, 5);
        size_t reply = mudvizsor_map_all(LIST(list), false, direction, many_texts, 10, many_spots, 10, 5, OUT(buffers),
                                         buffers->slots.lent, buffers->slots_length);
        check_many(entry, reply, buffers, results[direction], replies[direction]);
    }
    const struct { size_t spots, n, out, replies; int number; } shorts[] = {
        {9, 5, 1275, 5, 4}, {10, 5, 1274, 5, 5}, {10, 5, 1275, 4, 5}, {9, 5, 0, 0, 4}, {10, SIZE_MAX, 1275, 5, 4},
        {10, SIZE_MAX / 2 + 1, 1275, 5, 4}};
    for (size_t i = 0; i < LENGTH(shorts); i++) {
        struct buffers *buffers = lend(shorts[i].out, shorts[i].replies);
        size_t reply = mudvizsor_map_all(LIST(list), false, 0, many_texts, 10, many_spots, shorts[i].spots, shorts[i].n,
                                         OUT(buffers), buffers->slots.lent, buffers->slots_length);
        check_many_refused(entry, "a buffer is too small", reply, shorts[i].number, buffers);
    }
    list = list_of("A>/X");
    for (size_t n = 0; n < 2; n++) {
        struct buffers *buffers = lend(0, 0);
        size_t reply = mudvizsor_map_all(LIST(list), false, 0, many_texts, 10, many_spots, 10, n, OUT(buffers),
                                         buffers->slots.lent, buffers->slots_length);
        check_many_refused(entry, "a list that is not legal", reply, 2, buffers);
    }
}

/* ---- Building maps ---- */

struct want {
    int number;
    const char *pairs;
    bool mark;
    double offset, scale;
};

#define REFUSED(number) {number, "", false, 0, 0}

/* Checks a call that builds a map. */
static void check_map(const char *entry, const char *input, size_t reply, const struct buffers *buffers, struct want want) {
    bool good = want.number == 0;
    const struct list *list = list_of(want.pairs);
    check_reply(entry, input, reply, want.number, 2 * list->count + want.mark);
    if (good) {
        check(mudvizsor_pairs(reply) == list->count, entry, input, "pairs");
        check(mudvizsor_mark(reply) == want.mark, entry, input, "mark");
    }
    check(bytes_are(buffers, list->store, good ? list->store_length : 0), entry, input, "bytes");
    check(numbers_are(buffers, list->places, good ? list->places_length : 0), entry, input, "places");
    check(good ? floats_are(buffers->time, want.offset, want.scale) : floats_are(buffers->time, old_time[0], old_time[1]),
          entry, input, "time");
}

static const struct {
    const char *pairs;
    size_t bytes, slots;
    struct want want;
} news[] = {
    {"/A> /A/B>/B", 8, 8, {0, "/A>", false, 0, 1}},
    {"/B/C>/Z />/ /A>/X", 13, 12, {0, "/A>/X /B/C>/Z", true, 0, 1}},
    {"", 0, 0, {0, "", false, 0, 1}},
    {"/A> /A/B>/B", 7, 8, REFUSED(5)},
    {"/A> /A/B>/B", 8, 7, REFUSED(5)},
    {"/A.b>/X", 99, 99, REFUSED(3)},
    {"/é>/Á /é/B>/Á/B", 16, 8, {0, "/é>/Á", false, 0, 1}},
    {"/é>/Á /é/B>/Á/B", 15, 8, REFUSED(5)},
    {"A>/X", 99, 99, REFUSED(2)},
    {"/A>/X\xC3", 99, 99, REFUSED(2)},
};

static void test_new(void) {
    const char *entry = "mudvizsor_map_new";
    for (size_t i = 0; i < LENGTH(news); i++) {
        struct buffers *buffers = lend(news[i].bytes, news[i].slots);
        struct list *list = list_of(news[i].pairs);
        size_t reply = mudvizsor_map_new(LIST(list), MAP_BUFFERS(buffers));
        check_map(entry, news[i].pairs, reply, buffers, news[i].want);
    }
    struct list *list = list_of(pairs_of(65));
    struct buffers *buffers = lend(1000, 300);
    size_t reply = mudvizsor_map_new(LIST(list), MAP_BUFFERS(buffers));
    check_map(entry, "65 pairs", reply, buffers, (struct want)REFUSED(4));
}

/* The map that new wrote is lent unchanged to the next call. */
static void test_built_map_is_lent(void) {
    struct buffers buffers = *lend(1000, 300);
    struct list *list = list_of("/A> /A/B>/B /C>/D");
    size_t map = mudvizsor_map_new(LIST(list), buffers.out.lent, 1000, buffers.slots.lent, 300, buffers.time);
    struct buffers *next = lend(255, 0);
    size_t reply = mudvizsor_map_source_to_target(buffers.out.lent, 1000, buffers.slots.lent, 300, mudvizsor_pairs(map),
                                                  mudvizsor_mark(map), TEXT("/A/B/C"), OUT(next));
    check_path("mudvizsor_map_source_to_target", "a built map", reply, next, MUDVIZSOR_NO_PATH, "");
    reply = mudvizsor_map_source_to_target(buffers.out.lent, 1000, buffers.slots.lent, 300, mudvizsor_pairs(map),
                                           mudvizsor_mark(map), TEXT("/C.p"), OUT(next));
    check_path("mudvizsor_map_source_to_target", "a built map", reply, next, 0, "/D.p");
}

typedef size_t pair_builder(const char *, size_t, const char *, size_t, char *, size_t, size_t *, size_t, double *);

static const struct {
    const char *entry;
    pair_builder *build;
    const char *source, *target;
    size_t bytes, slots;
    struct want want;
} pair_builds[] = {
    {ENTRY(map_from_pair), "/", "/", 2, 4, {0, "/>/", false, 0, 1}},
    {ENTRY(map_from_pair), "/A", "/X/Y", 6, 4, {0, "/A>/X/Y", false, 0, 1}},
    {ENTRY(map_from_pair), "/A", "/X/Y", 5, 4, REFUSED(5)},
    {ENTRY(map_from_pair), "/A{v=p}", "/X", 99, 99, REFUSED(3)},
    {ENTRY(map_from_pair), "/A", "/X.r[/T]", 99, 99, REFUSED(3)},
    {ENTRY(map_from_pair_identity), "/A", "/A", 4, 4, {0, "", true, 0, 1}},
    {ENTRY(map_from_pair_identity), "/A", "", 2, 4, {0, "/A>", true, 0, 1}},
    {ENTRY(map_from_pair_identity), "/A", "/A", 4, 3, REFUSED(5)},
};

static void test_pair_builds(void) {
    for (size_t i = 0; i < LENGTH(pair_builds); i++) {
        struct buffers *buffers = lend(pair_builds[i].bytes, pair_builds[i].slots);
        size_t reply = pair_builds[i].build(TEXT(pair_builds[i].source), TEXT(pair_builds[i].target), MAP_BUFFERS(buffers));
        check_map(pair_builds[i].entry, pair_builds[i].source, reply, buffers, pair_builds[i].want);
    }
}

typedef size_t map_builder(const char *, size_t, const size_t *, size_t, size_t, bool, double, double, char *, size_t,
                         size_t *, size_t, double *);

static const struct {
    const char *entry;
    map_builder *build;
    const char *pairs;
    size_t bytes, slots;
    struct want want;
} map_builds[] = {
    {ENTRY(map_with_root_identity), "/B/C>/X /A>/A", 10, 8, {0, "/B/C>/X /A>/A", true, 5, 2}},
    {ENTRY(map_with_root_identity), "/A>/X", 3, 4, REFUSED(5)},
    {ENTRY(map_inverse), "/A>/X/Y", 6, 4, {0, "/X/Y>/A", false, 0, 1}},
    {ENTRY(map_inverse), "/A>/X/Y", 6, 3, REFUSED(5)},
    {ENTRY(map_inverse), "/A>/X.p", 99, 99, REFUSED(3)},
};

static void test_map_builds(void) {
    for (size_t i = 0; i < LENGTH(map_builds); i++) {
        struct buffers *buffers = lend(map_builds[i].bytes, map_builds[i].slots);
        struct list *list = list_of(map_builds[i].pairs);
        size_t reply = map_builds[i].build(LIST(list), false, 5, 2, MAP_BUFFERS(buffers));
        check_map(map_builds[i].entry, map_builds[i].pairs, reply, buffers, map_builds[i].want);
    }
}

typedef size_t path_builder(const char *, size_t, const size_t *, size_t, size_t, bool, double, double, const char *,
                          size_t, char *, size_t, size_t *, size_t, double *);

static const struct {
    const char *entry;
    path_builder *build;
    const char *pairs, *path;
    size_t bytes, slots;
    struct want want;
} path_builds[] = {
    {ENTRY(map_dropping_source), "/A>/X /B>/Y", "/A", 4, 4, {0, "/B>/Y", true, 5, 2}},
    {ENTRY(map_dropping_source), "/A>/X /B>/Y", "/A", 3, 4, REFUSED(5)},
    {ENTRY(map_dropping_source), "/A>/X /B>/Y", "/A.b", 99, 99, REFUSED(3)},
    {ENTRY(map_deepen_to), "/A>/X", "/A/B{v=p}C", 12, 4, {0, "/A/B/C>/X/B/C", true, 5, 2}},
    {ENTRY(map_deepen_to), ">/X", "/B", 6, 4, {0, "/B>/X/B", true, 5, 2}},
    {ENTRY(map_deepen_to), "/A>/X", "/A/B.c", 99, 99, REFUSED(3)},
    {ENTRY(map_deepen_to), "/A>/X", "/A/B", 7, 4, REFUSED(5)},
};

static void test_path_builds(void) {
    for (size_t i = 0; i < LENGTH(path_builds); i++) {
        struct buffers *buffers = lend(path_builds[i].bytes, path_builds[i].slots);
        struct list *list = list_of(path_builds[i].pairs);
        size_t reply = path_builds[i].build(LIST(list), true, 5, 2, TEXT(path_builds[i].path), MAP_BUFFERS(buffers));
        check_map(path_builds[i].entry, path_builds[i].path, reply, buffers, path_builds[i].want);
    }
}

static const struct {
    const char *pairs, *from, *to;
    size_t bytes, slots;
    struct want want;
} rebases[] = {
    {"/A>/X/Y /B>/Q", "/X", "/Z", 10, 8, {0, "/A>/Z/Y /B>/Q", false, 5, 2}},
    {"/A>/", "", "/X", 99, 99, REFUSED(8)},
    {"/A>/X/Y /B>/Q", "/X", "/Z", 9, 8, REFUSED(5)},
    {"/A>/X", "/X{v=p}", "/Z", 99, 99, REFUSED(3)},
};

static void test_rebases(void) {
    for (size_t i = 0; i < LENGTH(rebases); i++) {
        struct buffers *buffers = lend(rebases[i].bytes, rebases[i].slots);
        struct list *list = list_of(rebases[i].pairs);
        size_t reply = mudvizsor_map_rebase_target(LIST(list), false, 5, 2, TEXT(rebases[i].from), TEXT(rebases[i].to),
                                                   MAP_BUFFERS(buffers));
        check_map("mudvizsor_map_rebase_target", rebases[i].pairs, reply, buffers, rebases[i].want);
    }
}

typedef size_t two_builder(const char *, size_t, const size_t *, size_t, size_t, bool, double, double, const char *,
                         size_t, const size_t *, size_t, size_t, bool, double, double, char *, size_t, size_t *, size_t,
                         double *);

static const struct {
    const char *entry;
    two_builder *build;
    const char *outer, *inner;
    bool mark;
    size_t bytes, slots;
    struct want want;
} two_builds[] = {
    {ENTRY(map_compose), "/X/B/C>/Z /Y>/W", "/A>/X /A/B>/Y", false, 16, 12,
     {0, "/A> /A/B>/W /A/B/C>/Z", false, 11, 8}},
    {ENTRY(map_compose), "", "/A>/A", true, 4, 4, {0, "/A>/A", true, 11, 8}},
    {ENTRY(map_compose), "/X/B/C>/Z /Y>/W", "/A>/X /A/B>/Y", false, 15, 12, REFUSED(5)},
    {ENTRY(map_compose), "/X/B/C>/Z /Y>/W", "/A>/X /A/B>Y", false, 99, 99, REFUSED(2)},
    {ENTRY(map_implied_class), "/M>/N", "/C>/D", true, 20, 20, {0, "/C>/D", true, 11, 8}},
    {ENTRY(map_implied_class), "/M>/N", "/C>/D", true, 19, 20, REFUSED(5)},
    {ENTRY(map_implied_class), "/M>/N", "/C>/D", true, 20, 19, REFUSED(5)},
};

static void test_two_builds(void) {
    for (size_t i = 0; i < LENGTH(two_builds); i++) {
        struct buffers *buffers = lend(two_builds[i].bytes, two_builds[i].slots);
        struct list *outer = list_of(two_builds[i].outer), *inner = list_of(two_builds[i].inner);
        bool mark = two_builds[i].mark;
        size_t reply = two_builds[i].build(LIST(outer), mark, 5, 2, LIST(inner), mark, 3, 4, MAP_BUFFERS(buffers));
        check_map(two_builds[i].entry, two_builds[i].outer, reply, buffers, two_builds[i].want);
    }
}

static void test_is_noop(void) {
    const char *entry = "mudvizsor_map_is_noop";
    struct list *same = list_of("/A>/A"), *other = list_of("/A>/B"), *bad = list_of("/A{v=p}>/A");
    check_reply(entry, "/A>/A", mudvizsor_map_is_noop(LIST(same), false, -0.0, 1), 0, 1);
    check_reply(entry, "/A>/B", mudvizsor_map_is_noop(LIST(other), false, 0, 1), 0, 0);
    check_reply(entry, "a time", mudvizsor_map_is_noop(NULL, 0, NULL, 0, 0, true, NAN, 1), 0, 0);
    check_reply(entry, "/A{v=p}>/A", mudvizsor_map_is_noop(LIST(bad), false, 0, 1), 3, 0);
}

/* ---- Relocate lists ---- */

static const struct {
    const char *pairs;
    size_t out_length;
    int number;
    const char *statuses;
} analyses[] = {
    {"/R>", 1, 0, "\0"},
    {"/R>/S", 1, 0, "\1"},
    {"/R/a>/R/b /R/c>/R/b /R/b>/R/d", 3, 0, "\3\3\3"},
    {"/R/a>/R/b /R/a>/R/c", 9, 0, "\0\2"},
    {"/R/a/b>/R/c /R/c/d>/R/a", 2, 0, "\0\0"},
    {"/R/a>/R/b /R/a>/R/c", 1, 5, ""},
    {"/R/a>/R/b.c", 9, 3, ""},
};

static void test_analyses(void) {
    const char *entry = "mudvizsor_analyze_relocate_occurrences";
    for (size_t i = 0; i < LENGTH(analyses); i++) {
        struct list *list = list_of(analyses[i].pairs);
        struct buffers *buffers = lend(analyses[i].out_length, 0);
        size_t reply = mudvizsor_analyze_relocate_occurrences(LIST(list), OUT(buffers));
        size_t length = analyses[i].number == 0 ? list->count : 0;
        check_reply(entry, analyses[i].pairs, reply, analyses[i].number, length);
        check(bytes_are(buffers, analyses[i].statuses, length), entry, analyses[i].pairs, "statuses");
    }
}

static const struct {
    bool skips;
    const char *skipped, *path;
    size_t out_length;
    int number;
    const char *result;
    size_t steps;
} chains[] = {
    {false, "not read", "/R/a/b/d/b/d", 255, 0, "/R/a/b/d", 2},
    {false, "not read", "/R/a/b/d.r[/R/a/b]", 255, 0, "/R/a.r[/R/a/b]", 2},
    {true, "/R/a/b", "/R/a/b/d/b/d", 255, 0, "/R/a/b/d/b/d", 0},
    {true, "no path", "/R/a/b/d/b/d", 255, 2, "", 0},
    {false, "", "/R/a/b/d/b/d", 254, 5, "", 0},
};

static void test_chains(void) {
    const char *entry = "mudvizsor_chain_through_relocates";
    struct list *list = list_of("/R/a/b>/R/c /R/c/d>/R/a");
    for (size_t i = 0; i < LENGTH(chains); i++) {
        struct buffers *buffers = lend(chains[i].out_length, 0);
        size_t length = strlen(chains[i].result);
        size_t reply = mudvizsor_chain_through_relocates(LIST(list), chains[i].skips, TEXT(chains[i].skipped),
                                                         TEXT(chains[i].path), OUT(buffers));
        check_reply(entry, chains[i].path, reply, chains[i].number, 256 * chains[i].steps + length);
        check(mudvizsor_chain_length(reply) == length, entry, chains[i].path, "length");
        check(mudvizsor_chain_steps(reply) == chains[i].steps, entry, chains[i].path, "steps");
        check(bytes_are(buffers, chains[i].result, length), entry, chains[i].path, "bytes");
    }
}

static void test_shifts(void) {
    const char *entry = "mudvizsor_shift_through_nearest_ancestor";
    const struct { const char *pairs, *endpoint, *result; int number; } shifts[] = {
        {"/A>/X", "/A/B", "/X/B", 0}, {"/A>/X", "/A", "/A", 0}, {"/A>/", "/A.b", "", 8}, {"/A>/X", "/A.", "", 2},
        {"/A>/X", "/A.r[/A]", "/X.r[/A]", 0}};
    for (size_t i = 0; i < LENGTH(shifts); i++) {
        struct list *list = list_of(shifts[i].pairs);
        struct buffers *buffers = lend(255, 0);
        size_t reply = mudvizsor_shift_through_nearest_ancestor(LIST(list), TEXT(shifts[i].endpoint), OUT(buffers));
        check_path(entry, shifts[i].endpoint, reply, buffers, shifts[i].number, shifts[i].result);
    }
}

/* ---- Routes ---- */

/* A map leg /A -> /B, then a relocate leg /B/c -> /B/d. */
static const size_t two_legs[] = {0, 0, 1, 2, 1, 1};

#define ROUTE(l, legs, count) (l)->store, (l)->store_length, (l)->places, (l)->places_length, legs, LENGTH(legs), count

typedef size_t router(const char *, size_t, const size_t *, size_t, const size_t *, size_t, size_t, const char *, size_t,
                      char *, size_t);

static const struct {
    const char *entry;
    router *call;
    const char *carried_entry;
    router *call_carried;
    size_t count;
    const char *path;
    int number;
    const char *result;
    size_t rest_start, rest_length;
} route_cases[] = {
    {ENTRY_AND_CARRIED(route_out), 2, "/A{v=p}c/x", 0, "/B/d/x", 0, 0},
    {ENTRY_AND_CARRIED(route_out), 2, "/A/c/x", 0, "/B/d/x", 4, 2},
    {ENTRY_AND_CARRIED(route_out), 2, "/A/e.x", 0, "/B/e.x", 2, 4},
    {ENTRY_AND_CARRIED(route_out), 2, "/A/c.r[/A{w=q}c]", 0, "/B/d.r[/A{w=q}c]", 4, 12},
    {ENTRY_AND_CARRIED(route_out), 2, "/A{v=p}c.r[/A{w=q}c]", 0, "/B/d.r[/A{w=q}c]", 0, 0},
    {ENTRY_AND_CARRIED(route_out), 2, "/A/c", 0, "/B/d", 4, 0},
    {ENTRY_AND_CARRIED(route_out), 1, "/A/c/x", 0, "/B/c/x", 2, 4},
    {ENTRY_AND_CARRIED(route_out), 1, "/A", 0, "/B", 2, 0},
    {ENTRY_AND_CARRIED(route_out), 0, "/A{v=p}", 0, "/A{v=p}", 0, 7},
    {ENTRY_AND_CARRIED(route_out), 2, "/Q", 6, "", 0, 0},
    {ENTRY_AND_CARRIED(route_out), 2, "/A/d", 6, "", 0, 0},
    {ENTRY_AND_CARRIED(route_out), 3, "/A", 4, "", 0, 0},
    {ENTRY_AND_CARRIED(route_out), SIZE_MAX, "/A", 4, "", 0, 0},
    {ENTRY_AND_CARRIED(route_home), 2, "/B/d/x", 0, "/A/c/x", 4, 2},
    {ENTRY_AND_CARRIED(route_home), 2, "/B/c", 0, "/A/c", 2, 2},
    {ENTRY_AND_CARRIED(route_home), 2, "/B/d.r[/A{w=q}c]", 0, "/A/c.r[/A{w=q}c]", 4, 12},
    {ENTRY_AND_CARRIED(route_home), 2, "/B{v=p}c", 0, "/A{v=p}c", 2, 6},
    {ENTRY_AND_CARRIED(route_home), 2, "/B", 0, "/A", 2, 0},
    {ENTRY_AND_CARRIED(route_home), 0, "/B/c", 0, "/B/c", 0, 4},
    {ENTRY_AND_CARRIED(route_home), 2, "/Q", 6, "", 0, 0},
    {ENTRY_AND_CARRIED(route_home), 2, "/B/", 2, "", 0, 0},
};

static void test_route_cases(void) {
    struct list *list = list_of("/A>/B /B/c>/B/d");
    for (size_t i = 0; i < LENGTH(route_cases); i++) {
        struct buffers *buffers = lend(255, 0);
        size_t reply = route_cases[i].call(ROUTE(list, two_legs, route_cases[i].count), TEXT(route_cases[i].path),
                                           OUT(buffers));
        check_path(route_cases[i].entry, route_cases[i].path, reply, buffers, route_cases[i].number, route_cases[i].result);
        buffers = lend(254, 0);
        reply = route_cases[i].call(ROUTE(list, two_legs, 1), TEXT("/A"), OUT(buffers));
        check_path(route_cases[i].entry, "254 lent bytes", reply, buffers, MUDVIZSOR_NO_ROOM, "");
    }
}

/* The same calls in the form that tells the rest. */
static void test_carried_route_cases(void) {
    struct list *list = list_of("/A>/B /B/c>/B/d");
    for (size_t i = 0; i < LENGTH(route_cases); i++) {
        const char *entry = route_cases[i].carried_entry;
        struct buffers *buffers = lend(255, 0);
        size_t reply = route_cases[i].call_carried(ROUTE(list, two_legs, route_cases[i].count), TEXT(route_cases[i].path),
                                                   OUT(buffers));
        check_carried(entry, route_cases[i].path, reply, buffers, route_cases[i].number, route_cases[i].result,
                      route_cases[i].rest_start, route_cases[i].rest_length);
        buffers = lend(254, 0);
        reply = route_cases[i].call_carried(ROUTE(list, two_legs, 1), TEXT("/A"), OUT(buffers));
        check_carried(entry, "254 lent bytes", reply, buffers, MUDVIZSOR_NO_ROOM, "", 0, 0);
    }
}

/* 16 legs are accepted, 17 are not; a leg that starts after the last place is refused. */
static void test_many_legs(void) {
    const char *entry = "mudvizsor_route_out";
    struct list *list = list_of("/A>/A");
    size_t legs[17 * 3];
    for (size_t i = 0; i < 17; i++) memcpy(legs + 3 * i, (const size_t[]){1, 0, 1}, 3 * sizeof(size_t));
    struct buffers *buffers = lend(255, 0);
    check_path(entry, "16 legs", mudvizsor_route_out(ROUTE(list, legs, 16), TEXT("/A"), OUT(buffers)), buffers, 0, "/A");
    buffers = lend(255, 0);
    check_path(entry, "17 legs", mudvizsor_route_out(ROUTE(list, legs, 17), TEXT("/A"), OUT(buffers)), buffers, 4, "");
    legs[1] = SIZE_MAX;
    check_path(entry, "a far leg", mudvizsor_route_out(ROUTE(list, legs, 2), TEXT("/A"), OUT(buffers)), buffers, 4, "");
}

static void test_route_all(void) {
    const char *entry = "mudvizsor_route_all";
    const char *const results[][5] = {{"/B/d", "", "/B.b", "", ""}, {"", "", "", "", ""}};
    const size_t replies[][5] = {{256 * 4, 6, 256 * 4, 1, 6}, {6, 6, 6, 1, 6}};
    struct list *list = list_of("/A>/B /B/c>/B/d");
    for (size_t home = 0; home < 2; home++) {
        struct buffers *buffers = lend(5 * 255, 5);
        size_t reply = mudvizsor_route_all(ROUTE(list, two_legs, 2), home == 1, many_texts, 10, many_spots, 10, 5,
                                           OUT(buffers), buffers->slots.lent, buffers->slots_length);
        check_many(entry, reply, buffers, results[home], replies[home]);
    }
    struct buffers *buffers = lend(5 * 255, 4);
    size_t reply = mudvizsor_route_all(ROUTE(list, two_legs, 2), false, many_texts, 10, many_spots, 10, 5, OUT(buffers),
                                       buffers->slots.lent, buffers->slots_length);
    check_many_refused(entry, "too few replies", reply, 5, buffers);
    list = list_of("A>/B /B/c>/B/d");
    buffers = lend(0, 0);
    reply = mudvizsor_route_all(ROUTE(list, two_legs, 2), false, many_texts, 10, many_spots, 10, 0, OUT(buffers),
                                buffers->slots.lent, buffers->slots_length);
    check_many_refused(entry, "a leg that is not legal", reply, 2, buffers);
}

/* ---- One line of frames ---- */

/* The example of docs/REQUIREMENTS.md, /A.r[/A] out and home, a bad frame, and an open list that a refused call does not
   change. */
static const struct { const char *line, *answer; } exchanges[] = {
    {"0100022F4100022F42", "8100\n"}, {"03", "8300\n"}, {"052F412F43", "85002F422F43\n"},
    {"062F422F43", "86002F412F43\n"}, {"052F51", "8506\n"}, {"07", "870000000001\n"},
    {"052F412E725B2F415D", "85002F422E725B2F415D\n"}, {"062F422E725B2F415D", "86002F412E725B2F415D\n"},
    {"", "FF09\n"}, {"0100022F4100022f4", "FF09\n"}, {"0100022F6100022F62", "8100\n"}, {"02", "820001\n"},
};

static struct frames_memory {
    size_t kept[MUDVIZSOR_FRAMES_KEPT + 1], places[MUDVIZSOR_FRAMES_PLACES], slots[MUDVIZSOR_FRAMES_SLOTS];
    size_t table[MUDVIZSOR_FRAMES_TABLE];
    char bytes[MUDVIZSOR_FRAMES_BYTES], store[MUDVIZSOR_FRAMES_STORE];
} frames;

static size_t frames_line(const char *line, size_t kept_length, struct buffers *buffers) {
    return mudvizsor_frames_line(TEXT(line), frames.kept, kept_length, frames.bytes, sizeof frames.bytes, frames.places,
                                 LENGTH(frames.places), frames.store, sizeof frames.store, frames.slots,
                                 LENGTH(frames.slots), frames.table, LENGTH(frames.table), OUT(buffers));
}

static void test_frames(void) {
    const char *entry = "mudvizsor_frames_line";
    const size_t kept_after[] = {1, 4, 1, 4, 2, 77};
    memset(&frames, 0x5a, sizeof frames);
    memset(frames.kept, 0, sizeof frames.kept);
    frames.kept[5] = 77;
    for (size_t i = 0; i < LENGTH(exchanges); i++) {
        struct buffers *buffers = lend(515, 0);
        check_path(entry, exchanges[i].line, frames_line(exchanges[i].line, 5, buffers), buffers, 0, exchanges[i].answer);
    }
    check(memcmp(frames.kept, kept_after, sizeof kept_after) == 0, entry, "all lines", "kept");
    static struct frames_memory before;
    before = frames;
    struct buffers *buffers = lend(514, 0);
    check_path(entry, "514 lent bytes", frames_line("03", 5, buffers), buffers, MUDVIZSOR_NO_ROOM, "");
    buffers = lend(515, 0);
    check_path(entry, "4 kept numbers", frames_line("03", 4, buffers), buffers, MUDVIZSOR_NO_ROOM, "");
    buffers = lend(5, 0);
    check_path(entry, "a bad frame, 5 lent bytes", frames_line("0", 0, buffers), buffers, 0, "FF09\n");
    buffers = lend(4, 0);
    check_path(entry, "a bad frame, 4 lent bytes", frames_line("0", 5, buffers), buffers, MUDVIZSOR_NO_ROOM, "");
    check(memcmp(&frames, &before, sizeof frames) == 0, entry, "refused", "nothing is written");
}

/* Processes a line on altered memory: the answer is the number of a question, and nothing else changes. */
static void check_altered(const char *what, const char *line, const char *answer) {
    static struct frames_memory before;
    struct buffers *buffers = lend(515, 0);
    before = frames;
    check_path("mudvizsor_frames_line", what, frames_line(line, 5, buffers), buffers, 0, answer);
    check(memcmp(&frames, &before, sizeof frames) == 0, "mudvizsor_frames_line", what, "nothing is written");
}

/* Numbers that no run leaves, each with the lines that use it and their answers. */
static const struct { const char *what; size_t *number, value; const char *line, *answer; } altered_numbers[] = {
    {"a long path in the open list", &frames.places[1], 256, "03", "8301\n"},
    {"65 pairs", &frames.kept[0], 65, "0100022F4100022F42", "8104\n"},
    {"65 pairs", &frames.kept[0], 65, "04", "8404\n"},
    {"bytes of the open list over the buffer", &frames.kept[1], sizeof frames.bytes + 1, "0100022F4100022F42", "8105\n"},
    {"17 legs", &frames.kept[2], 17, "03", "8304\n"},
    {"17 legs", &frames.kept[2], 17, "052F412F43", "8504\n"},
    {"17 legs", &frames.kept[2], 17, "062F422F43", "8604\n"},
    {"a leg of 65 pairs", &frames.table[2], 65, "052F412F43", "8504\n"},
    {"bytes of the legs over the limit", &frames.kept[3], 32769, "03", "8305\n"},
    {"a count over FFFFFFFF", &frames.kept[4], (size_t)4294967295 + 2, "07", "8700FFFFFFFF\n"},
};

/* Illegal paths in the open list and in the leg store, with the lines that use them. */
static const struct { const char *what; char *byte, value; const char *line, *answer; } altered_bytes[] = {
    {"an illegal path in the open list", &frames.bytes[1], '-', "02", "8202\n"},
    {"an illegal path in the open list", &frames.bytes[1], '-', "03", "8302\n"},
    {"an illegal path in the open list", &frames.bytes[1], '-', "04", "8402\n"},
    {"an illegal list in the leg store", &frames.store[1], '.', "052F412F43", "8502\n"},
    {"an illegal list in the leg store", &frames.store[1], '.', "062F422F43", "8602\n"},
};

static void test_altered_frames(void) {
    memset(&frames, 0, sizeof frames);
    frames_line("0100022F4100022F42", 5, lend(515, 0));
    frames_line("03", 5, lend(515, 0));
    frames_line("0100022F4100022F42", 5, lend(515, 0));
    static struct frames_memory good;
    good = frames;
    for (size_t i = 0; i < LENGTH(altered_numbers); i++) {
        frames = good;
        *altered_numbers[i].number = altered_numbers[i].value;
        check_altered(altered_numbers[i].what, altered_numbers[i].line, altered_numbers[i].answer);
    }
    for (size_t i = 0; i < LENGTH(altered_bytes); i++) {
        frames = good;
        *altered_bytes[i].byte = altered_bytes[i].value;
        check_altered(altered_bytes[i].what, altered_bytes[i].line, altered_bytes[i].answer);
    }
    frames = good;
    frames.store[1] = '.';
    frames.slots[1] = 256;
    check_altered("a long path in the leg store and an illegal path", "052D", "8501\n");
}

/* ---- Time offsets ---- */

static void check_time(const char *entry, bool good, const char *what) {
    coverage_of(entry)->accepted = true;
    check(good, entry, "a time offset", what);
}

static void test_time_tests(void) {
    check_time("mudvizsor_layer_offset_is_valid", mudvizsor_layer_offset_is_valid(5, 0), "valid");
    check_time("mudvizsor_layer_offset_is_valid", !mudvizsor_layer_offset_is_valid(NAN, 1), "NaN");
    check_time("mudvizsor_layer_offset_is_valid", !mudvizsor_layer_offset_is_valid(0, -INFINITY), "infinite");
    check_time("mudvizsor_layer_offset_is_identity", mudvizsor_layer_offset_is_identity(-0.0, 1), "identity");
    check_time("mudvizsor_layer_offset_is_identity", !mudvizsor_layer_offset_is_identity(1e-300, 1), "no identity");
    check_time("mudvizsor_layer_offset_is_close", mudvizsor_layer_offset_is_close(1, 2, 1 + 5e-7, 2), "close");
    check_time("mudvizsor_layer_offset_is_close", !mudvizsor_layer_offset_is_close(1, 2, 1.1, 2), "not close");
    check_time("mudvizsor_layer_offset_is_close", mudvizsor_layer_offset_is_close(NAN, 2, NAN, 2), "the same NaN");
    check_time("mudvizsor_layer_offset_is_close", !mudvizsor_layer_offset_is_close(NAN, 2, 1, 2), "NaN and 1");
    check_time("mudvizsor_layer_offset_is_valid_composition", mudvizsor_layer_offset_is_valid_composition(5, 1e-300),
          "above 0");
    check_time("mudvizsor_layer_offset_is_valid_composition", !mudvizsor_layer_offset_is_valid_composition(5, -1), "below 0");
    check_time("mudvizsor_layer_offset_apply", mudvizsor_layer_offset_apply(10, 2, 3.5) == 17, "17");
    check_time("mudvizsor_layer_offset_apply", isnan(mudvizsor_layer_offset_apply(0, 0, INFINITY)), "NaN");
}

/* Returns whether the two numbers in the middle are these, and those before and after them are unchanged. */
static bool time_is(const double *four, double offset, double scale) {
    return floats_are(four + 1, offset, scale) && four[0] == 91 && four[3] == 94;
}

#define TIME(name, a, b, ...)                                                                                          \
    do {                                                                                                               \
        double four[4] = {91, 92, 93, 94};                                                                             \
        mudvizsor_##name(__VA_ARGS__, four + 1);                                                                       \
        check_time("mudvizsor_" #name, time_is(four, a, b), #__VA_ARGS__);                                                \
    } while (0)

static void test_resulting_times(void) {
    TIME(layer_offset_new, -0.0, 3, -0.0, 3);
    TIME(layer_offset_scale_only, 0, 7, 7);
    TIME(layer_offset_inverse, -2, 0.25, 8, 4);
    TIME(layer_offset_inverse, 0, 1, 8, -0.0);
    TIME(layer_offset_sanitized, 5, 2, 5, 2);
    TIME(layer_offset_sanitized, 0, 1, INFINITY, 2);
    TIME(layer_offset_concatenate, 11, 8, 5, 2, 3, 4);
}

static void test_bits(void) {
    uint64_t four[4] = {1, 2, 3, 4};
    mudvizsor_layer_offset_to_bits(NAN, -0.0, four + 1);
    check_time("mudvizsor_layer_offset_to_bits", four[1] == UINT64_C(0x7ff8000000000000), "NaN");
    check_time("mudvizsor_layer_offset_to_bits", four[2] == UINT64_C(0x8000000000000000), "-0");
    check_time("mudvizsor_layer_offset_to_bits", four[0] == 1 && four[3] == 4, "around");
}

/* ---- Maps without their pairs ---- */

#define INFO(n) (n).count, (n).mark, (n).offset, (n).scale

struct info {
    size_t count;
    bool mark;
    double offset, scale;
};

static const struct {
    struct info info;
    bool null, same_paths, same;
} info_cases[] = {
    {{0, false, 0, 1}, true, false, false},
    {{0, false, NAN, 7}, true, false, false},
    {{0, true, 0, 1}, false, true, true},
    {{0, true, -0.0, 1}, false, true, true},
    {{0, true, 0, 2}, false, true, false},
    {{0, true, NAN, 1}, false, true, false},
    {{1, false, 0, 1}, false, false, false},
    {{64, true, 0, 1}, false, false, false},
    {{SIZE_MAX, true, 0, 1}, false, false, false},
};

static void check_info(const char *entry, bool good) {
    coverage_of(entry)->accepted = true;
    check(good, entry, "a map without its pairs", "true or false");
}

static void test_info(void) {
    for (size_t i = 0; i < LENGTH(info_cases); i++) {
        struct info info = info_cases[i].info;
        check_info("mudvizsor_map_is_null", mudvizsor_map_is_null(INFO(info)) == info_cases[i].null);
        check_info("mudvizsor_map_path_is_identity", mudvizsor_map_path_is_identity(INFO(info)) == info_cases[i].same_paths);
        check_info("mudvizsor_map_is_identity", mudvizsor_map_is_identity(INFO(info)) == info_cases[i].same);
        check_info("mudvizsor_map_has_root_identity", mudvizsor_map_has_root_identity(INFO(info)) == info.mark);
    }
}

static void test_plain_maps(void) {
    double four[4] = {91, 92, 93, 94};
    check_reply("mudvizsor_map_identity", "", mudvizsor_map_identity(four + 1), 0, 1);
    check(time_is(four, 0, 1), "mudvizsor_map_identity", "", "time");
    four[1] = 92, four[2] = 93;
    check_reply("mudvizsor_map_null", "", mudvizsor_map_null(four + 1), 0, 0);
    check(time_is(four, 0, 1), "mudvizsor_map_null", "", "time");
}

static void test_times_of_maps(void) {
    const char *entry = "mudvizsor_map_with_time_offset";
    const size_t counts[] = {0, 1, 64, 65, (size_t)1 << 55, SIZE_MAX};
    for (size_t i = 0; i < 2 * LENGTH(counts); i++) {
        struct info info = {counts[i / 2], i % 2 == 1, 5, -0.0};
        bool good = info.count <= 64;
        double four[4] = {91, 92, 93, 94};
        size_t reply = mudvizsor_map_with_time_offset(INFO(info), -0.0, 3, four + 1);
        check_reply(entry, "another time", reply, good ? 0 : MUDVIZSOR_TOO_MANY, 2 * info.count + info.mark);
        check(good ? time_is(four, -0.0, 3) : time_is(four, 92, 93), entry, "another time", "time");
        TIME(map_time_offset, 5, -0.0, INFO(info));
    }
}

int main(void) {
    void (*const tests[])(void) = {
        test_path_tests, test_has_prefix, test_rest_start, test_replace_prefix, test_parts, test_replace_embedded_target,
        test_ancestors, test_mappings, test_carried_mappings, test_damaged_lists, test_map_all, test_new,
        test_built_map_is_lent, test_pair_builds, test_map_builds, test_path_builds, test_rebases, test_two_builds,
        test_is_noop, test_analyses, test_chains, test_shifts, test_route_cases, test_carried_route_cases, test_many_legs,
        test_route_all, test_frames, test_altered_frames, test_time_tests, test_resulting_times, test_bits, test_info,
        test_plain_maps, test_times_of_maps,
    };
    for (size_t i = 0; i < LENGTH(tests); i++) tests[i]();
    for (size_t i = 0; i < entry_count; i++)
        printf("%s%s%s\n", coverage[i].entry, coverage[i].accepted ? " accepted" : "", coverage[i].refused ? " refused" : "");
    printf("%zu entries, %zu checks, %zu wrong\n", entry_count, check_count, failure_count);
    return failure_count == 0 ? 0 : 1;
}
