/* Faulty entries that robust.c must detect. They are linked in place of eight entries of the library (with --wrap of ld); each
   calls the real entry and makes one fault, selected by WRONG. */
#include "mudvizsor.h"

#include <string.h>

size_t __real_mudvizsor_path_parent(const char *path, size_t path_length, char *out, size_t out_length);
size_t __wrap_mudvizsor_path_parent(const char *path, size_t path_length, char *out, size_t out_length);
size_t __real_mudvizsor_map_new(
    const char *store, size_t store_length, const size_t *places, size_t places_length, size_t count, char *out,
    size_t out_length, size_t *slots, size_t slots_length, double time[2]);
size_t __wrap_mudvizsor_map_new(
    const char *store, size_t store_length, const size_t *places, size_t places_length, size_t count, char *out,
    size_t out_length, size_t *slots, size_t slots_length, double time[2]);

size_t __real_mudvizsor_path_rest_start(const char *path, size_t path_length, const char *prefix, size_t prefix_length);
size_t __wrap_mudvizsor_path_rest_start(const char *path, size_t path_length, const char *prefix, size_t prefix_length);
size_t __real_mudvizsor_translate_to_target_carried(
    const char *store, size_t store_length, const size_t *places, size_t places_length, size_t count, bool mark,
    const char *path, size_t path_length, char *out, size_t out_length);
size_t __wrap_mudvizsor_translate_to_target_carried(
    const char *store, size_t store_length, const size_t *places, size_t places_length, size_t count, bool mark,
    const char *path, size_t path_length, char *out, size_t out_length);

size_t __real_mudvizsor_path_strip_variant_selections(const char *path, size_t path_length, char *out, size_t out_length);
size_t __wrap_mudvizsor_path_strip_variant_selections(const char *path, size_t path_length, char *out, size_t out_length);
size_t __real_mudvizsor_path_embedded_target(const char *path, size_t path_length, char *out, size_t out_length);
size_t __wrap_mudvizsor_path_embedded_target(const char *path, size_t path_length, char *out, size_t out_length);
size_t __real_mudvizsor_path_replace_embedded_target(
    const char *path, size_t path_length, const char *target, size_t target_length, char *out, size_t out_length);
size_t __wrap_mudvizsor_path_replace_embedded_target(
    const char *path, size_t path_length, const char *target, size_t target_length, char *out, size_t out_length);
size_t __real_mudvizsor_map_source_to_target(
    const char *store, size_t store_length, const size_t *places, size_t places_length, size_t count, bool mark,
    const char *path, size_t path_length, char *out, size_t out_length);
size_t __wrap_mudvizsor_map_source_to_target(
    const char *store, size_t store_length, const size_t *places, size_t places_length, size_t count, bool mark,
    const char *path, size_t path_length, char *out, size_t out_length);

static volatile char seen;

/* Returns whether the text has a byte outside ASCII. */
static bool has_high_byte(const char *text, size_t length) {
    for (size_t i = 0; i < length; i++)
        if ((unsigned char)text[i] >= 0x80) return true;
    return false;
}

/* Makes the last character of a written path one byte shorter, if it has several bytes. The byte gets its old value back. */
static size_t cut(size_t reply, const char *old, char *out) {
    size_t length = mudvizsor_value(reply);
    if (length < 2 || (unsigned char)out[length - 1] < 0x80) return reply;
    out[length - 1] = old[length - 1];
    return reply - 256;
}

size_t __wrap_mudvizsor_path_parent(const char *path, size_t path_length, char *out, size_t out_length) {
    char last = out_length > 0 ? out[out_length - 1] : 0, old[MUDVIZSOR_PATH_BYTES];
    if (out_length >= sizeof old) memcpy(old, out, sizeof old);
    size_t reply = __real_mudvizsor_path_parent(path, path_length, out, out_length), length = mudvizsor_value(reply);
    bool answered = mudvizsor_number(reply) == MUDVIZSOR_ANSWER;
    if (path_length == 0 || out_length == 0) return reply;
    if (WRONG == 1) seen = path[path_length];                                     /* reads after the slice */
    if (WRONG == 2) seen = path[-1];                                              /* reads before the slice */
    if (WRONG == 3) out[out_length] = 0;                                          /* writes after the buffer */
    if (WRONG == 4) out[-1] = 0;                                                  /* writes before the buffer */
    if (WRONG == 5 && answered && length < out_length) out[length] = 0;           /* writes after the result */
    if (WRONG == 6 && !answered) out[0] ^= 1;                                     /* writes in a refused call */
    if (WRONG == 7 && answered && length > 1 && last < 0) return 256;             /* depends on the old contents */
    if (WRONG == 8 && !answered) return reply + 256;                              /* a refusal with a value */
    if (WRONG == 9) ((char *)path)[0] = 'x';                                      /* writes to its input */
    if (WRONG == 19 && reply == MUDVIZSOR_ILLEGAL && out_length >= 255 && has_high_byte(path, path_length))
        return out[0] = '/', 256;                                                 /* accepts malformed UTF-8 */
    if (WRONG == 20 && answered) return cut(reply, old, out);                     /* divides a character */
    return reply;
}

size_t __wrap_mudvizsor_map_new(
    const char *store, size_t store_length, const size_t *places, size_t places_length, size_t count, char *out,
    size_t out_length, size_t *slots, size_t slots_length, double time[2]) {
    size_t reply = __real_mudvizsor_map_new(store, store_length, places, places_length, count, out, out_length, slots,
                                            slots_length, time);
    if (WRONG == 10 && mudvizsor_number(reply) == MUDVIZSOR_NO_ROOM) time[0] = 0; /* writes a time in a refused call */
    return reply;
}

size_t __wrap_mudvizsor_path_rest_start(const char *path, size_t path_length, const char *prefix, size_t prefix_length) {
    size_t reply = __real_mudvizsor_path_rest_start(path, path_length, prefix, prefix_length);
    bool root = prefix_length == 1 && path_length > 1 && mudvizsor_prefix_found(reply);
    if (WRONG == 11 && root) return reply + 65536;                                /* the slash is not in the rest */
    return reply;
}

size_t __wrap_mudvizsor_translate_to_target_carried(
    const char *store, size_t store_length, const size_t *places, size_t places_length, size_t count, bool mark,
    const char *path, size_t path_length, char *out, size_t out_length) {
    size_t reply = __real_mudvizsor_translate_to_target_carried(
        store, store_length, places, places_length, count, mark, path, path_length, out, out_length);
    size_t start = mudvizsor_carried_rest_start(reply), rest = mudvizsor_carried_rest_length(reply);
    bool stripped = start + rest < path_length;
    if (mudvizsor_number(reply) != MUDVIZSOR_ANSWER) return reply;
    if (WRONG == 12 && rest > 0) return reply - 16777216;                         /* the rest lacks its last byte */
    if (WRONG == 13 && start > 0) return reply - 65536 + 16777216;                /* the rest has a byte of the source */
    if (WRONG == 14 && stripped) return reply + 65536 * path_length;              /* an empty rest at the end, not at 0 */
    return reply;
}

/* Replaces the target in the path that was written with this reply, if both calls were answered and the result is legal. */
static size_t with_target(size_t reply, const char *target, size_t target_reply, char *out, size_t out_length) {
    char path[MUDVIZSOR_PATH_BYTES];
    if (mudvizsor_number(reply) != MUDVIZSOR_ANSWER || mudvizsor_number(target_reply) != MUDVIZSOR_ANSWER) return reply;
    memcpy(path, out, mudvizsor_value(reply));
    size_t altered = __real_mudvizsor_path_replace_embedded_target(path, mudvizsor_value(reply), target,
                                                                   mudvizsor_value(target_reply), out, out_length);
    return mudvizsor_number(altered) == MUDVIZSOR_ANSWER ? altered : reply;
}

size_t __wrap_mudvizsor_path_strip_variant_selections(const char *path, size_t path_length, char *out, size_t out_length) {
    char target[MUDVIZSOR_PATH_BYTES], stripped[MUDVIZSOR_PATH_BYTES];
    size_t reply = __real_mudvizsor_path_strip_variant_selections(path, path_length, out, out_length);
    size_t inner = __real_mudvizsor_path_embedded_target(path, path_length, target, sizeof target);
    if (WRONG != 15 || mudvizsor_number(inner) != MUDVIZSOR_ANSWER) return reply;
    inner = __real_mudvizsor_path_strip_variant_selections(target, mudvizsor_value(inner), stripped, sizeof stripped);
    return with_target(reply, stripped, inner, out, out_length);                  /* strips in brackets, too */
}

size_t __wrap_mudvizsor_path_embedded_target(const char *path, size_t path_length, char *out, size_t out_length) {
    char target[MUDVIZSOR_PATH_BYTES];
    size_t reply = __real_mudvizsor_path_embedded_target(path, path_length, out, out_length);
    if (WRONG != 16 || mudvizsor_number(reply) != MUDVIZSOR_ANSWER) return reply;
    memcpy(target, out, mudvizsor_value(reply));
    size_t inner = __real_mudvizsor_path_embedded_target(target, mudvizsor_value(reply), out, out_length);
    return mudvizsor_number(inner) == MUDVIZSOR_ANSWER ? inner : reply;           /* the path in the last brackets */
}

size_t __wrap_mudvizsor_path_replace_embedded_target(
    const char *path, size_t path_length, const char *target, size_t target_length, char *out, size_t out_length) {
    size_t reply = __real_mudvizsor_path_replace_embedded_target(path, path_length, target, target_length, out, out_length);
    if (WRONG != 17 || mudvizsor_number(reply) != MUDVIZSOR_ANSWER) return reply;
    memcpy(out, path, path_length);
    return 256 * path_length;                                                     /* leaves the path as it is */
}

size_t __wrap_mudvizsor_map_source_to_target(
    const char *store, size_t store_length, const size_t *places, size_t places_length, size_t count, bool mark,
    const char *path, size_t path_length, char *out, size_t out_length) {
    char target[MUDVIZSOR_PATH_BYTES], mapped[MUDVIZSOR_PATH_BYTES];
    size_t reply = __real_mudvizsor_map_source_to_target(
        store, store_length, places, places_length, count, mark, path, path_length, out, out_length);
    size_t inner = __real_mudvizsor_path_embedded_target(path, path_length, target, sizeof target);
    if (WRONG != 18 || mudvizsor_number(inner) != MUDVIZSOR_ANSWER) return reply;
    inner = __real_mudvizsor_map_source_to_target(
        store, store_length, places, places_length, count, mark, target, mudvizsor_value(inner), mapped, sizeof mapped);
    return with_target(reply, mapped, inner, out, out_length);                    /* maps the path in brackets, too */
}
