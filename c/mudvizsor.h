/* Scene paths, path maps, relocates, routes and time offsets: the C interface of the static library libmudvizsor.a.

   docs/REQUIREMENTS.md defines what each call computes; this header describes how a C or C++ program calls it. The
   library is built for x86-64 Linux by `tools/build library`, which writes target/staticlib/libmudvizsor.a:

       cc -std=c11 -Ic program.c target/staticlib/libmudvizsor.a

   LENT MEMORY. The caller lends all memory for the duration of a call. The library keeps no pointers, allocates nothing
   and has no state, so any number of threads may call it at the same time. A slice is passed as a pointer followed by
   its length, which counts bytes for a `char *` and elements for a `size_t *`. Every slice must be valid for its whole
   length, and a slice that is written must not overlap any other slice of the same call. A slice of length 0 is never
   dereferenced, so its pointer may be NULL. There are no other preconditions: texts, places, counts and floats may have
   any value. Bad texts, places and counts are refused; every float is accepted. A text needs no terminating 0, and none
   is written after a result. A `bool` is false or true. A call uses up to about 300 KiB of stack.

   TEXTS are UTF-8; malformed UTF-8 is not a legal path (2). A name of a prim, a property or a variant set begins with an
   ASCII letter, `_` or a character from U+0080 up, and continues with these and ASCII digits. Controls (U+0080 to U+009F)
   and white space (U+00A0, U+1680, U+2000 to U+200A, U+2028, U+2029, U+202F, U+205F, U+3000) are excluded. The variant, v
   in {set=v}, has ASCII letters, digits and `_` only. Texts are compared byte by byte, and lengths, starts and limits count
   bytes. Every path that is written is UTF-8, and no length or start divides a character.

   A REPLY is one number: 256 times a value, plus the refusal number in the low byte, which is 0 for success and one of the
   numbers below for a refusal. The value of a refusal is 0. A refused call writes nothing. A successful call writes its
   result to the beginning of the lent buffers and leaves the rest of them unchanged.

   A PATH that is written needs a buffer of at least 255 bytes, however short the path is; else the call is refused
   with 5.

   BRACKETS. A property may be followed by an absolute path in brackets, its target, which ends the text: /L/S.next[/L/T].
   The target may have brackets in turn; a text has at most four opening brackets. The text before the first one is the
   path's own part. Names and selections in brackets are not counted, stripped or mapped: calls that map a path leave the
   brackets as they are. A path with brackets is no end of a pair (3).

   A LIST of pairs is passed as
       store    the bytes of the ends (the sources and targets), in any order; they may overlap or have gaps
       places   four numbers for each pair: start and length of its source in the store, start and length of its target
       count    the number of pairs: at most 64, and no more than `places` holds, else the call is refused with 4
   For example, the list /A -> /X, /B -> / is the store "/A/X/B/" with the places 0,2, 2,2, 4,2, 6,1 and the count 2. A
   place that reaches outside the store is refused with 1. Each end must be a prim path (names only), `/` or empty, else
   the call is refused with 3.

   A MAP is passed as a list and
       mark            the root-identity mark: a path that no pair matches maps to itself
       offset, scale   its time offset; (0, 1) is the identity
   Calls that map a path take no time offset, since where a path goes does not depend on it.

   A MAP THAT IS BUILT is written in the same form, so that it can be passed to the next call:
       out     the bytes of its ends: source, target, source, target, ..
       slots   their places, four numbers for each pair
       time    its offset and scale
   mudvizsor_pairs and mudvizsor_mark extract its number of pairs and its mark from the reply. The buffers must hold the
   list as it is before redundant pairs are dropped: the sum of the lengths of its ends, and four numbers for each pair;
   else the call is refused with 5. MUDVIZSOR_MAP_BYTES and MUDVIZSOR_MAP_SLOTS are enough for every map that can be
   built, except in mudvizsor_map_implied_class (see there). But mudvizsor_map_compose, mudvizsor_map_rebase_target,
   mudvizsor_map_deepen_to and mudvizsor_map_implied_class check the buffers (5) before they check the lengths of the
   ends that they made (7), and such an end may be longer than 255 bytes. With MUDVIZSOR_MAP_BYTES, a call that has to be
   refused with 7 may therefore be refused with 5. With 48,960 bytes (146,880 for mudvizsor_map_implied_class) it is
   always refused with 7.

   A ROUTE is passed as
       store, places   as for a list, holding the pairs of all its legs
       legs            three numbers for each leg: its kind (0 a map without the mark, 1 a map with the mark, any other
                       number a relocate list), the index in `places` of its first pair (the first pair has index 0),
                       and its number of pairs; legs may share pairs
       count           the number of legs: at most 16, and no more than `legs` holds, else the call is refused with 4

   THE REST of a path that is mapped is the part of it that is carried over unaltered: what follows the end (the source or,
   from targets to sources, the target) that is replaced. A separating slash belongs to the rest, so under the end `/` the
   rest of a longer path is the whole path. The rest is also the whole path if no pair matches and the mark maps the path to
   itself, and it is empty if a pair matches the whole path. The resulting path ends with the rest, too. The calls whose
   names end in _carried do what the calls without that ending do, and their replies tell also where the rest is.

   MANY PATHS are passed as
       texts    their bytes, in any order; they may overlap or have gaps
       spots    two numbers for each path: its start in `texts` and its length
       n        the number of paths, which is not limited
       out      255 bytes for each path: the result for path i is written at byte 255 * i
       replies  one number for each path: element i is set to the reply that the call for path i alone would return
   The reply of the whole call is 0 or a refusal, and then nothing is written: 1 to 4 for the list or the route, also if n
   is 0; then 4 if there are fewer than 2 * n spots; then 5 if there are fewer than 255 * n bytes or n replies. The
   refusals of a path, 1, 2 and 6 to 8, are reported in `replies`, a spot that reaches outside `texts` as 1. */
#ifndef MUDVIZSOR_H
#define MUDVIZSOR_H

#include <stdbool.h>
#include <stddef.h>
#include <stdint.h>

#if SIZE_MAX != UINT64_MAX
#error "the library needs a 64-bit size_t"
#endif

#ifdef __cplusplus
extern "C" {
#endif

/* ---- Replies ---- */

/* The refusal number in the low byte of a reply. The numbers are those of the questions in docs/REQUIREMENTS.md (Validation
   and refusals), which are checked in this order; the first one that fails decides. */
enum {
    MUDVIZSOR_ANSWER = 0,        /* success */
    MUDVIZSOR_TOO_LONG = 1,      /* a text is longer than 255 bytes, or its place reaches outside its store */
    MUDVIZSOR_ILLEGAL = 2,       /* a text is not a legal path, or malformed UTF-8 */
    MUDVIZSOR_NOT_AN_END = 3,    /* an end is neither a prim path nor `/` nor empty */
    MUDVIZSOR_TOO_MANY = 4,      /* more than 64 pairs or 16 legs, or a count that exceeds its slice */
    MUDVIZSOR_NO_ROOM = 5,       /* a lent buffer is too small */
    MUDVIZSOR_NO_PATH = 6,       /* there is no resulting path */
    MUDVIZSOR_MADE_TOO_LONG = 7, /* a resulting path is longer than 255 bytes */
    MUDVIZSOR_MADE_ILLEGAL = 8   /* a resulting path is not legal */
};

/* Buffer sizes that are always enough for a result. mudvizsor_map_implied_class needs three times MUDVIZSOR_MAP_BYTES and
   MUDVIZSOR_MAP_SLOTS. */
enum {
    MUDVIZSOR_PATH_BYTES = 255,  /* a path */
    MUDVIZSOR_ANCESTORS = 128,   /* the lengths that mudvizsor_path_ancestors writes */
    MUDVIZSOR_MAP_BYTES = 32640, /* the ends of a map: 64 pairs of two ends of 255 bytes */
    MUDVIZSOR_MAP_SLOTS = 256    /* the places of a map: 64 pairs of four numbers */
};

/* The lengths of the buffers that mudvizsor_frames_line is lent, in bytes or numbers. */
enum {
    MUDVIZSOR_FRAMES_KEPT = 5,      /* kept: the counters of the protocol */
    MUDVIZSOR_FRAMES_BYTES = 32640, /* bytes: the ends of the open list, 64 pairs of two ends of 255 bytes */
    MUDVIZSOR_FRAMES_PLACES = 256,  /* places: the places of the open list, 64 pairs of four numbers */
    MUDVIZSOR_FRAMES_STORE = 32768, /* store: the ends of the closed legs */
    MUDVIZSOR_FRAMES_SLOTS = 4096,  /* slots: the places of the closed legs, 16 legs of 64 pairs of four numbers */
    MUDVIZSOR_FRAMES_TABLE = 48,    /* table: the closed legs, 16 legs of three numbers */
    MUDVIZSOR_FRAMES_OUT = 515      /* out: the longest answer line */
};

/* The refusal number of a reply; 0 for success. */
static inline int mudvizsor_number(size_t reply) { return (int)(reply % 256); }

/* The value of a successful reply: a length, a count, or 1 for true and 0 for false. */
static inline size_t mudvizsor_value(size_t reply) { return reply / 256; }

/* For the reply of a call that builds a map: its number of pairs, and its mark. */
static inline size_t mudvizsor_pairs(size_t reply) { return reply / 512; }
static inline bool mudvizsor_mark(size_t reply) { return reply / 256 % 2 == 1; }

/* For the reply of mudvizsor_chain_through_relocates: the length of the resulting path, and the number of replacements. */
static inline size_t mudvizsor_chain_length(size_t reply) { return reply / 256 % 256; }
static inline size_t mudvizsor_chain_steps(size_t reply) { return reply / 65536; }

/* For the reply of mudvizsor_path_rest_start: whether the path has the prefix, and the index at which the rest begins. */
static inline bool mudvizsor_prefix_found(size_t reply) { return reply / 256 % 256 == 1; }
static inline size_t mudvizsor_prefix_rest_start(size_t reply) { return reply / 65536; }

/* For the reply of a call whose name ends in _carried: the length of the resulting path, and the start and length of the
   rest in the path given. All three are 0 for a refusal. */
static inline size_t mudvizsor_carried_length(size_t reply) { return reply / 256 % 256; }
static inline size_t mudvizsor_carried_rest_start(size_t reply) { return reply / 65536 % 256; }
static inline size_t mudvizsor_carried_rest_length(size_t reply) { return reply / 16777216; }

/* ---- Paths ---- */

/* Checks that the text is a legal path of at most 255 bytes of UTF-8. The reply is 0 if it is, else a refusal: 1, 2. */
size_t mudvizsor_path_new(const char *path, size_t path_length);

/* The value is 1 if the path can be an end of a pair, which a prim path, `/` and the empty path can; else 0.
   Refusals: 1, 2. */
size_t mudvizsor_path_is_end(const char *path, size_t path_length);

/* The value is 1 if the path contains a variant selection outside brackets, else 0. Refusals: 1, 2. */
size_t mudvizsor_path_has_variant_selection(const char *path, size_t path_length);

/* The value is the number of names and selections in the path. A property is not counted, nor is anything in brackets.
   Refusals: 1, 2. */
size_t mudvizsor_path_element_count(const char *path, size_t path_length);

/* The value is the number of names in the path. A property is not counted, nor is anything in brackets. Refusals: 1, 2. */
size_t mudvizsor_path_prim_element_count(const char *path, size_t path_length);

/* The value is 1 if `prefix` is the path itself or one of its ancestors, else 0. The empty path is a prefix of every
   path. The property before brackets is the parent of the path, but no prefix of it. Refusals: 1, 2. */
size_t mudvizsor_path_has_prefix(const char *path, size_t path_length, const char *prefix, size_t prefix_length);

/* Tells whether the path has the prefix, and also where the rest of the path begins, which follows the prefix. The value is
   0 if the path does not have the prefix, else 1 plus 256 times the index at which the rest begins;
   mudvizsor_prefix_found and mudvizsor_prefix_rest_start extract them from the reply. The index is the length of the prefix,
   but 0 if the prefix is `/` and the path is longer, since a separating slash belongs to the rest. Refusals: 1, 2. */
size_t mudvizsor_path_rest_start(const char *path, size_t path_length, const char *prefix, size_t prefix_length);

/* Writes the path with its prefix `old_prefix` replaced by `new_prefix`. The value is the length written.
   `out` needs 255 bytes. Refusals: 1, 2, 5, 6 if the path does not have the prefix, 7, 8. */
size_t mudvizsor_path_replace_prefix(
    const char *path, size_t path_length, const char *old_prefix, size_t old_prefix_length, const char *new_prefix,
    size_t new_prefix_length, char *out, size_t out_length);

/* Writes the path without its brackets or, if it has none, without its property or, if it has none either, without its last
   element. The value is the length written. `out` needs 255 bytes. Refusals: 1, 2, 5, 6 for `/` and the empty path, which
   have no parent. */
size_t mudvizsor_path_parent(const char *path, size_t path_length, char *out, size_t out_length);

/* Writes the path without its property and brackets or, if it has no property and ends in a selection, without that one
   selection. The value is the length written. `out` needs 255 bytes. Refusals: 1, 2, 5. */
size_t mudvizsor_path_prim_path(const char *path, size_t path_length, char *out, size_t out_length);

/* Writes the part of the path before the dot of its property. The value n is the length written; the name of the property
   starts at byte n + 1 of `path`. `out` needs 255 bytes. Refusals: 1, 2, 5, 6 if the path has no property, or has
   brackets. */
size_t mudvizsor_path_split_property(const char *path, size_t path_length, char *out, size_t out_length);

/* Writes the path without its variant selections; those in brackets are kept. The value is the length written. `out` needs
   255 bytes. Refusals: 1, 2, 5. */
size_t mudvizsor_path_strip_variant_selections(const char *path, size_t path_length, char *out, size_t out_length);

/* Writes the length of the path and then of each of its ancestors, nearest first. Each ancestor is the initial part of
   `path` with that length. The value is how many lengths were written, at most 128; `lengths` needs that many numbers.
   Refusals: 1, 2, 5. */
size_t mudvizsor_path_ancestors(const char *path, size_t path_length, size_t *lengths, size_t lengths_length);

/* Writes the path in the brackets of `path`, without these brackets. The value is the length written. `out` needs 255 bytes.
   Refusals: 1, 2, 5, 6 if the path has no brackets. */
size_t mudvizsor_path_embedded_target(const char *path, size_t path_length, char *out, size_t out_length);

/* Writes `path` with the path in its brackets replaced by `target`. The value is the length written. `out` needs 255 bytes.
   Refusals: 1, 2, 5, 6 if the path has no brackets, 7, 8, which is so for an empty target and one with four brackets. */
size_t mudvizsor_path_replace_embedded_target(
    const char *path, size_t path_length, const char *target, size_t target_length, char *out, size_t out_length);

/* ---- Mapping a path ---- */

/* Maps the path from sources to targets. Of the pairs whose source is a prefix of the path, the one whose source has the
   most elements is used, the last one on a tie; an empty source never matches. The result is the path with that source
   replaced by the target, or the path itself if no pair matches and the map has the mark. A path in brackets is not mapped,
   here and in all calls below. The value is the length written. `out` needs 255 bytes. Refusals: 1 to 5, 6 if the target
   is empty or if no pair matches and there is no mark, 7, 8. */
size_t mudvizsor_map_source_to_target(
    const char *store, size_t store_length, const size_t *places, size_t places_length, size_t count, bool mark,
    const char *path, size_t path_length, char *out, size_t out_length);

/* Maps the path from targets to sources: the same with the targets as keys. An empty target never matches. Refusals: 1 to
   5, 6 if no pair matches and there is no mark, 7, 8. */
size_t mudvizsor_map_target_to_source(
    const char *store, size_t store_length, const size_t *places, size_t places_length, size_t count, bool mark,
    const char *path, size_t path_length, char *out, size_t out_length);

/* Removes the variant selections from the path, except those in brackets, and maps it from sources to targets, but refuses
   a result that would not map back through the same pair: the refusal is 6 if mudvizsor_map_target_to_source would use
   another pair for the result, or any pair if none was used. The value is the length written. `out` needs 255 bytes.
   Refusals: 1 to 5, 6 also as in mudvizsor_map_source_to_target, 7, 8. */
size_t mudvizsor_translate_to_target(
    const char *store, size_t store_length, const size_t *places, size_t places_length, size_t count, bool mark,
    const char *path, size_t path_length, char *out, size_t out_length);

/* Makes one of the three calls above for each of many paths, but validates the list only once. `direction` selects the call: 0
   for mudvizsor_map_source_to_target, 1 for mudvizsor_map_target_to_source, any other number for
   mudvizsor_translate_to_target. Refusals of the whole call: 1 to 4 for the list, 4 if there are more paths than spots, 5.
   What is left to the paths, 1, 2 and 6 to 8, is in their replies. */
size_t mudvizsor_map_all(
    const char *store, size_t store_length, const size_t *places, size_t places_length, size_t count, bool mark,
    size_t direction, const char *texts, size_t texts_length, const size_t *spots, size_t spots_length, size_t n, char *out,
    size_t out_length, size_t *replies, size_t replies_length);

/* Does what mudvizsor_map_source_to_target does, and tells also where the rest is. The value is the length written, plus
   256 times the start of the rest in `path`, plus 65,536 times its length; mudvizsor_carried_length,
   mudvizsor_carried_rest_start and mudvizsor_carried_rest_length extract them from the reply. The rest always reaches to the
   end of `path`, so an empty one starts at `path_length`. Refusals: as in mudvizsor_map_source_to_target. */
size_t mudvizsor_map_source_to_target_carried(
    const char *store, size_t store_length, const size_t *places, size_t places_length, size_t count, bool mark,
    const char *path, size_t path_length, char *out, size_t out_length);

/* Does what mudvizsor_map_target_to_source does, and tells also where the rest is. The value is as in
   mudvizsor_map_source_to_target_carried. Refusals: as in mudvizsor_map_target_to_source. */
size_t mudvizsor_map_target_to_source_carried(
    const char *store, size_t store_length, const size_t *places, size_t places_length, size_t count, bool mark,
    const char *path, size_t path_length, char *out, size_t out_length);

/* Does what mudvizsor_translate_to_target does, and tells also where the rest is. The value is as in
   mudvizsor_map_source_to_target_carried, but if the path has a variant selection outside brackets, start and length of the
   rest are 0. Refusals: as in mudvizsor_translate_to_target. */
size_t mudvizsor_translate_to_target_carried(
    const char *store, size_t store_length, const size_t *places, size_t places_length, size_t count, bool mark,
    const char *path, size_t path_length, char *out, size_t out_length);

/* ---- Building maps ----

   Each of these calls writes a map to `out`, `slots` and `time`, as described at the top.

   Most of them put the map in CANONICAL FORM: Each pair `/` -> `/` is removed and sets the mark. A single remaining pair
   is kept, unless its ends are equal and the mark is set. Several are sorted by the number of elements of their sources
   (stably), and a pair is dropped as redundant if the pairs kept before it and the mark already map its source to its
   target. In that test an empty target is joined as text: after /A -> empty the pair /A/B -> /B is redundant. */

/* Builds the map of the pairs, in canonical form, with the time offset (0, 1). Refusals: 1 to 5. */
size_t mudvizsor_map_new(
    const char *store, size_t store_length, const size_t *places, size_t places_length, size_t count, char *out,
    size_t out_length, size_t *slots, size_t slots_length, double time[2]);

/* Builds the map with its mark set. No pair is dropped, and the time offset is kept. Refusals: 1 to 5. */
size_t mudvizsor_map_with_root_identity(
    const char *store, size_t store_length, const size_t *places, size_t places_length, size_t count, bool mark,
    double offset, double scale, char *out, size_t out_length, size_t *slots, size_t slots_length, double time[2]);

/* Builds the composition: the inner map (the parameters that begin with i) followed by the outer map (the others). Each
   inner pair gets its target mapped by the outer map; a target that does not map becomes empty. Each outer pair gets its
   source mapped back by the inner map, and is left out if that yields no path or a source that is already there. The map
   has the mark if both maps have it, and is then put in canonical form. If one of the maps is the identity on paths, the
   pairs and the mark of the other are kept unchanged. The time offset is the concatenation of both, or (0, 1) if both are
   the identity. The result may map a path differently from the two maps applied in turn, since the longest match is
   taken over the composed list. Refusals: 1 to 5, where 4 also means more than 64 pairs before pairs are dropped, 7. */
size_t mudvizsor_map_compose(
    const char *store, size_t store_length, const size_t *places, size_t places_length, size_t count, bool mark,
    double offset, double scale, const char *istore, size_t istore_length, const size_t *iplaces,
    size_t iplaces_length, size_t icount, bool imark, double ioffset, double iscale, char *out, size_t out_length,
    size_t *slots, size_t slots_length, double time[2]);

/* Builds the map of this one pair, without the mark, with the time offset (0, 1). The pair is kept as it is, even
   `/` -> `/`. Refusals: 1, 2, 3, 5. */
size_t mudvizsor_map_from_pair(
    const char *source, size_t source_length, const char *target, size_t target_length, char *out, size_t out_length,
    size_t *slots, size_t slots_length, double time[2]);

/* Builds the map of this one pair, with the mark, with the time offset (0, 1). A pair with equal ends is dropped.
   Refusals: 1, 2, 3, 5. */
size_t mudvizsor_map_from_pair_identity(
    const char *source, size_t source_length, const char *target, size_t target_length, char *out, size_t out_length,
    size_t *slots, size_t slots_length, double time[2]);

/* Builds the map with the source and target of each pair exchanged, with the same mark, in canonical form. The time offset
   is always (0, 1). Refusals: 1 to 5. */
size_t mudvizsor_map_inverse(
    const char *store, size_t store_length, const size_t *places, size_t places_length, size_t count, bool mark,
    double offset, double scale, char *out, size_t out_length, size_t *slots, size_t slots_length, double time[2]);

/* Builds the map without the pairs whose source is `source`, with the same mark and time offset, in canonical form; a map
   that has no such pair is kept unchanged. `source` must be an end, else 3. The buffers need not hold the removed pairs.
   Refusals: 1 to 5. */
size_t mudvizsor_map_dropping_source(
    const char *store, size_t store_length, const size_t *places, size_t places_length, size_t count, bool mark,
    double offset, double scale, const char *source, size_t source_length, char *out, size_t out_length, size_t *slots,
    size_t slots_length, double time[2]);

/* Builds the map in which every target that has the prefix `from` has it replaced by `to`, with the same mark and time
   offset, in canonical form. A map in which no target has that prefix is kept unchanged. A map that is the identity on
   paths (no pairs, but the mark) becomes the single pair `from` -> `to` with the mark, in canonical form; its time offset
   is kept. `from` and `to` must be ends, else 3. Refusals: 1 to 5, 7, 8. */
size_t mudvizsor_map_rebase_target(
    const char *store, size_t store_length, const size_t *places, size_t places_length, size_t count, bool mark,
    double offset, double scale, const char *from, size_t from_length, const char *to, size_t to_length, char *out,
    size_t out_length, size_t *slots, size_t slots_length, double time[2]);

/* Builds the map of a class arc moved down to a deeper path, the node, which is `path` without its variant selections.
   Among the sources that are a prefix of the node, the one with the most elements is selected, the last one on a tie; an
   empty source counts too. Every pair with that source gets the node as its source, and as its target the node with the
   selected source replaced by the target of the selected pair. The map, with the same mark and time offset, is then put in
   canonical form. It is kept unchanged if it has a pair whose source is the node, or if no source is a prefix of the node.
   The node must be an end, else 3. Refusals: 1 to 5, 7, 8. */
size_t mudvizsor_map_deepen_to(
    const char *store, size_t store_length, const size_t *places, size_t places_length, size_t count, bool mark,
    double offset, double scale, const char *path, size_t path_length, char *out, size_t out_length, size_t *slots,
    size_t slots_length, double time[2]);

/* Builds the implied class: the map of a class arc (the parameters that begin with i) propagated across a transfer map
   (the others). It is the composition transfer after class after inverse of the transfer, with the mark set. If the
   transfer is the identity, time offset included, it is the class unchanged. The buffers must hold three lists together,
   each before pairs are dropped: the inverse of the transfer, the class after that, and the transfer after that. 97,920
   bytes and 768 numbers are enough for every map that can be built. Refusals: 1 to 5, where 4 also means more than 64
   pairs in one of the three lists, 7. */
size_t mudvizsor_map_implied_class(
    const char *store, size_t store_length, const size_t *places, size_t places_length, size_t count, bool mark,
    double offset, double scale, const char *istore, size_t istore_length, const size_t *iplaces,
    size_t iplaces_length, size_t icount, bool imark, double ioffset, double iscale, char *out, size_t out_length,
    size_t *slots, size_t slots_length, double time[2]);

/* The value is 1 if the map is not null, both ends of every pair are equal, and the time offset is (0, 1); else 0. A null
   map has neither pairs nor the mark. The pairs are compared, not what they do: with /A -> /B and /A -> /A the value is 0,
   although the second pair shadows the first. Minus zero counts as 0. Refusals: 1 to 4. */
size_t mudvizsor_map_is_noop(
    const char *store, size_t store_length, const size_t *places, size_t places_length, size_t count, bool mark,
    double offset, double scale);

/* ---- Maps without their pairs ----

   These calls take only the number of pairs of a map, its mark and its time offset, not its list. A map that they build
   has its number of pairs and its mark in the reply and its time offset in `time`; its list is the one that the caller
   has, or empty. */

/* Builds the identity: no pairs, the mark, the time offset (0, 1). It is never refused. */
size_t mudvizsor_map_identity(double time[2]);

/* Builds the null map, which maps no path: no pairs, no mark, the time offset (0, 1). It is never refused. */
size_t mudvizsor_map_null(double time[2]);

/* Returns whether the map is null: neither pairs nor the mark. */
bool mudvizsor_map_is_null(size_t count, bool mark, double offset, double scale);

/* Returns whether the map is the identity on paths: no pairs, but the mark. */
bool mudvizsor_map_path_is_identity(size_t count, bool mark, double offset, double scale);

/* Returns whether the map is the identity: no pairs, but the mark, and the time offset (0, 1). Minus zero counts as 0. */
bool mudvizsor_map_is_identity(size_t count, bool mark, double offset, double scale);

/* Returns whether the map has the mark. */
bool mudvizsor_map_has_root_identity(size_t count, bool mark, double offset, double scale);

/* Writes the time offset of the map. */
void mudvizsor_map_time_offset(size_t count, bool mark, double offset, double scale, double time[2]);

/* Builds the map with its time offset replaced by the new one. Refusals: 4 if `count` is more than 64. */
size_t mudvizsor_map_with_time_offset(
    size_t count, bool mark, double offset, double scale, double new_offset, double new_scale, double time[2]);

/* ---- Relocate lists ---- */

/* Writes the status of each pair, one byte each. The value is the number of pairs; `out` needs that many bytes.
       0  active: none of the following
       1  structural: the target is not empty, and the source has one name, the ends are equal, or one end is a prefix
          of the other
       2  duplicate source: an earlier pair that is not structural has the same source
       3  conflict: another pair with neither status 1 nor 2 has the same nonempty target, or overlaps with this pair in
          another way (docs/REQUIREMENTS.md, Relocates)
   Refusals: 1 to 5. */
size_t mudvizsor_analyze_relocate_occurrences(
    const char *store, size_t store_length, const size_t *places, size_t places_length, size_t count, char *out,
    size_t out_length);

/* Follows the path through the relocates and writes where it ends. Each step uses, of the pairs that have a nonempty
   target and alter the path, the one whose source is the longest in bytes, the last one on a tie, and replaces that
   source by the target. The steps end when no pair is left to use, or after as many steps as there are pairs. All pairs
   take part, whatever their status, except that pairs with the source `skipped` are ignored if `skips` is true; if it is
   false, `skipped` is not read. mudvizsor_chain_length and mudvizsor_chain_steps extract the length written and the
   number of steps from the reply. `out` needs 255 bytes. Refusals: 1 to 5; 7 and 8, which are checked after each step. */
size_t mudvizsor_chain_through_relocates(
    const char *store, size_t store_length, const size_t *places, size_t places_length, size_t count, bool skips,
    const char *skipped, size_t skipped_length, const char *path, size_t path_length, char *out, size_t out_length);

/* Applies to the endpoint the relocate of its nearest ancestor: of the pairs that have a nonempty target and whose source
   is a prefix of the endpoint, but not the endpoint itself, the one whose source is the longest in bytes, the last one on
   a tie. Writes the endpoint with that source replaced by the target, or unchanged if there is no such pair. The value is
   the length written. `out` needs 255 bytes. Refusals: 1 to 5, 7, 8. */
size_t mudvizsor_shift_through_nearest_ancestor(
    const char *store, size_t store_length, const size_t *places, size_t places_length, size_t count,
    const char *endpoint, size_t endpoint_length, char *out, size_t out_length);

/* ---- Routes ---- */

/* Maps the path out over the legs, the first one first: each leg does mudvizsor_translate_to_target with the result of the
   leg before it. A relocate list stands for the map that mudvizsor_map_new builds of its active pairs and `/` -> `/`.
   With no legs the result is the path itself. The value is the length written. `out` needs 255 bytes. Refusals: 1 to 5;
   6, 7 and 8, which are checked for each leg before the next one. */
size_t mudvizsor_route_out(
    const char *store, size_t store_length, const size_t *places, size_t places_length, const size_t *legs,
    size_t legs_length, size_t count, const char *path, size_t path_length, char *out, size_t out_length);

/* Maps the path home over the legs, the last one first: each leg does mudvizsor_map_target_to_source with the result of the
   leg after it. It maps the result of mudvizsor_route_out back to the path that was mapped out, if that has no selections
   outside brackets.
   Refusals: as in mudvizsor_route_out. */
size_t mudvizsor_route_home(
    const char *store, size_t store_length, const size_t *places, size_t places_length, const size_t *legs,
    size_t legs_length, size_t count, const char *path, size_t path_length, char *out, size_t out_length);

/* Makes one of the two calls above for each of many paths, mudvizsor_route_home if `home` is true, but validates the legs
   only once. Refusals of the whole call: 1 to 4 for the legs, 4 if there are more paths than spots, 5. What is left to the
   paths, 1, 2 and 6 to 8, is in their replies. */
size_t mudvizsor_route_all(
    const char *store, size_t store_length, const size_t *places, size_t places_length, const size_t *legs,
    size_t legs_length, size_t count, bool home, const char *texts, size_t texts_length, const size_t *spots,
    size_t spots_length, size_t n, char *out, size_t out_length, size_t *replies, size_t replies_length);

/* Does what mudvizsor_route_out does, and tells also where the rest is: here the part of the path that all legs carry over
   unaltered, which is the shortest of the rests of the legs. `path`, the result of each leg and the resulting path end with
   it. With no legs it is the whole path. The value is as in mudvizsor_map_source_to_target_carried, but if there is a leg and
   the path has a variant selection outside brackets, start and length of the rest are 0. Refusals: as in
   mudvizsor_route_out. */
size_t mudvizsor_route_out_carried(
    const char *store, size_t store_length, const size_t *places, size_t places_length, const size_t *legs,
    size_t legs_length, size_t count, const char *path, size_t path_length, char *out, size_t out_length);

/* Does what mudvizsor_route_home does, and tells also where the rest is, which is that of all legs as in
   mudvizsor_route_out_carried. Selections are not removed on the way home, so the rest always reaches to the end of `path`.
   Refusals: as in mudvizsor_route_home. */
size_t mudvizsor_route_home_carried(
    const char *store, size_t store_length, const size_t *places, size_t places_length, const size_t *legs,
    size_t legs_length, size_t count, const char *path, size_t path_length, char *out, size_t out_length);

/* ---- One line of the program `frames` ---- */

/* Processes one line of the protocol of the program `frames` (docs/REQUIREMENTS.md, Frames): executes the frame in `line`,
   which is given without its newline, and writes the answer line with its newline to `out`. The value is the length
   written. A bad frame is not refused; its answer line is FF09.

   Between two calls the caller keeps the state of the protocol:
       kept              five numbers, all 0 before the first call: pairs and bytes of the open list, legs and their
                         bytes, number of 05 frames that were answered with 00
       bytes, places     the open list
       store, slots      the pairs of the closed legs
       table             three numbers for each closed leg
   The initial contents of the last five do not matter. What a frame uses of the state is checked in every call, so an
   altered state gets the number of the first failed question as its answer: 02, 03 and 04 check the open list (1 to 4), 05
   and 06 the legs (1 to 4; 4 for more than 16), 01, 03 and 04 compare the counters with the buffers and the limits (4 and
   5). If `bytes` or `store` is too short for a frame, the frame is answered with 05; if its list or leg would exceed
   `places`, `slots` or `table`, it is answered with 04. A frame that is answered with a number above 0 changes nothing.

   `kept` needs 5 numbers, `out` 515 bytes; the constants MUDVIZSOR_FRAMES_.. are enough for the other buffers.
   Refusals: 5 if `kept` or `out` is too short. A bad frame needs no more than the 5 bytes of its answer in `out`. */
size_t mudvizsor_frames_line(
    const char *line, size_t line_length, size_t *kept, size_t kept_length, char *bytes, size_t bytes_length,
    size_t *places, size_t places_length, char *store, size_t store_length, size_t *slots, size_t slots_length,
    size_t *table, size_t table_length, char *out, size_t out_length);

/* ---- Time offsets ----

   A time offset maps the time t to offset + scale * t. It is passed as these two numbers, and a resulting one is written
   to `out`, offset first. These calls accept every float, including NaN and infinities, and are never refused. */

/* Writes (offset, scale). */
void mudvizsor_layer_offset_new(double offset, double scale, double out[2]);

/* Writes (0, scale). */
void mudvizsor_layer_offset_scale_only(double scale, double out[2]);

/* Returns whether both numbers are finite. */
bool mudvizsor_layer_offset_is_valid(double offset, double scale);

/* Returns whether it is (0, 1). Minus zero counts as 0. */
bool mudvizsor_layer_offset_is_identity(double offset, double scale);

/* Returns whether both are valid and differ by less than 1e-6 in each number, or both are not valid and have the same bits
   (where all NaNs count as the same). */
bool mudvizsor_layer_offset_is_close(double offset, double scale, double other_offset, double other_scale);

/* Writes the bit patterns of both numbers; that of every NaN is 0x7ff8000000000000. */
void mudvizsor_layer_offset_to_bits(double offset, double scale, uint64_t out[2]);

/* Returns offset + scale * time, the product being rounded before the sum. */
double mudvizsor_layer_offset_apply(double offset, double scale, double time);

/* Writes the inverse: (-offset / scale, 1 / scale), or (0, 1) if the scale is 0 of either sign. */
void mudvizsor_layer_offset_inverse(double offset, double scale, double out[2]);

/* Returns whether it can be composed: both numbers are finite and the scale is greater than 0. */
bool mudvizsor_layer_offset_is_valid_composition(double offset, double scale);

/* Writes it unchanged, or (0, 1) if it cannot be composed. */
void mudvizsor_layer_offset_sanitized(double offset, double scale, double out[2]);

/* Writes the inner time offset followed by the outer one, which is given first:
   (offset + scale * inner_offset, scale * inner_scale), the product being rounded before the sum. */
void mudvizsor_layer_offset_concatenate(
    double offset, double scale, double inner_offset, double inner_scale, double out[2]);

#ifdef __cplusplus
}
#endif

#endif
