/* Maps and isomorphisms of finite models, for C and C++. Link with libbizakoma.a (`rt lib` in crates/bizakoma), for x86-64 Linux.
 *
 * A model is stored as fields. Each is a one-byte tag, a two-byte length (high byte first) and a value, in this order, with nothing after:
 *   Types, tag 1      one byte for each type, its number of elements. Elements are numbered from 0, type by type; n is their sum.
 *   Roots, tag 2      n bytes, the representative of each element: of the same type, and its own representative. An element that is not its own
 *                     representative is an alias.
 *   Relation, tag 3   any number of these: arity a; a type numbers; two-byte row count c; c rows of a element numbers, strictly ascending, first
 *                     column first.
 *   End, tag 0        length 0.
 * At most 16 types, 64 elements, 16 relations, arity 8 and 2,048 cells (row count times arity, summed). A model is canonical if no row holds an
 * alias.
 *
 * A pair list is bytes, element then image; aliases are taken to their representatives. A map is n bytes: at a representative the image's
 * representative, at an alias 255.
 *
 * Every function takes any bytes and any lengths. It returns a number of the table below and sets the three places of `carried`: the values that the
 * number carries, then 0. The calls keep nothing between them, use no heap and no global, and may run on several threads at once.
 *
 * What the caller owes: each pointer is aligned, not null (also where its length is 0) and good for its length, and what may be written (`map`,
 * `inverse`, `work`, `carried`) overlaps nothing else that is lent to the same call.
 */
#ifndef BIZAKOMA_H
#define BIZAKOMA_H

#include <stddef.h>
#include <stdint.h>

#ifdef __cplusplus
extern "C" {
#endif

/* The numbers, each with what it carries. Models and maps are counted from 1, in the order in which a call takes them; the places of pairs from 0. */
enum {
    BIZAKOMA_ACCEPTED = 0,           /* found or accepted. The finds: units used. Apply: the image's representative. */
    BIZAKOMA_NONE = 1,               /* no isomorphism, no inverse. The finds: units used. */
    BIZAKOMA_EXHAUSTED = 2,          /* budget exhausted, so nothing is decided: units used. */
    BIZAKOMA_MALFORMED = 10,         /* malformed: model, offset of the field at fault. */
    BIZAKOMA_NO_ROOM = 11,           /* the output or the work is too short. */
    BIZAKOMA_NOT_CANONICAL = 12,     /* not canonical, the finds only: model. */
    BIZAKOMA_SIGNATURES_DIFFER = 13, /* signatures differ. */
    BIZAKOMA_UNKNOWN_ELEMENT = 14,   /* unknown element: pair place, side 1 or 2. */
    BIZAKOMA_TYPES_DIFFER = 15,      /* types of a pair differ: pair place. */
    BIZAKOMA_IMAGE_MISSING = 16,     /* image missing: lowest source representative without one. */
    BIZAKOMA_CONFLICTING_IMAGES = 17, /* conflicting images: source representative. */
    BIZAKOMA_RELATION_NOT_KEPT = 18, /* relation not kept: lowest relation number. */
    BIZAKOMA_NOT_A_MAP = 19,         /* not a map: map. */
    BIZAKOMA_ODD_PAIRS = 20          /* pair list of odd length. */
};

/* The most elements a model has: an output of this length has room for any map. */
#define BIZAKOMA_ELEMENTS 64
/* The work entries that a find needs. */
#define BIZAKOMA_WORK 32768
/* What a map holds at an alias. */
#define BIZAKOMA_ALIAS 255

/* Identity: the map of a model to itself.
 * Answers 0, 10 or 11. `map` needs the model's n bytes. On 0 its first n bytes hold the map, the rest are unchanged. On every other number it is
 * unchanged. */
uint32_t bizakoma_identity(const uint8_t *model, size_t model_length,
                           uint8_t *map, size_t map_length,
                           uint64_t carried[3]);

/* Check: whether a pair list gives every class of the source one image of its type and keeps all relations; then it gives the map.
 * Answers 0, 10 (model 1 source, 2 target), 11, 13, 14, 15, 16, 17, 18 or 20. `map` needs the source's n bytes. On 0 its first n bytes hold the map,
 * the rest are unchanged. On every other number it is unchanged. */
uint32_t bizakoma_check(const uint8_t *source, size_t source_length,
                        const uint8_t *target, size_t target_length,
                        const uint8_t *pairs, size_t pairs_length,
                        uint8_t *map, size_t map_length,
                        uint64_t carried[3]);

/* Apply: where a map takes an element, also an alias.
 * Answers 0 with the image's representative, 10 (model 1 source, 2 target), 13, 14 (place 0, side 1) or 19 (map 1). It writes no buffer but
 * `carried`. */
uint32_t bizakoma_apply(const uint8_t *source, size_t source_length,
                        const uint8_t *target, size_t target_length,
                        const uint8_t *map, size_t map_length,
                        uint8_t element,
                        uint64_t carried[3]);

/* Compose: `first`, a map from source to middle, then `second`, one from middle to target.
 * Answers 0, 10 (model 1 source, 2 middle, 3 target), 11, 13 or 19 (map 1 first, 2 second). `map` needs the source's n bytes. On 0 its first n bytes
 * hold the map, the rest are unchanged. On every other number it is unchanged. */
uint32_t bizakoma_compose(const uint8_t *source, size_t source_length,
                          const uint8_t *middle, size_t middle_length,
                          const uint8_t *target, size_t target_length,
                          const uint8_t *first, size_t first_length,
                          const uint8_t *second, size_t second_length,
                          uint8_t *map, size_t map_length,
                          uint64_t carried[3]);

/* Inverse: of a map from source to target. It exists exactly if the map is one to one and onto the classes and each relation has as many rows on both
 * sides, compared after taking entries to representatives.
 * Answers 0, 1, 10 (model 1 source, 2 target), 11, 13 or 19 (map 1). `inverse` needs the target's n bytes. On 0 its first n bytes hold the inverse, the
 * rest are unchanged. On every other number it is unchanged. */
uint32_t bizakoma_inverse(const uint8_t *source, size_t source_length,
                          const uint8_t *target, size_t target_length,
                          const uint8_t *map, size_t map_length,
                          uint8_t *inverse, size_t inverse_length,
                          uint64_t carried[3]);

/* Find: an isomorphism from left to right.
 * `budget` is in units: one for each round, candidate looked at and closing check. Exhausted is answered exactly when a unit is needed and all are used.
 * Answers 0, 1 or 2 with the units used, 10 (model 1 left, 2 right), 11, 12 (model 1 left, 2 right) or 13.
 * `map` needs the left's n bytes. On 0 its first n bytes hold the map, the rest are unchanged. On every other number, 1 and 2 among them, it is
 * unchanged.
 * `work` needs BIZAKOMA_WORK entries, whatever they hold. On 0, 1 and 2 the first BIZAKOMA_WORK are zero, the rest unchanged. On a refusal (10 and
 * above) all are unchanged. */
uint32_t bizakoma_find(const uint8_t *left, size_t left_length,
                       const uint8_t *right, size_t right_length,
                       uint64_t budget,
                       uint8_t *map, size_t map_length,
                       uint16_t *work, size_t work_length,
                       uint64_t carried[3]);

/* Find with pairs: an isomorphism from left to right that takes each pair's first to its second.
 * Answers as find, and 14, 15 or 20. One element paired with two, on either side, is 1 with 0 units. `map` and `work` as in find. */
uint32_t bizakoma_find_with_pairs(const uint8_t *left, size_t left_length,
                                  const uint8_t *right, size_t right_length,
                                  const uint8_t *pairs, size_t pairs_length,
                                  uint64_t budget,
                                  uint8_t *map, size_t map_length,
                                  uint16_t *work, size_t work_length,
                                  uint64_t carried[3]);

/* Find under a base: an isomorphism from left to right that takes the base's map `to_left` to its map `to_right`.
 * Answers as find, with 10 for model 1 base, 2 left, 3 right, 12 for model 2 left, 3 right (the base need not be canonical), and 19 (map 1 to_left,
 * 2 to_right). `map` and `work` as in find. */
uint32_t bizakoma_find_under(const uint8_t *base, size_t base_length,
                             const uint8_t *left, size_t left_length,
                             const uint8_t *right, size_t right_length,
                             const uint8_t *to_left, size_t to_left_length,
                             const uint8_t *to_right, size_t to_right_length,
                             uint64_t budget,
                             uint8_t *map, size_t map_length,
                             uint16_t *work, size_t work_length,
                             uint64_t carried[3]);

#ifdef __cplusplus
}
#endif

#endif
