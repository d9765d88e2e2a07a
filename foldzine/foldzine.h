/*
 * foldzine.h: what the static library exports (`rt lib` in crates/export writes
 * crates/export/out/libexport.a). The functions are proved: each takes any bytes
 * and any words, and its contract (crates/export) says all that it answers and
 * all that it leaves in the words that it is lent.
 *
 * Pointers are not null, an array has as many words as its parameter says, and
 * what is lent to be changed overlaps nothing else. No function allocates,
 * keeps a pointer, or touches anything else; a thread needs 2 MB of stack.
 *
 * 'Document 01' is the specification: it defines the sequence image, the route
 * image, every refusal and all numbers that stand in the words.
 */
#ifndef FOLDZINE_H
#define FOLDZINE_H

#include <stddef.h>
#include <stdint.h>

#ifdef __cplusplus
extern "C" {
#endif

/*
 * The words of a graph. Word 0 counts the instructions, and 1 to 6 the records
 * of the other sections, in this order; word 7 is the entry block. Record i of
 * a section begins at its base + i * its width.
 */
#define FOLDZINE_WORDS 43872

enum foldzine_count {
    FOLDZINE_INSTRUCTIONS,
    FOLDZINE_BLOCKS,
    FOLDZINE_EDGES,
    FOLDZINE_REGIONS,
    FOLDZINE_HANDLERS,
    FOLDZINE_UNRESOLVED,
    FOLDZINE_CALLS,
    FOLDZINE_ENTRY
};

/* address, end, 1, keeps its exception edge (0, 1), flow */
#define FOLDZINE_INSTRUCTION_BASE 32
#define FOLDZINE_INSTRUCTION_WIDTH 5
/* position of the first instruction, how many; copies stand behind the built ones */
#define FOLDZINE_BLOCK_BASE 2592
#define FOLDZINE_BLOCK_WIDTH 2
/* source, target, kind, role, role number, case key, source address, target address */
#define FOLDZINE_EDGE_BASE 4640
#define FOLDZINE_EDGE_WIDTH 8
/* has a parent (0, 1), parent, start, end, handlers, then 16 words: bit b of word w is block 64 * w + b, protected */
#define FOLDZINE_REGION_BASE 37408
#define FOLDZINE_REGION_WIDTH 21
/* region, place in it, entry block, kind, filter block of kind 4; by input index */
#define FOLDZINE_HANDLER_BASE 38080
#define FOLDZINE_HANDLER_WIDTH 5
/* source, target (none for roles 0, 1, 3, 9), role, case index (role 6) */
#define FOLDZINE_UNRESOLVED_BASE 38240
#define FOLDZINE_UNRESOLVED_WIDTH 4
/* source, has a target (0, 1), target */
#define FOLDZINE_CALL_BASE 42336
#define FOLDZINE_CALL_WIDTH 3

/*
 * The words of the hops of an addition: word 0 counts the hops, word 1 the call
 * lists. Hops are sorted by source, then end block, those that leave last; the
 * lists of a hop are distinct and sorted.
 */
#define FOLDZINE_HOP_WORDS 18440

enum foldzine_hop_count { FOLDZINE_HOPS, FOLDZINE_LISTS };

/* source block, has an end block (0: it leaves, 1), end block, first list, lists */
#define FOLDZINE_HOP_BASE 8
#define FOLDZINE_HOP_WIDTH 5
/* first step, steps: a run of the route image's steps, all calls; foldzine_tag reads one */
#define FOLDZINE_LIST_BASE 10248
#define FOLDZINE_LIST_WIDTH 2

/* Number 0: nothing was refused. Else document 01's number and its two values. */
typedef struct {
    uint64_t number;
    uint64_t first;
    uint64_t second;
} foldzine_answer;

/* The same, and whether the graph of the sequence was built (0, 1). */
typedef struct {
    uint64_t built;
    uint64_t number;
    uint64_t first;
    uint64_t second;
} foldzine_sequence_answer;

/* Number 0 and a count; or 21 and 0, where words hold no graph. */
typedef struct {
    uint64_t number;
    uint64_t count;
} foldzine_counted;

/*
 * Builds the graph of a sequence image in `words`. Words that the graph does
 * not use stay as they were; refused, every word does.
 */
foldzine_answer foldzine_build(const uint8_t *image, size_t length, uint64_t words[FOLDZINE_WORDS]);

/*
 * Adds the routes of a route image to the graph in `words`, and leaves the hops
 * of this addition in `hops`. Words that the graph and the hops do not use stay
 * as they were; refused, every word does. Words that hold no graph: 21, which is
 * never the answer on a graph that a function of this header stored.
 */
foldzine_answer foldzine_add_routes(uint64_t words[FOLDZINE_WORDS], const uint8_t *routes, size_t length,
                                    uint64_t hops[FOLDZINE_HOP_WORDS]);

/*
 * Builds the graph of a sequence image and, in modes 1 and 2, adds the image's
 * own routes: a build and an addition in one, and faster than both. Mode 0 has
 * no hops. Where the build is refused (built 0), all words stay as they were.
 * Where the routes are (built 1; 18, 19 or 20, for want of room), `words` hold
 * the graph as it was built, in place of what they held, and only the hops stay
 * as they were.
 */
foldzine_sequence_answer foldzine_sequence(const uint8_t *image, size_t length, uint64_t words[FOLDZINE_WORDS],
                                           uint64_t hops[FOLDZINE_HOP_WORDS]);

/* Where the routes stand in a sequence image: if it is not refused, the bytes from there on are its route image. */
size_t foldzine_routes_at(const uint8_t *image, size_t length);

/* Counts the blocks that edges of any kind lead to from the entry, itself among them. */
foldzine_counted foldzine_reached(const uint64_t words[FOLDZINE_WORDS]);

/*
 * The text of document 01's chart, line by line, each with its newline: the
 * lines of a graph up to its hops, then those of the hops, one for each call
 * list. A line is put at the start of `out`, and its length returned; 0 where
 * there is no such line. Whether words hold a graph is asked once, with the count.
 */
#define FOLDZINE_LINE 256
#define FOLDZINE_HOP_LINE 10816

foldzine_counted foldzine_line_count(const uint64_t words[FOLDZINE_WORDS]);
size_t foldzine_line(const uint64_t words[FOLDZINE_WORDS], size_t line, uint8_t out[FOLDZINE_LINE]);
size_t foldzine_hop_lines(const uint64_t hops[FOLDZINE_HOP_WORDS], size_t hop);
size_t foldzine_hop_line(const uint64_t hops[FOLDZINE_HOP_WORDS], const uint8_t *routes, size_t length, size_t hop,
                         size_t list, uint8_t out[FOLDZINE_HOP_LINE]);

/*
 * Reads an image and tells how many records its eight sections have, in file
 * order, behind two words: 0 and 0, or the refusal (1 or 2) and its offset, and
 * then all counts are 0. Of a route image the first five counts are 0.
 */
void foldzine_read_image(const uint8_t *image, size_t length, uint64_t told[10]);
void foldzine_read_routes(const uint8_t *routes, size_t length, uint64_t told[10]);

/* A number of four bytes in an image. */
static inline uint32_t foldzine_word(const uint8_t *bytes) {
    return bytes[0] | (uint32_t)bytes[1] << 8 | (uint32_t)bytes[2] << 16 | (uint32_t)bytes[3] << 24;
}

/* The tag of a step of a call list, over the route image that was accepted. */
static inline uint32_t foldzine_tag(const uint8_t *routes, uint64_t step) {
    const uint8_t *paths = routes + 4 + 20 * (size_t)foldzine_word(routes);
    const uint8_t *steps = paths + 4 + 13 * (size_t)foldzine_word(paths);
    return foldzine_word(steps + 4 + 9 * step + 1);
}

#ifdef __cplusplus
}
#endif

#endif
