/*
 * The fuzz target. What is lent to the proved functions stands between pages
 * that cannot be touched: a read or a write past an end traps at once. The Rust
 * side (src/lib.rs) builds and adds on both sides and compares every word.
 *
 * An input is: how many patches, from 0 to 3; each patch a word's number (2
 * bytes) and its value (8); the length of a route image (2 bytes); that route
 * image; the sequence image. The image is built, in modes 1 and 2 its routes
 * are added, by one call and by two, the patches are put into the graph's words, and the route image is
 * added.
 */
#include <stdint.h>
#include <stdio.h>
#include <stdlib.h>
#include <string.h>
#include <sys/mman.h>
#include <unistd.h>

#include "../foldzine/foldzine.h"

#define PATCH 10
/* More than the greatest image. */
#define MOST 65536

struct strings {
    const uint8_t *image, *routes, *patches;
    size_t image_length, routes_length, patch_count;
};

void *compare_new(uint64_t *words, uint64_t *hops);
int compare_one(void *state, const struct strings *input);
size_t compare_mutate(struct strings *input, uint8_t *out, size_t most, unsigned seed);
size_t LLVMFuzzerMutate(uint8_t *data, size_t size, size_t most);

/* A region whose last byte stands before a page that cannot be touched. */
struct guarded {
    uint8_t *begin, *end;
};

static struct guarded image_bytes, route_bytes, graph_words, hop_words;
static void *state;

static struct guarded guard(size_t length) {
    size_t page = (size_t)sysconf(_SC_PAGESIZE);
    size_t inner = (length + page - 1) / page * page;
    uint8_t *at = mmap(NULL, inner + 2 * page, PROT_NONE, MAP_PRIVATE | MAP_ANONYMOUS, -1, 0);
    if (at == MAP_FAILED || mprotect(at + page, inner, PROT_READ | PROT_WRITE) != 0) {
        perror("guard");
        exit(1);
    }
    memset(at + page, 0xa5, inner);
    return (struct guarded){at + page, at + page + inner};
}

/* Whether the bytes of a region before its last `length` are as they were. */
static int slack_kept(struct guarded region, size_t length) {
    for (const uint8_t *at = region.begin; at < region.end - length; at++) {
        if (*at != 0xa5) {
            return 0;
        }
    }
    return 1;
}

/* Copies a string to the end of a region. */
static const uint8_t *lend(struct guarded region, const uint8_t *bytes, size_t length) {
    return memcpy(region.end - length, bytes, length);
}

/* Takes an input apart; what is missing is empty. */
static struct strings take_apart(const uint8_t *data, size_t size) {
    struct strings input = {0};
    size_t head = 1;
    if (size < 3) {
        return input;
    }
    input.patch_count = data[0] % 4;
    while (head + input.patch_count * PATCH + 2 > size) {
        input.patch_count--;
    }
    input.patches = data + head;
    head += input.patch_count * PATCH;
    input.routes_length = data[head] | (size_t)data[head + 1] << 8;
    head += 2;
    if (input.routes_length > size - head) {
        input.routes_length = size - head;
    }
    input.routes = data + head;
    input.image = input.routes + input.routes_length;
    input.image_length = size - head - input.routes_length;
    return input;
}

int LLVMFuzzerInitialize(int *count, char ***names) {
    (void)count;
    (void)names;
    image_bytes = guard(MOST);
    route_bytes = guard(MOST);
    graph_words = guard(FOLDZINE_WORDS * 8);
    hop_words = guard(FOLDZINE_HOP_WORDS * 8);
    state = compare_new((uint64_t *)graph_words.end - FOLDZINE_WORDS, (uint64_t *)hop_words.end - FOLDZINE_HOP_WORDS);
    return 0;
}

int LLVMFuzzerTestOneInput(const uint8_t *data, size_t size) {
    if (size < 3 || size > MOST) {
        return -1;
    }
    struct strings input = take_apart(data, size);
    input.image = lend(image_bytes, input.image, input.image_length);
    input.routes = lend(route_bytes, input.routes, input.routes_length);
    if (!compare_one(state, &input)) {
        fputs("the two sides differ\n", stderr);
        abort();
    }
    if (!slack_kept(graph_words, FOLDZINE_WORDS * 8) || !slack_kept(hop_words, FOLDZINE_HOP_WORDS * 8)) {
        fputs("words before those that were lent have changed\n", stderr);
        abort();
    }
    return 0;
}

/* Half of the mutants keep the form of the images, so that more of them are accepted. */
size_t LLVMFuzzerCustomMutator(uint8_t *data, size_t size, size_t most, unsigned seed) {
    if (seed % 2 == 0) {
        return LLVMFuzzerMutate(data, size, most);
    }
    static uint8_t out[MOST];
    struct strings input = take_apart(data, size);
    size_t length = compare_mutate(&input, out, most < MOST ? most : MOST, seed);
    memcpy(data, out, length);
    return length;
}
