/*
 * hops IMAGE ROUTES: builds the graph of a sequence image, adds the routes of a
 * route image, and prints the hops as the chart does.
 *
 *     cc -O2 -I. examples/hops.c ../crates/export/out/libexport.a -o hops
 */
#include <inttypes.h>
#include <stdio.h>

#include "foldzine.h"

/* One byte more than the greatest image: more is refused by that byte. */
#define MOST 42701

struct file {
    uint8_t bytes[MOST];
    size_t length;
};

static int read_file(const char *path, struct file *out) {
    FILE *file = fopen(path, "rb");
    if (!file) {
        perror(path);
        return 0;
    }
    out->length = fread(out->bytes, 1, MOST, file);
    fclose(file);
    return 1;
}

static int refused(foldzine_answer answer) {
    if (answer.number != 0) {
        printf("refused %" PRIu64 " %" PRIu64 " %" PRIu64 "\n", answer.number, answer.first, answer.second);
    }
    return answer.number != 0;
}

static void print_list(const uint64_t *hop, const uint64_t *list, const uint8_t *routes) {
    printf("hop %" PRIu64 " ", hop[0]);
    if (hop[1]) {
        printf("%" PRIu64, hop[2]);
    } else {
        printf("leave");
    }
    for (uint64_t i = 0; i < list[1]; i++) {
        printf(" %" PRIu32, foldzine_tag(routes, list[0] + i));
    }
    puts(list[1] ? "" : " -");
}

int main(int count, char **names) {
    static struct file image, routes;
    static uint64_t words[FOLDZINE_WORDS], hops[FOLDZINE_HOP_WORDS];
    if (count != 3 || !read_file(names[1], &image) || !read_file(names[2], &routes)) {
        return 1;
    }
    if (refused(foldzine_build(image.bytes, image.length, words)) ||
        refused(foldzine_add_routes(words, routes.bytes, routes.length, hops))) {
        return 0;
    }
    printf("built %" PRIu64 " blocks, %" PRIu64 " edges, %" PRIu64 " reached\n", words[FOLDZINE_BLOCKS],
           words[FOLDZINE_EDGES], foldzine_reached(words).count);
    for (uint64_t i = 0; i < hops[FOLDZINE_HOPS]; i++) {
        const uint64_t *hop = &hops[FOLDZINE_HOP_BASE + FOLDZINE_HOP_WIDTH * i];
        for (uint64_t k = hop[3]; k < hop[3] + hop[4]; k++) {
            print_list(hop, &hops[FOLDZINE_LIST_BASE + FOLDZINE_LIST_WIDTH * k], routes.bytes);
        }
    }
    return 0;
}
