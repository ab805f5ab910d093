/* images: writes an image of a memory part from a seed, steered towards the edges of request 8. */
#include "command.h"
#include "random.h"

#include <stdio.h>
#include <string.h>

static const char help[] = "SEED\n"
                           "Writes an image of a memory part to standard output, for a seed the\n"
                           "same everywhere: of none to 4,096 bytes, good and spoiled.\n"
                           "Status 2: bad usage, or standard output that cannot be written.\n";

enum {
    SHORTEST = 0x89,
    STRINGS_END = 0x200,
    LENGTH_MOST = 4096,
    STRING = 0x03
};

/* A byte of a descriptor head that allows one value only. */
struct fixed {
    uint8_t address;
    uint8_t value;
};

static const struct fixed fixed[] = {
    {0x10, 0x12}, {0x11, 0x01}, {0x22, 0x0A}, {0x23, 0x06}, {0x2B, 0x00}, {0x2C, 0x09},
    {0x2D, 0x02}, {0x31, 0x02}, {0x80, 0x09}, {0x81, 0x02}, {0x85, 0x02},
};

static const uint8_t index_addresses[] = {0x32, 0x86};

enum {
    FIXED = sizeof fixed / sizeof *fixed,
    INDEXES = sizeof index_addresses / sizeof *index_addresses
};

/* All of the bytes are drawn, and as many as the length says are written. */
struct image {
    struct random random;
    size_t length;
    uint8_t bytes[LENGTH_MOST];
};

/* Too short, around the shortest, around the ends of the last strings, anywhere between, and around
 * what a bridge counts of a memory part. */
static size_t draw_length(struct random *random) {
    static const uint8_t too_short[] = {0, 1, 0x11, 0x33, 0x80, 0x87, 0x88, 0x88};
    static const uint16_t edges[] = {0x89, 0x89,  0x89,  0x8A,  0x8A,  0x8B,
                                     0x8C, 0x1FD, 0x1FE, 0x1FF, 0x200, 0x201};
    static const uint16_t parts[] = {256, 1024, 2047, 2048, 2049, 4096};
    uint32_t what = below(random, 100);
    if (what < 12)
        return PICK(random, too_short);
    if (what < 50)
        return PICK(random, edges);
    if (what < 85)
        return SHORTEST + below(random, STRINGS_END - SHORTEST);
    return PICK(random, parts);
}

/* Any bytes, an erased part, or what would be a string's head anywhere. */
static void draw_bytes(struct image *image) {
    uint32_t what = below(&image->random, 100);
    if (what < 60)
        fill(&image->random, image->bytes, sizeof image->bytes);
    else
        memset(image->bytes, what < 80 ? 0xFF : STRING, sizeof image->bytes);
}

/* Set right, but for as many as are to be left as they were drawn; then perhaps one with a bit
 * turned over. */
static void set_fixed(struct image *image) {
    static const uint8_t percents[] = {0, 0, 0, 20, 50, 70, 80, 100};
    uint32_t left = PICK(&image->random, percents);
    for (size_t i = 0; i < FIXED; i++)
        if (!chance(&image->random, left))
            image->bytes[fixed[i].address] = fixed[i].value;
    if (chance(&image->random, 30)) {
        uint8_t address = PICK(&image->random, fixed).address;
        image->bytes[address] ^= (uint8_t)(1 << below(&image->random, 8));
    }
}

/* None, one whose second head byte is among the fixed ones, one around the image's end, or any. */
static uint8_t draw_index(struct image *image) {
    static const uint8_t into_fixed[] = {0x08, 0x11, 0x15, 0x16, 0x18, 0x40, 0x42};
    uint32_t what = below(&image->random, 100);
    if (what < 25)
        return 0;
    if (what < 40)
        return PICK(&image->random, into_fixed);
    if (what < 75)
        return (uint8_t)(image->length / 2 - 2 + below(&image->random, 4));
    return (uint8_t)draw(&image->random);
}

/* The two bytes at twice the index, the second right more often than not. */
static void draw_head(struct image *image, uint8_t index) {
    static const uint8_t types[] = {3, 3, 3, 3, 3, 3, 3, 3, 0x00, 0x02, 0x06, 0x13, 0x83, 0xFF};
    uint8_t *head = image->bytes + 2 * (size_t)index;
    head[0] = chance(&image->random, 50) ? STRING : (uint8_t)draw(&image->random);
    head[1] = PICK(&image->random, types);
}

/* At times a head is left as it is, so that one among the fixed bytes may be right. An index may
 * stand where the other one's head does, and so they come last. */
static void draw_indexes(struct image *image) {
    uint8_t indexes[INDEXES];
    for (size_t i = 0; i < INDEXES; i++) {
        indexes[i] = draw_index(image);
        if (chance(&image->random, 70))
            draw_head(image, indexes[i]);
    }
    for (size_t i = 0; i < INDEXES; i++)
        image->bytes[index_addresses[i]] = indexes[i];
}

static void compose(struct image *image) {
    image->length = draw_length(&image->random);
    draw_bytes(image);
    if (chance(&image->random, 10))
        return;
    set_fixed(image);
    draw_indexes(image);
}

int main(int argc, char **argv) {
    static struct image image;
    command_begin(argv[0]);
    if (argc == 2 && strcmp(argv[1], "--help") == 0)
        return command_help(help);
    if (argc != 2 || !command_number(argv[1], UINT64_MAX, &image.random.state))
        return command_misused("one number is needed, the seed");
    compose(&image);
    fwrite(image.bytes, 1, image.length, stdout);
    return command_end(EXIT_FINE);
}
