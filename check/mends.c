/* mends: calls the service library on images of many kinds, in rooms of many sizes, and sees that
 * each is mended as request 8 says and that nothing else is changed. */
#include "command.h"
#include "service.h"

#include <stdlib.h>
#include <string.h>

static const char help[] =
    "FILE..\n"
    "Mends each file as an image, and images of its own: every value of every byte that may be\n"
    "changed, every length around the shortest and around the strings, every string index.\n"
    "Status 0: each was mended as it should be; 1: one was not; 2: bad usage, or a file that\n"
    "cannot be read or is too long.\n";

enum {
    SHORTEST = 0x89,
    LENGTH_MOST = 4096,
    ROOM_MOST = 100,
    AROUND = 8,
    BYTES = UINT8_MAX + 1,
    STRINGS_END = 2 * BYTES,
    STRING = 0x03
};

/* Each address where a byte may be changed. */
static const uint8_t listed[] = {0x10, 0x11, 0x22, 0x23, 0x2B, 0x2C, 0x2D,
                                 0x31, 0x32, 0x80, 0x81, 0x85, 0x86};

enum {
    LISTED = sizeof listed / sizeof *listed
};

/* An image as it is found. */
struct image {
    const char *name;
    size_t length;
    uint8_t bytes[LENGTH_MOST];
};

/* What is lent to a call, with marks around it: second bytes of a string's head, so that one who
 * looks beyond the end of an image finds a string there. */
struct lent {
    uint8_t image[AROUND + LENGTH_MOST + AROUND];
    uint32_t list[AROUND + ROOM_MOST + AROUND];
};

/* What a call leaves: all as it was found, or the changes made and listed. */
struct expected {
    struct lent found;
    struct lent mended;
    uint32_t count;
};

static uint8_t becomes(const struct image *image, size_t address);

/* The second byte of a head stands at an odd address, and so is no string index itself. */
static bool has_string(const struct image *image, uint8_t index) {
    size_t second = 2 * (size_t)index + 1;
    return second < image->length && becomes(image, second) == STRING;
}

/* What the byte at an address becomes, by the request. */
static uint8_t becomes(const struct image *image, size_t address) {
    uint8_t byte = image->bytes[address];
    switch (address) {
    case 0x10:
        return 0x12;
    case 0x11:
        return 0x01;
    case 0x22:
        return 0x0A;
    case 0x23:
        return 0x06;
    case 0x2B:
        return 0;
    case 0x2C:
    case 0x80:
        return 0x09;
    case 0x2D:
    case 0x81:
    case 0x31:
    case 0x85:
        return 0x02;
    case 0x32:
    case 0x86:
        return has_string(image, byte) ? byte : 0;
    default:
        return byte;
    }
}

static void expect(const struct image *image, struct expected *expected) {
    memset(&expected->found, STRING, sizeof expected->found);
    memcpy(expected->found.image + AROUND, image->bytes, image->length);
    expected->mended = expected->found;
    expected->count = 0;
    for (size_t address = 0; address < image->length; address++) {
        uint8_t old = image->bytes[address];
        uint8_t new = becomes(image, address);
        if (new == old)
            continue;
        expected->mended.image[AROUND + address] = new;
        expected->mended.list[AROUND + expected->count++] =
            (uint32_t)(address << 16) | (uint32_t)(old << 8) | new;
    }
}

static uint32_t mend(const struct image *image, struct lent *lent, size_t room) {
    return service_mend(lent->image + AROUND, image->length, lent->list + AROUND, room);
}

static bool same(const struct lent *one, const struct lent *other) {
    return memcmp(one, other, sizeof *one) == 0;
}

static bool mends_in(const struct image *image, const struct expected *expected, size_t room) {
    static struct lent lent;
    lent = expected->found;
    uint32_t outcome = mend(image, &lent, room);
    if (image->length < SHORTEST)
        return outcome == THRANDUE_SHORT_IMAGE && same(&lent, &expected->found);
    if (room < expected->count)
        return outcome == THRANDUE_CHANGE_ROOM && same(&lent, &expected->found);
    return outcome == (THRANDUE_DONE | expected->count << 8) && same(&lent, &expected->mended);
}

/* A mended image takes no change, and so no room; and by its list it becomes what was found. */
static bool goes_back(const struct image *image, const struct expected *expected) {
    static struct lent lent;
    lent = expected->mended;
    if (mend(image, &lent, 0) != THRANDUE_DONE || !same(&lent, &expected->mended))
        return false;
    for (uint32_t i = 0; i < expected->count; i++) {
        uint32_t change = lent.list[AROUND + i];
        uint8_t *byte = lent.image + AROUND + service_change_address(change);
        if (*byte != service_change_new(change))
            return false;
        *byte = service_change_old(change);
    }
    return memcmp(lent.image, expected->found.image, sizeof lent.image) == 0;
}

static bool mends_in_all(const struct image *image, const struct expected *expected) {
    for (size_t room = 0; room <= LISTED + 1; room++)
        if (!mends_in(image, expected, room))
            return false;
    return mends_in(image, expected, ROOM_MOST);
}

static bool mends(const struct image *image) {
    static struct expected expected;
    expect(image, &expected);
    if (mends_in_all(image, &expected) && (image->length < SHORTEST || goes_back(image, &expected)))
        return true;
    command_say("%s, %zu bytes, string indexes 0x%02X and 0x%02X: not mended as it should be",
                image->name, image->length, (unsigned)image->bytes[0x32],
                (unsigned)image->bytes[0x86]);
    return false;
}

/* All of one byte, but that the heads are right and name no string. */
static void make_good(struct image *image, size_t length, uint8_t filler) {
    image->length = length;
    memset(image->bytes, filler, sizeof image->bytes);
    image->bytes[0x32] = image->bytes[0x86] = 0;
    for (size_t i = 0; i < LISTED; i++)
        image->bytes[listed[i]] = becomes(image, listed[i]);
}

/* A good image, but for one of the listed bytes. */
static bool mends_each_byte(size_t length, uint8_t filler) {
    struct image image = {.name = "one byte of a good image"};
    make_good(&image, length, filler);
    for (size_t i = 0; i < LISTED; i++) {
        uint8_t *byte = image.bytes + listed[i];
        uint8_t good = *byte;
        for (unsigned value = 0; value < BYTES; value++) {
            *byte = (uint8_t)value;
            if (!mends(&image))
                return false;
        }
        *byte = good;
    }
    return true;
}

/* A good image, and one of a single byte. */
static bool mends_length(size_t length) {
    static const uint8_t fillers[] = {0x00, 0x02, STRING, 0x55, 0xFF};
    struct image image;
    for (size_t i = 0; i < sizeof fillers; i++) {
        image.name = "a good image";
        make_good(&image, length, fillers[i]);
        if (!mends(&image))
            return false;
        image.name = "an image of one byte";
        memset(image.bytes, fillers[i], sizeof image.bytes);
        if (!mends(&image))
            return false;
    }
    return true;
}

/* At one of the two addresses or at both; in a spoiled image with strings everywhere, in a good one
 * with one there, and in one with none. */
static bool mends_index(size_t length, uint8_t index) {
    struct image image = {.name = "a string index"};
    uint8_t *head = image.bytes + 2 * (size_t)index;
    for (unsigned which = 1; which <= 3; which++)
        for (unsigned strings = 0; strings < 3; strings++) {
            make_good(&image, length, strings == 0 ? STRING : 0x00);
            if (strings == 0)
                memset(image.bytes, STRING, SHORTEST);
            head[0] = STRING;
            head[1] = strings == 2 ? 0x13 : STRING;
            image.bytes[0x32] = which & 1 ? index : 0;
            image.bytes[0x86] = which & 2 ? index : 0;
            if (!mends(&image))
                return false;
        }
    return true;
}

/* Where its head is outside, half outside and inside, and in images that end elsewhere. */
static bool mends_index_at_ends(uint8_t index) {
    const size_t head = 2 * (size_t)index;
    const size_t lengths[] = {SHORTEST, head, head + 1, head + 2, head + 3, 2048};
    for (size_t i = 0; i < sizeof lengths / sizeof *lengths; i++)
        if (!mends_index(lengths[i], index))
            return false;
    return true;
}

/* Every value of both bytes of a string's head, one after the other. */
static bool mends_each_head(uint8_t index) {
    struct image image = {.name = "the head of a string"};
    uint8_t *head = image.bytes + 2 * (size_t)index;
    for (unsigned value = 0; value < 2 * BYTES; value++) {
        make_good(&image, STRINGS_END, 0x00);
        image.bytes[0x32] = image.bytes[0x86] = index;
        head[1] = STRING;
        head[value / BYTES] = (uint8_t)value;
        if (!mends(&image))
            return false;
    }
    return true;
}

static bool mends_its_own(void) {
    for (size_t length = 0; length <= STRINGS_END + 16; length++)
        if (!mends_length(length))
            return false;
    for (unsigned index = 0; index < BYTES; index++)
        if (!mends_index_at_ends((uint8_t)index))
            return false;
    return mends_length(2048) && mends_length(LENGTH_MOST) && mends_each_byte(SHORTEST, 0x00) &&
           mends_each_byte(SHORTEST, STRING) && mends_each_byte(STRINGS_END, STRING) &&
           mends_each_head(0x49) && mends_each_head(0x44) && mends_each_head(0x43) &&
           mends_each_head(0x12);
}

static int look_at(const char *name) {
    struct image image = {.name = name};
    struct command_file file;
    if (!command_read(name, &file))
        return EXIT_MISUSED;
    bool fits = file.length <= LENGTH_MOST;
    image.length = fits ? file.length : 0;
    if (image.length != 0)
        memcpy(image.bytes, file.bytes, image.length);
    free(file.bytes);
    if (fits)
        return mends(&image) ? EXIT_FINE : EXIT_REFUSED;
    command_say("%s: has more than %d bytes", name, LENGTH_MOST);
    return EXIT_MISUSED;
}

int main(int argc, char **argv) {
    int status = EXIT_FINE;
    command_begin(argv[0]);
    if (argc == 2 && strcmp(argv[1], "--help") == 0)
        return command_help(help);
    if (argc < 2 || command_is_option(argv[1]))
        return command_misused("an image is needed");
    for (char **name = argv + 1; *name != NULL && status == EXIT_FINE; name++)
        status = look_at(*name);
    if (status == EXIT_FINE && !mends_its_own())
        status = EXIT_REFUSED;
    return command_end(status);
}
