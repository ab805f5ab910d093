/* service: the tools of field service, through the library it is linked with: reads and writes
 * stores, mends images of a memory part. */
#include "service.h"

#include "command.h"

#include <stdio.h>
#include <stdlib.h>
#include <string.h>

static const char help[] =
    "read FILE | write BYTES [--page N] [-o FILE] [--room N] |\n"
    "        mend IMAGE [-o FILE] [--room N]\n"
    "Reads and writes settings stores: a store is a file that keeps the settings of a dock, with\n"
    "which the dock can be powered on again. Mends images of a dock's memory part. The first line\n"
    "printed is the answer's number, 0 where all is well.\n"
    "  read FILE       prints the settings of a store: in hex the fourteen bytes for\n"
    "                  configuration addresses 2 to F, and on the next line 'page' and the bytes\n"
    "                  in a page of the dock's memory part. FILE may be -, for standard input\n"
    "  write BYTES     prints the store of these settings in hex. BYTES are the fourteen bytes in\n"
    "                  hex, in one argument, with blanks between them or without: as read prints\n"
    "                  them, or as the dock replies where configuration addresses 2 to F are read\n"
    "  mend IMAGE      sets the bytes of the descriptor heads that allow one value only, and to 0\n"
    "                  the string index of a configuration that names no string there; prints\n"
    "                  each change on a line of its own, in hex: the address, rising, the old\n"
    "                  byte and the new one. IMAGE is a file of the memory's bytes from address 0\n"
    "                  on, 137 or more, and stays as it is; - is standard input\n"
    "  --page N        write: bytes in a page of the memory part, 32, 64, 128 or 256 (256);\n"
    "                  another number is taken as 32\n"
    "  -o FILE         write: the store is written to this file too\n"
    "                  mend: the mended image is, which never goes over the one that was read\n"
    "  --room N        write: lends N bytes of room at the most; the store takes 19\n"
    "                  mend: lends room for N changes at the most; an image takes up to 13\n"
    "  --help          this text\n"
    "Any other number refuses, and nothing else is printed or written:\n"
    "  20              read: the store is cut, it ends within a record\n"
    "  21              read: it has a record of a kind that this edition does not know\n"
    "  22              read: it has a record whose length is wrong for its kind\n"
    "  23              read: it is empty, there is no record\n"
    "  24              mend: the image is too short, it has less than 137 bytes\n"
    "  25              mend: room for fewer changes than the image takes\n"
    "  29              write: less room than the store takes\n"
    "Status 0: the number is 0; 1: it is another; 2: bad usage, or a file that cannot be read or\n"
    "written.\n";

enum {
    PAGE_UNLESS_GIVEN = 256,
    OPTIONS_MOST = 3
};

/* What stands behind a command. */
struct arguments {
    const char *word;
    uint32_t page;
    const char *output; /* NULL for none */
    size_t room;        /* the most that is lent */
};

struct command {
    const char *name;
    const char *takes;
    const char *options[OPTIONS_MOST + 1]; /* ends in NULL */
    int (*run)(const struct arguments *arguments);
};

static size_t least(size_t one, size_t other) {
    return one < other ? one : other;
}

/* Tells the answer, and returns the status to end with. The file first, where one is wanted: where
 * it cannot be written, nothing is told as done. */
static int tell(uint8_t answer, const char *output, const uint8_t *bytes, size_t count) {
    if (answer == THRANDUE_DONE && output != NULL && !command_write(output, bytes, count))
        return EXIT_MISUSED;
    printf("%u\n", (unsigned)answer);
    return answer == THRANDUE_DONE ? EXIT_FINE : EXIT_REFUSED;
}

static void print_bytes(const uint8_t *bytes, size_t count) {
    for (size_t i = 0; i < count; i++)
        printf("%02X%c", (unsigned)bytes[i], i + 1 < count ? ' ' : '\n');
}

static void print_changes(const uint32_t *list, size_t count) {
    for (size_t i = 0; i < count; i++)
        printf("%04X %02X %02X\n", (unsigned)service_change_address(list[i]),
               (unsigned)service_change_old(list[i]), (unsigned)service_change_new(list[i]));
}

/* Exactly so many bytes, with blanks between them or without. */
static bool read_bytes(const char *text, uint8_t *bytes, size_t count) {
    for (size_t i = 0; i < count; i++) {
        text += strspn(text, " \t");
        int pair = command_pair(text);
        if (pair < 0)
            return false;
        bytes[i] = (uint8_t)pair;
        text += 2;
    }
    return text[strspn(text, " \t")] == '\0';
}

static int read_store(const struct arguments *arguments) {
    struct command_file store;
    uint8_t bytes[SERVICE_BYTES];
    uint32_t page;
    if (!command_read(arguments->word, &store))
        return EXIT_MISUSED;
    uint8_t answer = service_read(store.bytes, store.length, bytes, &page);
    free(store.bytes);
    int status = tell(answer, NULL, NULL, 0);
    if (status == EXIT_FINE) {
        print_bytes(bytes, sizeof bytes);
        printf("page %lu\n", (unsigned long)page);
    }
    return status;
}

static int write_store(const struct arguments *arguments) {
    uint8_t bytes[SERVICE_BYTES];
    if (!read_bytes(arguments->word, bytes, sizeof bytes))
        return command_misused("'%s' is not fourteen bytes in hex", arguments->word);
    size_t length = least(arguments->room, SERVICE_RECORD_LENGTH);
    uint8_t *room = command_room(length);
    uint32_t outcome = service_write(bytes, arguments->page, room, length);
    uint32_t count = thrandue_count(outcome);
    int status = tell(thrandue_answer(outcome), arguments->output, room, count);
    if (status == EXIT_FINE)
        print_bytes(room, count);
    free(room);
    return status;
}

static int mend(const struct arguments *arguments, struct command_file *image) {
    const char *output = arguments->output;
    if (output != NULL && command_names(output, image))
        return command_misused("%s is the image that was read, which stays as it is", output);
    size_t length = least(arguments->room, SERVICE_CHANGES_MOST);
    uint32_t *list = command_room(length * sizeof *list);
    uint32_t outcome = service_mend(image->bytes, image->length, list, length);
    int status = tell(thrandue_answer(outcome), output, image->bytes, image->length);
    if (status == EXIT_FINE)
        print_changes(list, thrandue_count(outcome));
    free(list);
    return status;
}

static int mend_image(const struct arguments *arguments) {
    struct command_file image;
    if (!command_read(arguments->word, &image))
        return EXIT_MISUSED;
    int status = mend(arguments, &image);
    free(image.bytes);
    return status;
}

static const struct command commands[] = {
    {"read", "one FILE", {NULL}, read_store},
    {"write", "BYTES, in one argument", {"--page", "-o", "--room"}, write_store},
    {"mend", "one IMAGE", {"-o", "--room"}, mend_image},
};

static const struct command *named_command(const char *name) {
    for (size_t i = 0; i < sizeof commands / sizeof *commands; i++)
        if (strcmp(commands[i].name, name) == 0)
            return &commands[i];
    return NULL;
}

static bool has_option(const struct command *command, const char *argument) {
    const char *const *option = command->options;
    while (*option != NULL && strcmp(*option, argument) != 0)
        option++;
    return *option != NULL;
}

/* Takes an option's value from the arguments behind it. */
static void take_option(struct arguments *arguments, const char *option, char ***rest) {
    if (strcmp(option, "-o") == 0)
        arguments->output = command_file_after(rest, option);
    else if (strcmp(option, "--room") == 0)
        arguments->room = command_size_after(rest, option);
    else
        arguments->page = command_number_after(rest, option);
}

/* Ends the program where they are not what the command takes, and after --help. */
static struct arguments arguments_of(const struct command *command, char **rest) {
    struct arguments arguments = {.page = PAGE_UNLESS_GIVEN, .room = SIZE_MAX};
    const char *argument;
    while ((argument = *rest) != NULL) {
        rest++;
        if (strcmp(argument, "--help") == 0)
            exit(command_help(help));
        if (has_option(command, argument))
            take_option(&arguments, argument, &rest);
        else if (command_is_option(argument))
            exit(command_misused("%s has no option %s", command->name, argument));
        else if (arguments.word != NULL)
            exit(command_misused("'%s' is too many: %s takes %s", argument, command->name,
                                 command->takes));
        else
            arguments.word = argument;
    }
    if (arguments.word == NULL)
        exit(command_misused("%s takes %s", command->name, command->takes));
    return arguments;
}

int main(int argc, char **argv) {
    command_begin(argv[0]);
    if (argc < 2)
        return command_misused("read or write is needed");
    if (strcmp(argv[1], "--help") == 0)
        return command_help(help);
    const struct command *command = named_command(argv[1]);
    if (command == NULL)
        return command_misused("%s is neither read nor write", argv[1]);
    struct arguments arguments = arguments_of(command, argv + 2);
    return command_end(command->run(&arguments));
}
