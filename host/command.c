/* What the host programs share at the command line: messages, exit statuses, numbers, files. */
#define _POSIX_C_SOURCE 200809L
#include "command.h"

#include <errno.h>
#include <inttypes.h>
#include <stdarg.h>
#include <stdlib.h>
#include <string.h>
#include <sys/stat.h>

enum {
    SIZE_MOST = 1000000,
    BLOCK = 65536
};

static const char *program_name = "";

void command_begin(const char *path) {
    const char *slash = strrchr(path, '/');
    program_name = slash == NULL ? path : slash + 1;
}

static void say(const char *format, va_list arguments) {
    fprintf(stderr, "%s: ", program_name);
    vfprintf(stderr, format, arguments);
    fputc('\n', stderr);
}

void command_say(const char *format, ...) {
    va_list arguments;
    va_start(arguments, format);
    say(format, arguments);
    va_end(arguments);
}

int command_misused(const char *format, ...) {
    va_list arguments;
    va_start(arguments, format);
    say(format, arguments);
    va_end(arguments);
    fprintf(stderr, "%s --help explains\n", program_name);
    return EXIT_MISUSED;
}

static int digit_of(char letter) {
    if (letter >= '0' && letter <= '9')
        return letter - '0';
    if (letter >= 'A' && letter <= 'F')
        return letter - 'A' + 10;
    if (letter >= 'a' && letter <= 'f')
        return letter - 'a' + 10;
    return -1;
}

int command_pair(const char *text) {
    int high = digit_of(text[0]);
    int low = high < 0 ? -1 : digit_of(text[1]);
    return low < 0 ? -1 : high * 16 + low;
}

bool command_number(const char *text, uint64_t most, uint64_t *number) {
    unsigned base = 10;
    if (text[0] == '0' && text[1] == 'x') {
        base = 16;
        text += 2;
    }
    uint64_t sum = 0;
    if (*text == '\0')
        return false;
    for (; *text != '\0'; text++) {
        int digit = digit_of(*text);
        if (digit < 0 || (unsigned)digit >= base || sum > (UINT64_MAX - (unsigned)digit) / base)
            return false;
        sum = sum * base + (unsigned)digit;
    }
    *number = sum;
    return sum <= most;
}

bool command_is_option(const char *argument) {
    return argument[0] == '-' && argument[1] != '\0';
}

static uint64_t number_after(char ***arguments, const char *option, uint64_t most) {
    uint64_t number;
    if (**arguments == NULL || !command_number(*(*arguments)++, most, &number))
        exit(command_misused("%s takes a number from 0 to %" PRIu64, option, most));
    return number;
}

size_t command_size_after(char ***arguments, const char *option) {
    return (size_t)number_after(arguments, option, SIZE_MOST);
}

uint32_t command_number_after(char ***arguments, const char *option) {
    uint64_t number = number_after(arguments, option, UINT64_MAX);
    return number < UINT32_MAX ? (uint32_t)number : UINT32_MAX;
}

const char *command_file_after(char ***arguments, const char *option) {
    if (**arguments == NULL || ***arguments == '-')
        exit(command_misused("%s takes the name of a file", option));
    return *(*arguments)++;
}

static FILE *open_to(const char *mode, const char *name) {
    FILE *file = fopen(name, mode);
    if (file == NULL)
        command_say("%s: %s", name, strerror(errno));
    return file;
}

FILE *command_open(const char *name) {
    return strcmp(name, "-") == 0 ? stdin : open_to("rb", name);
}

/* In place of another room, with as much of what it held; NULL is none. */
static void *resized(void *room, size_t bytes) {
    if (bytes == 0) {
        free(room);
        return NULL;
    }
    room = realloc(room, bytes);
    if (room == NULL) {
        command_say("no room for %zu bytes", bytes);
        exit(EXIT_MISUSED);
    }
    return room;
}

void *command_room(size_t bytes) {
    return resized(NULL, bytes);
}

static struct command_file read_all(FILE *from) {
    struct command_file all = {0};
    size_t room = 0;
    while (!feof(from) && !ferror(from)) {
        if (all.length == room) {
            room = 2 * room + BLOCK;
            all.bytes = resized(all.bytes, room);
        }
        all.length += fread(all.bytes + all.length, 1, room - all.length, from);
    }
    all.bytes = resized(all.bytes, all.length);
    return all;
}

bool command_read(const char *name, struct command_file *file) {
    struct stat status;
    FILE *from = command_open(name);
    if (from == NULL)
        return false;
    *file = read_all(from);
    bool failed = ferror(from) || fstat(fileno(from), &status) != 0;
    fclose(from);
    if (!failed) {
        file->device = status.st_dev;
        file->inode = status.st_ino;
        return true;
    }
    command_say("%s: cannot be read", name);
    free(file->bytes);
    return false;
}

bool command_write(const char *name, const uint8_t *bytes, size_t count) {
    FILE *to = open_to("wb", name);
    if (to == NULL)
        return false;
    bool written = fwrite(bytes, 1, count, to) == count;
    if (fclose(to) == 0 && written)
        return true;
    command_say("%s: could not be written", name);
    return false;
}

bool command_names(const char *name, const struct command_file *file) {
    struct stat status;
    return stat(name, &status) == 0 && status.st_dev == file->device &&
           status.st_ino == file->inode;
}

int command_end(int status) {
    if (fflush(stdout) == 0 && !ferror(stdout))
        return status;
    command_say("standard output could not be written");
    return EXIT_MISUSED;
}

int command_help(const char *text) {
    printf("%s %s", program_name, text);
    return command_end(EXIT_FINE);
}
