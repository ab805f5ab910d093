/* What the host programs share at the command line: messages, exit statuses, numbers, files. */
#ifndef COMMAND_H
#define COMMAND_H

#include <stdbool.h>
#include <stddef.h>
#include <stdint.h>
#include <stdio.h>
#include <sys/types.h>

enum {
    EXIT_FINE = 0,
    EXIT_REFUSED = 1,
    EXIT_MISUSED = 2
};

/* Names the program in every message, by the path that it was run by; to be called first. */
void command_begin(const char *path);

/* Both say "PROGRAM: MESSAGE" on standard error; misused also points at --help and returns
 * EXIT_MISUSED. */
void command_say(const char *format, ...);
int command_misused(const char *format, ...);

/* What a pair of hexadecimal digits counts, -1 for anything else. */
int command_pair(const char *text);

/* Decimal, or hexadecimal after 0x, from 0 to most. */
bool command_number(const char *text, uint64_t most, uint64_t *number);

/* Whether it starts with - and is not the - for standard input. */
bool command_is_option(const char *argument);

/* What an option takes, from the arguments behind it, which then go on behind that: a size; any
 * number of 64 bits, one that 32 bits cannot hold as the largest that they can; or the name of a
 * file, which does not start with -. Each ends the program where it is not there. */
size_t command_size_after(char ***arguments, const char *option);
uint32_t command_number_after(char ***arguments, const char *option);
const char *command_file_after(char ***arguments, const char *option);

/* "-" is standard input. NULL, and a message, where the file cannot be opened. */
FILE *command_open(const char *name);

/* A room exactly as large as asked, so that the address sanitizer sees a step beyond it, and NULL
 * where that is 0; for the caller to free. Ends the program where there is none. */
void *command_room(size_t bytes);

/* A whole file, in such a room, and which one it is, whatever its name. */
struct command_file {
    uint8_t *bytes;
    size_t length;
    dev_t device;
    ino_t inode;
};

/* Both say what is wrong and return false where the file cannot be read or written; of one that is
 * read, "-" is standard input. */
bool command_read(const char *name, struct command_file *file);
bool command_write(const char *name, const uint8_t *bytes, size_t count);

/* Whether this is a name, by whatever links, of the file that was read. */
bool command_names(const char *name, const struct command_file *file);

/* Prints the program's name and the text of --help, which goes on from it, and returns the status
 * to end with. */
int command_help(const char *text);

/* The status itself, or a message and EXIT_MISUSED where standard output was not written. */
int command_end(int status);

#endif
