/* session: turns sessions from text, one event a line, into the bench's records, and back. */
#include "command.h"
#include "record.h"

#include <stdio.h>
#include <string.h>

static const char help[] =
    "encode|decode [FILE]\n"
    "Turns a session from text into records, or from records into text. Without FILE, or for -,\n"
    "it reads standard input. sessions/README.md describes the text.\n"
    "Status 0: all is written; 1: a line that cannot be read, named by its number, or a torn\n"
    "session; 2: bad usage, or a file that cannot be read or written.\n";

enum {
    LINE_MOST = 4096,
    OWN_MOST = 31,
    SETUP = 8,
    PACKET = 31,
    BEFORE_BLOCK = 15,
    REPEATED_LEAST = 9
};

struct word {
    const char *name;
    uint32_t value;
};

enum use {
    NEEDED,  /* always written */
    SPARED,  /* left out where the form's own bytes say the same */
    COUNTED, /* left out where it is the number of bytes at the end */
};

enum base {
    DECIMAL,
    HEX,
};

/* A number of 1, 2 or 4 bytes, low byte first. */
struct field {
    const char *name;
    uint8_t offset;
    uint8_t width;
    enum use use;
    enum base base;
    const struct word *words;
};

/* One way to write an event: its own bytes, fields laid over them, and where the tail has a name
 * any number of bytes at the end. */
struct form {
    const char *name;
    uint16_t kind;
    uint16_t length;
    uint8_t own[OWN_MOST];
    const struct field *fields;
    const char *tail;
};

static const struct word flag_words[] = {{"out", 0x00}, {"in", 0x80}, {NULL, 0}};
static const struct word descriptor_words[] = {
    {"device", 1}, {"configuration", 2}, {"string", 3}, {"qualifier", 6}, {NULL, 0}};
static const struct word pipe_words[] = {{"out", 0x01}, {"in", 0x82}, {NULL, 0}};
static const struct word report_words[] = {{"none", 0}, {"in", 1}, {"out", 2}, {NULL, 0}};
static const struct word failed_words[] = {{"no", 0}, {"yes", 1}, {NULL, 0}};

static const struct field no_fields[] = {{0}};

static const struct field configuration_fields[] = {
    {"value", 2, 2, NEEDED, DECIMAL, NULL},
    {0},
};

static const struct field descriptor_fields[] = {
    {"type", 3, 1, NEEDED, HEX, descriptor_words},
    {"index", 2, 1, SPARED, DECIMAL, NULL},
    {"language", 4, 2, SPARED, HEX, NULL},
    {"length", 6, 2, NEEDED, DECIMAL, NULL},
    {0},
};

static const struct field pipe_fields[] = {
    {"pipe", 4, 2, NEEDED, HEX, pipe_words},
    {0},
};

static const struct field load_fields[] = {
    {"place", 2, 2, NEEDED, HEX, NULL},
    {"start", 4, 2, NEEDED, HEX, NULL},
    {"length", 6, 2, COUNTED, DECIMAL, NULL},
    {0},
};

static const struct field read_fields[] = {
    {"place", 2, 2, NEEDED, HEX, NULL},
    {"start", 4, 2, NEEDED, HEX, NULL},
    {"length", 6, 2, NEEDED, DECIMAL, NULL},
    {0},
};

static const struct field bogus_fields[] = {
    {"value", 2, 2, SPARED, HEX, NULL},
    {"index", 4, 2, SPARED, HEX, NULL},
    {"length", 6, 2, NEEDED, DECIMAL, NULL},
    {0},
};

static const struct field request_fields[] = {
    {"type", 0, 1, NEEDED, HEX, NULL},       {"code", 1, 1, NEEDED, HEX, NULL},
    {"value", 2, 2, NEEDED, HEX, NULL},      {"index", 4, 2, NEEDED, HEX, NULL},
    {"length", 6, 2, NEEDED, DECIMAL, NULL}, {0},
};

static const struct field command_fields[] = {
    {"tag", 4, 4, NEEDED, HEX, NULL},
    {"length", 8, 4, NEEDED, DECIMAL, NULL},
    {"direction", 12, 1, NEEDED, HEX, flag_words},
    {"lun", 13, 1, SPARED, HEX, NULL},
    {"action", 17, 1, NEEDED, HEX, NULL},
    {"select", 18, 1, NEEDED, HEX, NULL},
    {"byte4", 19, 1, SPARED, HEX, NULL},
    {"r0", 20, 1, SPARED, HEX, NULL},
    {"r1", 21, 1, SPARED, HEX, NULL},
    {"r2", 22, 1, SPARED, HEX, NULL},
    {"r3", 23, 1, SPARED, HEX, NULL},
    {"r4", 24, 1, SPARED, HEX, NULL},
    {"r5", 25, 1, SPARED, HEX, NULL},
    {"r6", 26, 1, SPARED, HEX, NULL},
    {"r7", 27, 1, SPARED, HEX, NULL},
    {0},
};

static const struct field packet_fields[] = {
    {"tag", 4, 4, NEEDED, HEX, NULL},
    {"length", 8, 4, NEEDED, DECIMAL, NULL},
    {"direction", 12, 1, NEEDED, HEX, flag_words},
    {"lun", 13, 1, SPARED, HEX, NULL},
    {"size", 14, 1, SPARED, DECIMAL, NULL},
    {0},
};

static const struct field report_fields[] = {
    {"direction", 0, 1, NEEDED, DECIMAL, report_words},
    {"failed", 1, 1, NEEDED, DECIMAL, failed_words},
    {"amount", 2, 4, NEEDED, DECIMAL, NULL},
    {0},
};

#define SIGNATURE 0x55, 0x53, 0x42, 0x43
#define PACKET_FRONT SIGNATURE, 0, 0, 0, 0, 0, 0, 0, 0, 0, 0, 16

/* Decoding takes the first that fits; the last of each kind takes any bytes. */
static const struct form forms[] = {
    {"bus-reset", RECORD_BUS_RESET, 0, {0}, no_fields, NULL},
    {"set-configuration", RECORD_CONTROL, SETUP, {0x00, 0x09}, configuration_fields, NULL},
    {"get-configuration", RECORD_CONTROL, SETUP, {0x80, 0x08, 0, 0, 0, 0, 1}, no_fields, NULL},
    {"get-descriptor", RECORD_CONTROL, SETUP, {0x80, 0x06}, descriptor_fields, NULL},
    {"clear-halt", RECORD_CONTROL, SETUP, {0x02, 0x01}, pipe_fields, NULL},
    {"get-status", RECORD_CONTROL, SETUP, {0x82, 0x00, 0, 0, 0, 0, 2}, pipe_fields, NULL},
    {"get-max-lun", RECORD_CONTROL, SETUP, {0xA1, 0xFE, 0, 0, 0, 0, 1}, no_fields, NULL},
    {"mass-storage-reset", RECORD_CONTROL, SETUP, {0x21, 0xFF}, no_fields, NULL},
    {"load", RECORD_CONTROL, SETUP, {0x40, 0x01}, load_fields, "data"},
    {"read", RECORD_CONTROL, SETUP, {0xC0, 0x02}, read_fields, NULL},
    {"soft-reset", RECORD_CONTROL, SETUP, {0x40, 0x03}, no_fields, NULL},
    {"bogus-read", RECORD_CONTROL, SETUP, {0xC0, 0x01}, bogus_fields, NULL},
    {"request", RECORD_CONTROL, SETUP, {0}, request_fields, "data"},
    {"setup-bytes", RECORD_CONTROL, 0, {0}, no_fields, "data"},
    {"command", RECORD_PACKET, PACKET, {PACKET_FRONT, 0x24, 0x24}, command_fields, NULL},
    {"packet", RECORD_PACKET, BEFORE_BLOCK, {PACKET_FRONT}, packet_fields, "block"},
    {"packet-bytes", RECORD_PACKET, 0, {0}, no_fields, "data"},
    {"burst", RECORD_BURST, 0, {0}, no_fields, "data"},
    {"end-mark", RECORD_END_MARK, 0, {0}, no_fields, NULL},
    {"report", RECORD_REPORT, RECORD_REPORT_LENGTH, {0}, report_fields, NULL},
    {"status", RECORD_STATUS, 0, {0}, no_fields, NULL},
};

enum {
    FORMS = sizeof forms / sizeof *forms
};

static uint32_t most_of(const struct field *field) {
    return UINT32_MAX >> (32 - 8 * field->width);
}

/* What the field is where the text leaves it out. */
static uint32_t unsaid(const struct form *form, const struct field *field,
                       const struct record *record) {
    if (field->use == COUNTED)
        return (uint32_t)record->length - form->length;
    return record_load(form->own + field->offset, field->width);
}

/* The next word of the line, ended in place; NULL at the end and at a comment. */
static char *next_word(char **rest) {
    char *word = *rest + strspn(*rest, " \t\r\n");
    if (*word == '\0' || *word == '#')
        return NULL;
    size_t length = strcspn(word, " \t\r\n#");
    *rest = word + length;
    if (**rest == '#')
        **rest = '\0';
    else if (**rest != '\0')
        *(*rest)++ = '\0';
    return word;
}

static const struct form *form_named(const char *name) {
    for (size_t i = 0; i < FORMS; i++)
        if (strcmp(forms[i].name, name) == 0)
            return &forms[i];
    return NULL;
}

static const struct field *field_named(const struct form *form, const char *name) {
    for (const struct field *field = form->fields; field->name != NULL; field++)
        if (strcmp(field->name, name) == 0)
            return field;
    return NULL;
}

/* The functions that read text return what is wrong with it, NULL where nothing is. */
static const char *read_number(const struct field *field, const char *text, uint32_t *number) {
    uint64_t wide;
    for (const struct word *word = field->words; word != NULL && word->name != NULL; word++)
        if (strcmp(word->name, text) == 0) {
            *number = word->value;
            return NULL;
        }
    if (!command_number(text, most_of(field), &wide))
        return field->words != NULL ? "neither one of its words nor a number that fits"
                                    : "not a number that fits";
    *number = (uint32_t)wide;
    return NULL;
}

static const char *append(struct record *record, int byte, uint64_t times) {
    if (byte < 0)
        return "bytes are pairs of hexadecimal digits, or one pair, * and how many";
    if (times > RECORD_PAYLOAD_MOST - (uint64_t)record->length)
        return "more bytes than a record holds";
    memset(record->payload + record->length, byte, (size_t)times);
    record->length = (uint16_t)(record->length + times);
    return NULL;
}

static const char *read_bytes(const char *text, struct record *record) {
    uint64_t times;
    if (strlen(text) > 3 && text[2] == '*' && command_number(text + 3, UINT16_MAX, &times))
        return append(record, command_pair(text), times);
    const char *wrong = *text == '\0' ? "without bytes" : NULL;
    for (; wrong == NULL && *text != '\0'; text += 2)
        wrong = append(record, command_pair(text), 1);
    return wrong;
}

/* Reads "name=value" into the record; a bit for each field of the form that was said. */
static const char *read_word(const struct form *form, char *word, struct record *record,
                             unsigned *said) {
    char *value = strchr(word, '=');
    if (value == NULL)
        return "a field is written name=value";
    *value++ = '\0';
    if (form->tail != NULL && strcmp(form->tail, word) == 0)
        return record->length > form->length ? "said twice" : read_bytes(value, record);
    const struct field *field = field_named(form, word);
    if (field == NULL)
        return "the event has no such field";
    unsigned bit = 1U << (field - form->fields);
    if (*said & bit)
        return "said twice";
    *said |= bit;
    uint32_t number = 0;
    const char *wrong = read_number(field, value, &number);
    record_store(record->payload + field->offset, field->width, number);
    return wrong;
}

static const char *fill_unsaid(const struct form *form, struct record *record, unsigned said,
                               const char **word) {
    for (const struct field *field = form->fields; field->name != NULL; field++) {
        if (said >> (field - form->fields) & 1)
            continue;
        *word = field->name;
        if (field->use == NEEDED)
            return "missing";
        record_store(record->payload + field->offset, field->width, unsaid(form, field, record));
    }
    return NULL;
}

/* Reads the words that follow the event's name; the word is the one that something is wrong with.
 */
static const char *read_event(const char **word, char *rest, struct record *record) {
    const struct form *form = form_named(*word);
    if (form == NULL)
        return "there is no such event";
    record->kind = form->kind;
    record->length = form->length;
    memcpy(record->payload, form->own, form->length);
    unsigned said = 0;
    char *next;
    while ((next = next_word(&rest)) != NULL) {
        *word = next;
        const char *wrong = read_word(form, next, record, &said);
        if (wrong != NULL)
            return wrong;
    }
    return fill_unsaid(form, record, said, word);
}

static int encode_lines(FILE *from, const char *name) {
    char line[LINE_MOST];
    struct record record;
    for (unsigned long number = 1; fgets(line, sizeof line, from) != NULL; number++) {
        if (strchr(line, '\n') == NULL && !feof(from)) {
            command_say("%s:%lu: the line is too long, or not text", name, number);
            return EXIT_REFUSED;
        }
        char *rest = line;
        const char *word = next_word(&rest);
        if (word == NULL)
            continue;
        const char *wrong = read_event(&word, rest, &record);
        if (wrong != NULL) {
            command_say("%s:%lu: %s: %s", name, number, word, wrong);
            return EXIT_REFUSED;
        }
        record_write(stdout, &record);
    }
    if (!ferror(from))
        return EXIT_FINE;
    command_say("%s: cannot be read", name);
    return EXIT_MISUSED;
}

static int encode(const char *name) {
    FILE *from = command_open(name);
    if (from == NULL)
        return EXIT_MISUSED;
    int status = encode_lines(from, name);
    fclose(from);
    return status;
}

static bool is_laid_over(const struct form *form, unsigned offset) {
    for (const struct field *field = form->fields; field->name != NULL; field++)
        if (offset >= field->offset && offset < (unsigned)field->offset + field->width)
            return true;
    return false;
}

static bool fits(const struct form *form, const struct record *record) {
    if (form->kind != record->kind || record->length < form->length ||
        (form->tail == NULL && record->length != form->length))
        return false;
    for (unsigned i = 0; i < form->length; i++)
        if (record->payload[i] != form->own[i] && !is_laid_over(form, i))
            return false;
    return true;
}

static void print_number(const struct field *field, uint32_t number) {
    for (const struct word *word = field->words; word != NULL && word->name != NULL; word++)
        if (word->value == number) {
            printf(" %s=%s", field->name, word->name);
            return;
        }
    if (field->base == HEX)
        printf(" %s=0x%0*lX", field->name, 2 * field->width, (unsigned long)number);
    else
        printf(" %s=%lu", field->name, (unsigned long)number);
}

static void print_bytes(const char *name, const uint8_t *bytes, size_t count) {
    if (count == 0)
        return;
    printf(" %s=", name);
    if (count >= REPEATED_LEAST && memcmp(bytes, bytes + 1, count - 1) == 0) {
        printf("%02X*%zu", (unsigned)bytes[0], count);
        return;
    }
    for (size_t i = 0; i < count; i++)
        printf("%02X", (unsigned)bytes[i]);
}

static void print_record(void *context, const struct record *record) {
    const struct form *form = forms;
    (void)context;
    while (!fits(form, record))
        form++;
    fputs(form->name, stdout);
    for (const struct field *field = form->fields; field->name != NULL; field++) {
        uint32_t number = record_load(record->payload + field->offset, field->width);
        if (field->use == NEEDED || number != unsaid(form, field, record))
            print_number(field, number);
    }
    print_bytes(form->tail, record->payload + form->length,
                (size_t)(record->length - form->length));
    putchar('\n');
}

int main(int argc, char **argv) {
    command_begin(argv[0]);
    if (argc >= 2 && strcmp(argv[1], "--help") == 0)
        return command_help(help);
    if (argc < 2 || argc > 3)
        return command_misused("encode or decode, and one file at most");
    const char *name = argc == 3 ? argv[2] : "-";
    if (strcmp(argv[1], "encode") == 0)
        return command_end(encode(name));
    if (strcmp(argv[1], "decode") == 0)
        return command_end(record_each(name, true, print_record, NULL));
    return command_misused("%s is neither encode nor decode", argv[1]);
}
