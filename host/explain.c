/* Explains a replay in words: what came, what the bridge answered, how it then stands. A line has
 * these parts with | between them, and commas inside. */
#include "explain.h"

#include "layout.h"

#include <stdio.h>
#include <string.h>

enum {
    SETUP_FIELDS = 3,
    KIND_TRANSFER = 0x03,
    TRANSFER_IN = 0x01,
    TWO_DRIVES = 2
};

/* What a number is called; a row ends in one without text. */
struct word {
    unsigned number;
    const char *text;
};

static const struct word places[] = {
    {PLACE_CONFIGURATION, "configuration bytes"}, {PLACE_MEMORY, "memory"}, {0}};
static const struct word pipes[] = {{ENDPOINT_OUT, "bulk out"}, {ENDPOINT_IN, "bulk in"}, {0}};
static const struct word descriptors[] = {{DESCRIPTOR_DEVICE, "device"},
                                          {DESCRIPTOR_CONFIGURATION, "configuration"},
                                          {DESCRIPTOR_STRING, "string"},
                                          {DESCRIPTOR_QUALIFIER, "device qualifier"},
                                          {0}};
static const struct word flags[] = {{0x00, "out"}, {FLAGS_IN, "in"}, {0}};
static const struct word directions[] = {{0, "no direction"}, {1, "in"}, {2, "out"}, {0}};
static const struct word failures[] = {{0, "good"}, {1, "failed"}, {0}};
static const struct word statuses[] = {{0, "passed"}, {1, "failed"}, {2, "phase error"}, {0}};

static const struct word answers[] = {
    {0, "done"},
    {1, "setup not 8 bytes"},
    {2, "wrong length of host data"},
    {3, "reply room too short"},
    {4, "not configured"},
    {5, "request or fixed field not in the table"},
    {6, "no such place"},
    {7, "no memory fitted"},
    {8, "outside the address rule"},
    {9, "memory write not at a multiple of eight"},
    {10, "memory write crosses a page"},
    {11, "stopped or pipe halted"},
    {13, "packet not valid"},
    {14, "packet not meaningful"},
    {15, "operation room too short"},
    {16, "wrong phase"},
    {17, "report malformed"},
    {18, "no such descriptor"},
    {19, "descriptor runs past the memory"},
    {20, "record cut"},
    {21, "unknown kind of record"},
    {22, "payload length wrong for its kind"},
    {23, "no record"},
    {24, "image too short"},
    {25, "change room too short"},
    {29, "record room too short"},
    {0},
};

static const struct word phases[] = {
    {THRANDUE_AWAITING, "awaiting a command"},     {THRANDUE_BUSY, "busy"},
    {THRANDUE_STATUS_WAITING, "status waiting"},   {THRANDUE_STOPPED, "stopped"},
    {THRANDUE_STOPPED_RESET, "stopped and reset"}, {0},
};

static const struct word halts[] = {
    {0, "no halts"},
    {THRANDUE_HALT_OUT, "bulk out halted"},
    {THRANDUE_HALT_IN, "bulk in halted"},
    {THRANDUE_HALT_OUT | THRANDUE_HALT_IN, "both pipes halted"},
    {0},
};

/* NULL where the number is called nothing. */
static const char *called(const struct word *words, unsigned number) {
    while (words->text != NULL && words->number != number)
        words++;
    return words->text;
}

/* What the number is called; where that is nothing, the number in so many digits. */
static void show_word(const struct word *words, const char *name, int digits, unsigned number) {
    const char *text = called(words, number);
    if (text != NULL)
        printf(", %s", text);
    else
        printf(", %s 0x%0*X", name, digits, number);
}

static void show_bytes(const char *name, const uint8_t *bytes, size_t count) {
    printf(", %s", name);
    for (size_t i = 0; i < count; i++)
        printf(" %02X", (unsigned)bytes[i]);
}

/* What has no fields to be told by: a burst, and what is cut short or too long. */
static void show_whole(const char *name, const uint8_t *bytes, size_t length) {
    printf("%s, length %zu", name, length);
    if (length > 0)
        show_bytes("bytes", bytes, length < PACKET_LENGTH ? length : PACKET_LENGTH);
    if (length > PACKET_LENGTH)
        fputs(" ..", stdout);
}

static void show_configuration(unsigned number) {
    printf(", configuration %u", number);
}

static void show_pipe(unsigned number) {
    show_word(pipes, "pipe", 4, number);
}

static void show_place(unsigned number) {
    show_word(places, "place", 4, number);
}

static void show_start(unsigned number) {
    printf(", start 0x%04X", number);
}

static void show_count(unsigned number) {
    printf(", n %u", number);
}

static void show_value(unsigned number) {
    printf(", wValue 0x%04X", number);
}

static void show_index(unsigned number) {
    printf(", wIndex 0x%04X", number);
}

static void show_length(unsigned number) {
    printf(", wLength %u", number);
}

/* Its type and its index, which only strings have. */
static void show_descriptor(unsigned number) {
    unsigned type = number >> 8;
    unsigned index = number & 0xFF;
    show_word(descriptors, "type", 2, type);
    if (type == DESCRIPTOR_STRING || index != 0)
        printf(", index %u", index);
}

typedef void field_shower(unsigned number);

/* A field of a request: shown as what it means or, where the table fixes it, when it differs. */
struct field {
    field_shower *means;
    unsigned fixed;
};

struct request {
    uint8_t type;
    uint8_t code;
    const char *name;
    struct field fields[SETUP_FIELDS];
};

static const struct request requests[] = {
    {0x00, 0x09, "Set Configuration", {{show_configuration, 0}, {NULL, 0}, {NULL, 0}}},
    {0x80, 0x06, "Get Descriptor", {{show_descriptor, 0}, {NULL, 0}, {show_length, 0}}},
    {0x80, 0x08, "Get Configuration", {{NULL, 0}, {NULL, 0}, {NULL, 1}}},
    {0x02, 0x01, "Clear Feature, halt", {{NULL, 0}, {show_pipe, 0}, {NULL, 0}}},
    {0x82, 0x00, "Get Status, pipe", {{NULL, 0}, {show_pipe, 0}, {NULL, 2}}},
    {0xA1, 0xFE, "Get Max LUN", {{NULL, 0}, {NULL, 0}, {NULL, 1}}},
    {0x21, 0xFF, "Mass Storage Reset", {{NULL, 0}, {NULL, 0}, {NULL, 0}}},
    {0x40, 0x01, "LOAD_CONFIG_DATA", {{show_place, 0}, {show_start, 0}, {show_count, 0}}},
    {0xC0, 0x02, "READ_CONFIG_DATA", {{show_place, 0}, {show_start, 0}, {show_count, 0}}},
    {0x40, 0x03, "SOFT_RESET", {{NULL, 0}, {NULL, 0}, {NULL, 0}}},
    {0xC0, 0x01, "BOGUS_READ", {{show_value, 0}, {show_index, 0}, {show_count, 0}}},
};

static const struct request *request_of(const uint8_t *setup) {
    for (size_t i = 0; i < sizeof requests / sizeof *requests; i++)
        if (requests[i].type == setup[0] && requests[i].code == setup[1])
            return &requests[i];
    return NULL;
}

static void explain_request(const uint8_t *setup) {
    static field_shower *const raw[SETUP_FIELDS] = {show_value, show_index, show_length};
    const struct request *request = request_of(setup);
    if (request == NULL)
        printf("unknown request, type 0x%02X, code 0x%02X", (unsigned)setup[0], (unsigned)setup[1]);
    else
        fputs(request->name, stdout);
    for (unsigned i = 0; i < SETUP_FIELDS; i++) {
        unsigned number = record_load(setup + 2 + 2 * i, 2);
        if (request != NULL && request->fields[i].means != NULL)
            request->fields[i].means(number);
        else if (request == NULL || number != request->fields[i].fixed)
            raw[i](number);
    }
}

static void explain_control(const uint8_t *payload, size_t length) {
    if (length < SETUP_LENGTH) {
        show_whole("setup", payload, length);
        return;
    }
    explain_request(payload);
    if (length > SETUP_LENGTH)
        printf(", host data length %zu", length - SETUP_LENGTH);
}

static void explain_packet(const uint8_t *packet, size_t length) {
    static const uint8_t signature[] = {0x55, 0x53, 0x42, 0x43};
    if (length != PACKET_LENGTH) {
        show_whole("command packet", packet, length);
        return;
    }
    uint32_t transfer = record_load(packet + PACKET_TRANSFER_LENGTH, 4);
    fputs("command packet", stdout);
    if (memcmp(packet, signature, sizeof signature) != 0)
        show_bytes("signature", packet, sizeof signature);
    printf(", tag 0x%08lX, L %lu", (unsigned long)record_load(packet + PACKET_TAG, 4),
           (unsigned long)transfer);
    if (transfer == 0 && (packet[PACKET_FLAGS] & ~FLAGS_IN) == 0)
        fputs(", no direction", stdout);
    else
        show_word(flags, "flags", 2, packet[PACKET_FLAGS]);
    if (packet[PACKET_LUN] != 0)
        printf(", LUN 0x%02X", (unsigned)packet[PACKET_LUN]);
    if (packet[PACKET_BLOCK_LENGTH] != BLOCK_LENGTH)
        printf(", block length %u", (unsigned)packet[PACKET_BLOCK_LENGTH]);
    show_bytes("block", packet + PACKET_BLOCK, BLOCK_LENGTH);
}

static void explain_report(const uint8_t *report) {
    fputs("drive report", stdout);
    show_word(directions, "direction", 2, report[0]);
    show_word(failures, "failed", 2, report[1]);
    printf(", amount %lu", (unsigned long)record_load(report + 2, 4));
}

static void explain_arrival(const struct record *record) {
    switch (record->kind) {
    case RECORD_BUS_RESET:
        fputs("bus reset", stdout);
        break;
    case RECORD_CONTROL:
        explain_control(record->payload, record->length);
        break;
    case RECORD_PACKET:
        explain_packet(record->payload, record->length);
        break;
    case RECORD_REPORT:
        explain_report(record->payload);
        break;
    case RECORD_BURST:
        show_whole("burst", record->payload, record->length);
        break;
    case RECORD_END_MARK:
        fputs("end mark", stdout);
        break;
    default:
        fputs("status request", stdout);
    }
}

/* Kinds of operation, from a first to a last one where each register has its own, and the bits that
 * their operands may have. */
struct kind {
    uint8_t first;
    uint8_t last;
    uint8_t operands;
    const char *name;
};

static const struct kind kinds[] = {
    {0x01, 0x01, 0x00, "poll"},
    {0x02, 0x02, 0xFF, "select"},
    {KIND_TRANSFER, KIND_TRANSFER, 0x1F, "transfer"},
    {0x10, 0x17, 0xFF, "write"},
    {0x20, 0x27, 0x00, "read"},
};

static const struct kind *kind_of(unsigned kind, unsigned operand) {
    for (size_t i = 0; i < sizeof kinds / sizeof *kinds; i++)
        if (kind >= kinds[i].first && kind <= kinds[i].last && (operand & ~kinds[i].operands) == 0)
            return &kinds[i];
    return NULL;
}

static void show_transfer(unsigned operand) {
    static const struct word bits[] = {
        {0x02, "UDMA"},
        {0x04, "device error override"},
        {0x08, "phase error override"},
        {0x10, "identify"},
    };
    fputs(operand & TRANSFER_IN ? " in" : " out", stdout);
    for (size_t i = 0; i < sizeof bits / sizeof *bits; i++)
        if (operand & bits[i].number)
            printf(", %s", bits[i].text);
}

static void show_operation(unsigned operation) {
    static const char *const registers[] = {"3F6", "1F1", "1F2", "1F3", "1F4", "1F5", "1F6", "1F7"};
    unsigned number = operation >> 8;
    unsigned operand = operation & 0xFF;
    const struct kind *kind = kind_of(number, operand);
    if (kind == NULL) {
        printf("unknown %04X", operation);
        return;
    }
    fputs(kind->name, stdout);
    if (kind->first != kind->last)
        printf(" %s", registers[number - kind->first]);
    if (number == KIND_TRANSFER)
        show_transfer(operand);
    else if (kind->operands != 0)
        printf(" %02X", operand);
}

static void explain_operations(const uint16_t *operations, uint32_t count) {
    if (count == 0)
        fputs(" | no operations, block not recognised", stdout);
    for (uint32_t i = 0; i < count; i++) {
        fputs(i == 0 ? " | " : "; ", stdout);
        show_operation(operations[i]);
    }
}

static void explain_status(const uint8_t *packet) {
    printf(" | status packet, tag 0x%08lX, residue %lu",
           (unsigned long)record_load(packet + STATUS_TAG, 4),
           (unsigned long)record_load(packet + STATUS_RESIDUE, 4));
    show_word(statuses, "status", 2, packet[STATUS_STATUS]);
}

/* A part of the memory is told with its place there, even an empty one. */
static void explain_reply(const struct bench *bench, uint64_t outcome) {
    const uint8_t *reply = bench_reply(bench, outcome);
    uint32_t count = thrandue_count(outcome);
    if (reply != bench->reply)
        printf(" | reply length %lu, in the memory at 0x%04X", (unsigned long)count,
               (unsigned)(reply - bench->memory));
    else if (count != 0)
        printf(" | reply length %lu", (unsigned long)count);
}

static void explain_handed_out(const struct bench *bench, const struct record *record,
                               uint64_t outcome) {
    uint32_t count = thrandue_count(outcome);
    if (record_makes_operations(record))
        explain_operations(bench->operations, count);
    else if (record->kind == RECORD_STATUS && count == STATUS_LENGTH)
        explain_status(bench->reply);
    else
        explain_reply(bench, outcome);
}

/* What is held of a packet in bursts, if anything is. */
static void show_held(unsigned held) {
    if (held == THRANDUE_HELD_TOO_LONG)
        fputs(", more than a packet held", stdout);
    else if (held != 0)
        printf(", %u byte%s held", held, held == 1 ? "" : "s");
}

static void show_answer(unsigned answer) {
    const char *meaning = called(answers, answer);
    printf(" | %u %s", answer, meaning == NULL ? "not an answer of the paper" : meaning);
}

/* The phase, of two drives with the one that the bridge is busy with; a LUN that the phase has no
 * drive for is told as it is. */
static void show_phase(const thrandue_image *image, bool names_drives) {
    unsigned phase = thrandue_phase(image);
    unsigned lun = thrandue_lun(image);
    bool busy = phase == THRANDUE_BUSY;
    show_word(phases, "phase", 2, phase);
    if (busy && names_drives)
        printf(" with drive %u", lun);
    else if (lun != (busy ? 0 : THRANDUE_NO_LUN))
        printf(", LUN 0x%02X", lun);
}

static void show_state(const struct bench *bench) {
    const thrandue_image *image = bench->image;
    printf(" | configuration %u", (unsigned)thrandue_configuration(image));
    show_phase(image, bench->options.drives == TWO_DRIVES);
    show_word(halts, "halts", 2, thrandue_halts(image));
    show_held(thrandue_held(image));
    putchar('\n');
}

void explain_store(const struct bench *bench, uint8_t answer) {
    size_t length = bench->store.length;
    printf("    store, %zu byte%s", length, length == 1 ? "" : "s");
    show_answer(answer);
    show_state(bench);
}

void explain_event(const struct bench *bench, const struct record *record, uint64_t outcome) {
    uint8_t answer = thrandue_answer(outcome);
    fputs("    ", stdout);
    explain_arrival(record);
    show_answer(answer);
    if (answer == THRANDUE_DONE)
        explain_handed_out(bench, record, outcome);
    show_state(bench);
}
