/* generate: writes a session of records from a seed, steered towards the edges of the paper. */
#include "bench.h"
#include "command.h"
#include "layout.h"
#include "random.h"
#include "second_page.h"

#include <stdio.h>
#include <string.h>

static const char help[] =
    "SEED EVENTS [--torn] [OPTION..]\n"
    "Writes a session of EVENTS records to standard output, for a seed the same everywhere; with\n"
    "--torn a torn record follows. The options say for which bench it is made:\n" BENCH_OPTIONS_HELP
    "Status 2: bad usage, or standard output that cannot be written.\n";

enum {
    HOST_DATA_MOST = RECORD_PAYLOAD_MOST - SETUP_LENGTH,
    CONFIGURATION_BYTES = 16,
    FIRST_STRING = 0x0E,
    DEVICE_AT = 0x10,
    QUALIFIER_AT = 0x22,
    BUS_POWERED_AT = 0x2C,
    SELF_POWERED_AT = 0x80,
    WRITE_ALIGNMENT = 8,
    MEMORY_MOST = 2048,
    REGISTERS_READ = 8,
    TWO_DRIVES = 2,
    TORN_PAYLOAD_MOST = 16
};

/* The pairs of type and code in the table. */
enum {
    SET_CONFIGURATION = 0x0009,
    GET_DESCRIPTOR = 0x8006,
    GET_CONFIGURATION = 0x8008,
    CLEAR_FEATURE = 0x0201,
    GET_STATUS = 0x8200,
    GET_MAX_LUN = 0xA1FE,
    MASS_STORAGE_RESET = 0x21FF,
    LOAD_CONFIG_DATA = 0x4001,
    READ_CONFIG_DATA = 0xC002,
    SOFT_RESET = 0x4003,
    BOGUS_READ = 0xC001
};

struct generator {
    struct random random;
    struct bench bench;
    struct record record;
    /* What the last command that made the bridge busy asked for: reports are drawn around it. */
    uint32_t length;
    uint8_t direction;
    /* The packet that is being handed over in bursts, and how much of it has been. */
    struct record cut;
    uint16_t handed;
    bool cutting;
};

static void start(struct generator *g, uint16_t kind, uint16_t length) {
    g->record.kind = kind;
    g->record.length = length;
    memset(g->record.payload, 0, length);
}

static void host_data(struct generator *g, uint32_t count) {
    if (count > HOST_DATA_MOST)
        count = HOST_DATA_MOST;
    fill(&g->random, g->record.payload + SETUP_LENGTH, count);
    g->record.length = (uint16_t)(SETUP_LENGTH + count);
}

static void setup(struct generator *g, uint16_t pair, uint32_t value, uint32_t index,
                  uint32_t length) {
    uint8_t *payload = g->record.payload;
    start(g, RECORD_CONTROL, SETUP_LENGTH);
    payload[0] = (uint8_t)(pair >> 8);
    payload[1] = (uint8_t)pair;
    record_store(payload + 2, 2, value);
    record_store(payload + 4, 2, index);
    record_store(payload + 6, 2, length);
}

static uint32_t pipe_index(struct generator *g) {
    return chance(&g->random, 50) ? ENDPOINT_OUT : ENDPOINT_IN;
}

static uint32_t place(struct generator *g) {
    static const uint16_t others[] = {1, 3, 0x0100, 0x0102, 0x0200, 0x8002, 0xFFFF};
    if (chance(&g->random, 14))
        return PICK(&g->random, others);
    return chance(&g->random, 40) ? PLACE_CONFIGURATION : PLACE_MEMORY;
}

static uint32_t configuration_start(struct generator *g) {
    static const uint16_t starts[] = {0, 1, 2, 2, 3, 4, 6, 14, 15, 16, 17, 0x0102, 0x0104, 0xFFFF};
    return PICK(&g->random, starts);
}

static uint32_t fitted_memory(const struct generator *g) {
    size_t fitted = g->bench.options.memory;
    return fitted == 0 || fitted > MEMORY_MOST ? MEMORY_MOST : (uint32_t)fitted;
}

/* The page size whose edges are steered to: of the number given at power-on, and at times the
 * largest, by which a bridge would judge that does not pass a smaller one on. */
static uint32_t page_size(struct generator *g) {
    uint32_t page = second_page(g->bench.options.page);
    return page < SECOND_PAGE_MOST && chance(&g->random, 30) ? SECOND_PAGE_MOST : page;
}

static uint32_t memory_start(struct generator *g) {
    static const int16_t from_end[] = {-16, -8, -4, -1, 0, 1, 8, 0x4000};
    uint32_t size = fitted_memory(g);
    uint32_t page = page_size(g);
    const uint32_t in_page[] = {0,        0,        8, page / 2, page - 16, page - 8,
                                page - 8, page - 8, 1, 4,        page - 4,  page - 1};
    uint32_t first = below(&g->random, (size + page - 1) / page) * page;
    return chance(&g->random, 20) ? (size + (uint32_t)PICK(&g->random, from_end)) & 0xFFFF
                                  : first + PICK(&g->random, in_page);
}

/* Around what is left behind the start, of the place or of the page. */
static uint32_t count_from(struct generator *g, uint32_t from, uint32_t size) {
    static const uint8_t small[] = {0, 0, 1, 2, 7, 8, 9};
    uint32_t left = (from < size ? size - from : 0) + below(&g->random, 3) - 1;
    return chance(&g->random, 40) ? PICK(&g->random, small) : left & 0xFFFF;
}

/* An index whose string may stand across the end of the memory, or well inside it. */
static uint8_t string_index(struct generator *g) {
    uint32_t end = fitted_memory(g) / 2;
    const uint8_t indexes[] = {
        0x40, 0x60, 0xFF, (uint8_t)(end - 2), (uint8_t)end, (uint8_t)(end - 1), (uint8_t)(end + 1)};
    return PICK(&g->random, indexes);
}

static uint32_t descriptor_at(struct generator *g, uint8_t type) {
    switch (type) {
    case DESCRIPTOR_DEVICE:
        return DEVICE_AT;
    case DESCRIPTOR_QUALIFIER:
        return QUALIFIER_AT;
    case DESCRIPTOR_CONFIGURATION:
        return chance(&g->random, 50) ? BUS_POWERED_AT : SELF_POWERED_AT;
    default:
        return 2U * string_index(g);
    }
}

/* The head of a descriptor, its length drawn around the least, and around what is left of the
 * memory behind it. */
static void descriptor_head(struct generator *g, uint8_t *head, uint8_t type, uint32_t at) {
    uint32_t left = fitted_memory(g) - at;
    const uint32_t lengths[] = {0,      1,        2,    3,        4,        9,     18,
                                0x0102, left - 1, left, left + 1, left + 1, 0xFFFF};
    uint32_t length = PICK(&g->random, lengths);
    head[0] = (uint8_t)length;
    head[1] = chance(&g->random, 90) ? type : (uint8_t)draw(&g->random);
    if (type == DESCRIPTOR_CONFIGURATION)
        record_store(head + 2, 2, length);
}

/* A write with the head of a descriptor at its end, legal where the memory goes so far. */
static void load_descriptor(struct generator *g) {
    static const uint8_t types[] = {DESCRIPTOR_DEVICE,        DESCRIPTOR_CONFIGURATION,
                                    DESCRIPTOR_CONFIGURATION, DESCRIPTOR_STRING,
                                    DESCRIPTOR_STRING,        DESCRIPTOR_QUALIFIER};
    uint8_t type = PICK(&g->random, types);
    uint32_t at = descriptor_at(g, type);
    uint32_t before = at % WRITE_ALIGNMENT;
    uint32_t count = before + (type == DESCRIPTOR_CONFIGURATION ? 4 : 2);
    setup(g, LOAD_CONFIG_DATA, PLACE_MEMORY, at - before, count);
    host_data(g, count);
    descriptor_head(g, g->record.payload + SETUP_LENGTH + before, type, at);
}

static void load_first_string(struct generator *g) {
    setup(g, LOAD_CONFIG_DATA, PLACE_CONFIGURATION, FIRST_STRING, 1);
    host_data(g, 1);
    g->record.payload[SETUP_LENGTH] = chance(&g->random, 20) ? 0 : string_index(g);
}

static void get_descriptor(struct generator *g) {
    static const uint8_t types[] = {1, 1, 2, 2, 2, 3, 3, 3, 6, 6, 0, 4, 5, 7, 0x22, 0x81, 0x83};
    static const uint16_t lengths[] = {0, 1, 2, 4, 8, 9, 18, 255, 0x0100, 0xFFFF};
    static const uint16_t languages[] = {0, 0, 0x0409, 0x0100, 0xFFFF};
    uint32_t type = PICK(&g->random, types);
    uint32_t index = type == DESCRIPTOR_STRING && chance(&g->random, 70) ? string_index(g) : 0;
    setup(g, GET_DESCRIPTOR, type << 8 | index, PICK(&g->random, languages),
          PICK(&g->random, lengths));
}

static void load_or_read(struct generator *g, uint16_t pair) {
    uint32_t where = place(g);
    uint32_t from, size = CONFIGURATION_BYTES;
    if (where == PLACE_MEMORY) {
        from = memory_start(g);
        uint32_t page = page_size(g);
        size = chance(&g->random, 70) ? (from / page + 1) * page : fitted_memory(g);
    } else {
        from = configuration_start(g);
    }
    uint32_t count = count_from(g, from, size);
    setup(g, pair, where, from, count);
    if (pair == LOAD_CONFIG_DATA)
        host_data(g, count);
}

static void load(struct generator *g) {
    uint32_t what = below(&g->random, 100);
    if (what < 20)
        load_descriptor(g);
    else if (what < 25)
        load_first_string(g);
    else
        load_or_read(g, LOAD_CONFIG_DATA);
}

static void bogus_read(struct generator *g) {
    uint32_t room = (uint32_t)g->bench.options.reply;
    const uint32_t counts[] = {0, 1, 2, 64, room - 1, room, room + 1, 0xFFFF};
    uint32_t fields = draw(&g->random);
    setup(g, BOGUS_READ, fields & 0xFFFF, fields >> 16, PICK(&g->random, counts));
}

/* A request of the table; where its fields are not fixed they are drawn around their limits. */
static void request(struct generator *g) {
    /* Those with the most limits most often. */
    static const uint16_t pairs[] = {SET_CONFIGURATION, GET_DESCRIPTOR,    GET_DESCRIPTOR,
                                     GET_DESCRIPTOR,    GET_CONFIGURATION, CLEAR_FEATURE,
                                     GET_STATUS,        GET_MAX_LUN,       MASS_STORAGE_RESET,
                                     LOAD_CONFIG_DATA,  LOAD_CONFIG_DATA,  LOAD_CONFIG_DATA,
                                     LOAD_CONFIG_DATA,  READ_CONFIG_DATA,  READ_CONFIG_DATA,
                                     SOFT_RESET,        BOGUS_READ};
    uint16_t pair = PICK(&g->random, pairs);
    switch (pair) {
    case SET_CONFIGURATION:
        setup(g, pair, chance(&g->random, 80) ? 2 : 0, 0, 0);
        break;
    case GET_DESCRIPTOR:
        get_descriptor(g);
        break;
    case GET_CONFIGURATION:
    case GET_MAX_LUN:
        setup(g, pair, 0, 0, 1);
        break;
    case CLEAR_FEATURE:
        setup(g, pair, 0, pipe_index(g), 0);
        break;
    case GET_STATUS:
        setup(g, pair, 0, pipe_index(g), 2);
        break;
    case LOAD_CONFIG_DATA:
        load(g);
        break;
    case READ_CONFIG_DATA:
        load_or_read(g, pair);
        break;
    case BOGUS_READ:
        bogus_read(g);
        break;
    default:
        setup(g, pair, 0, 0, 0);
    }
}

/* A field that only its high byte or a single step makes wrong. */
static void bend_field(struct generator *g) {
    static const uint16_t steps[] = {1, 2, 0xFFFF, 0x0080, 0x0100, 0x0200, 0x8000};
    uint8_t *field = g->record.payload + 2 + 2 * below(&g->random, 3);
    record_store(field, 2, record_load(field, 2) + PICK(&g->random, steps));
}

/* A type or code one bit away, and pairs that source 003 knows and the paper leaves out. */
static void bend_pair(struct generator *g) {
    static const uint16_t pairs[] = {0x4004, 0x4005, 0xC006, 0xC003, 0x0005, 0x8106, 0x010B,
                                     0x0001, 0x8000, 0x6000, 0x6202, 0x2001, 0x4201, 0x0003};
    uint8_t *payload = g->record.payload;
    uint32_t pair = chance(&g->random, 60)
                        ? ((uint32_t)payload[0] << 8 | payload[1]) ^ 1U << below(&g->random, 16)
                        : PICK(&g->random, pairs);
    payload[0] = (uint8_t)(pair >> 8);
    payload[1] = (uint8_t)pair;
}

static void bend_data(struct generator *g) {
    uint32_t count = (uint32_t)g->record.length - SETUP_LENGTH;
    if (count > 0 && chance(&g->random, 50))
        host_data(g, count - 1);
    else
        host_data(g, count + 1 + below(&g->random, 8));
}

static void control(struct generator *g) {
    request(g);
    uint32_t bend = below(&g->random, 100);
    if (bend < 14)
        bend_data(g);
    else if (bend < 28)
        bend_field(g);
    else if (bend < 36)
        bend_pair(g);
    else if (bend < 40)
        g->record.length = (uint16_t)below(&g->random, SETUP_LENGTH);
}

/* Asked of the bridge, by a read that changes nothing. */
static uint8_t command_signature(struct generator *g) {
    static const uint8_t read_signature[SETUP_LENGTH] = {0xC0, 0x02, 0x00, 0x00, 0x04, 0x00, 1, 0};
    uint8_t signature = 0x24;
    thrandue_control(g->bench.image, read_signature, sizeof read_signature, NULL, 0, NULL, 0,
                     &signature, 1);
    return signature;
}

/* 0 with one drive, as the bench has it, and either with two. Where the number is not 1, at times
 * one that a bridge would take which looks at a part of the byte, or of the number. */
static uint8_t lun(struct generator *g) {
    static const uint8_t others[] = {1, 1, 2, 3, 0x10, 0x11, 0x80, 0x81, 0xFF};
    uint32_t drives = g->bench.options.drives;
    if (drives != 1 && chance(&g->random, 8))
        return PICK(&g->random, others);
    return drives == TWO_DRIVES ? (uint8_t)below(&g->random, TWO_DRIVES) : 0;
}

static void make_register_read(struct generator *g) {
    uint8_t *packet = g->record.payload;
    packet[PACKET_BLOCK + 2] = (uint8_t)((packet[PACKET_BLOCK + 2] & ~0x18) | 0x01);
    record_store(packet + PACKET_TRANSFER_LENGTH, 4, REGISTERS_READ);
    packet[PACKET_FLAGS] = FLAGS_IN;
}

static void good_packet(struct generator *g) {
    static const uint8_t front[] = {0x55, 0x53, 0x42, 0x43};
    static const uint32_t lengths[] = {
        0, 0, 1, 7, 8, 9, 13, 512, 512, 512, 4096, 0x10000, 0x7FFFFFFF, 0x80000000, 0xFFFFFFFF};
    uint8_t *packet = g->record.payload;
    uint8_t *block = packet + PACKET_BLOCK;
    start(g, RECORD_PACKET, PACKET_LENGTH);
    memcpy(packet, front, sizeof front);
    record_store(packet + PACKET_TAG, 4, draw(&g->random));
    record_store(packet + PACKET_TRANSFER_LENGTH, 4,
                 chance(&g->random, 90) ? PICK(&g->random, lengths) : draw(&g->random));
    packet[PACKET_FLAGS] = chance(&g->random, 50) ? FLAGS_IN : 0;
    packet[PACKET_LUN] = lun(g);
    packet[PACKET_BLOCK_LENGTH] = 16;
    fill(&g->random, block, 13);
    block[0] = command_signature(g);
    block[1] = 0x24;
    if (block[2] & 0x01)
        make_register_read(g);
}

/* Breaks one condition of the rule of recognition. */
static void bend_recognition(struct generator *g) {
    static const uint32_t lengths[] = {0, 7, 9, 0x0108, 0x08000000};
    uint8_t *packet = g->record.payload;
    uint8_t *block = packet + PACKET_BLOCK;
    uint32_t rule = below(&g->random, 7);
    uint32_t bit = below(&g->random, 24);
    if (rule >= 4)
        make_register_read(g);
    switch (rule) {
    case 0:
        packet[PACKET_BLOCK_LENGTH] = (uint8_t)(1 + below(&g->random, 15));
        break;
    case 1:
        block[0] ^= (uint8_t)(1U << bit % 8);
        break;
    case 2:
        block[1] ^= (uint8_t)(1U << bit % 8);
        break;
    case 3:
        block[13 + bit / 8] = (uint8_t)(1U << bit % 8);
        break;
    case 4:
        block[2] |= chance(&g->random, 50) ? 0x08 : 0x10;
        break;
    case 5:
        record_store(packet + PACKET_TRANSFER_LENGTH, 4, PICK(&g->random, lengths));
        break;
    default:
        packet[PACKET_FLAGS] = 0;
    }
}

static void bend_meaning(struct generator *g) {
    static const uint8_t flags[] = {0x01, 0x40, 0x7F, 0x81, 0xC0, 0xFF};
    static const uint8_t luns[] = {0x01, 0x0F, 0x10, 0x10, 0x80};
    static const uint8_t block_lengths[] = {0, 17, 31, 0x80, 0xFF};
    uint8_t *packet = g->record.payload;
    switch (below(&g->random, 3)) {
    case 0:
        packet[PACKET_FLAGS] = PICK(&g->random, flags);
        break;
    case 1:
        packet[PACKET_LUN] = PICK(&g->random, luns);
        break;
    default:
        packet[PACKET_BLOCK_LENGTH] = PICK(&g->random, block_lengths);
    }
}

static void bend_validity(struct generator *g) {
    static const uint16_t lengths[] = {0, 1, 3, 4, 13, 15, 30, 30, 32, 32, 64, 512, 520};
    if (chance(&g->random, 40)) {
        uint32_t bit = below(&g->random, 32);
        g->record.payload[bit / 8] ^= (uint8_t)(1U << bit % 8);
        return;
    }
    uint16_t length = PICK(&g->random, lengths);
    if (length > PACKET_LENGTH)
        memset(g->record.payload + PACKET_LENGTH, 0, (size_t)length - PACKET_LENGTH);
    g->record.length = length;
}

static void packet(struct generator *g) {
    good_packet(g);
    uint32_t bend = below(&g->random, 100);
    if (bend < 25)
        bend_recognition(g);
    else if (bend < 35)
        bend_meaning(g);
    else if (bend < 45)
        bend_validity(g);
}

static void report(struct generator *g) {
    static const uint8_t directions[] = {0, 1, 2, 0, 1, 2, 3, 0x80, 0xFF};
    static const uint8_t failures[] = {0, 1, 0, 1, 2, 0xFF};
    uint32_t amounts[] = {
        0, 0, 1, g->length - 1, g->length, g->length, g->length + 1, draw(&g->random)};
    uint8_t *payload = g->record.payload;
    start(g, RECORD_REPORT, RECORD_REPORT_LENGTH);
    payload[0] = chance(&g->random, 60) ? g->direction : PICK(&g->random, directions);
    payload[1] = PICK(&g->random, failures);
    record_store(payload + 2, 4,
                 payload[0] == 0 && chance(&g->random, 80) ? 0 : PICK(&g->random, amounts));
}

/* The next burst of a packet that is cut anywhere, or its end mark, at times too early; whatever
 * comes between is not told from here. */
static void fragment(struct generator *g) {
    if (!g->cutting) {
        packet(g);
        g->cut = g->record;
        g->handed = 0;
        g->cutting = true;
    }
    uint32_t left = (uint32_t)g->cut.length - g->handed;
    if (chance(&g->random, left == 0 ? 80 : 4)) {
        start(g, RECORD_END_MARK, 0);
        g->cutting = false;
        return;
    }
    uint32_t length = chance(&g->random, 40) ? left : below(&g->random, left + 1);
    start(g, RECORD_BURST, (uint16_t)length);
    memcpy(g->record.payload, g->cut.payload + g->handed, length);
    g->handed = (uint16_t)(g->handed + length);
}

static void anything(struct generator *g) {
    uint32_t kind = below(&g->random, 100);
    if (kind < 1)
        start(g, RECORD_BUS_RESET, 0);
    else if (kind < 68)
        control(g);
    else if (kind < 80)
        packet(g);
    else if (kind < 90)
        report(g);
    else
        start(g, RECORD_STATUS, 0);
}

/* What moves on from the phase: what a host would send next. */
static void next_step(struct generator *g) {
    uint8_t halts = thrandue_halts(g->bench.image);
    uint32_t halted = halts & THRANDUE_HALT_IN ? ENDPOINT_IN : ENDPOINT_OUT;
    if (halts == (THRANDUE_HALT_IN | THRANDUE_HALT_OUT))
        halted = pipe_index(g);
    switch (thrandue_phase(g->bench.image)) {
    case THRANDUE_AWAITING:
        if (halts != 0 && chance(&g->random, 50))
            setup(g, CLEAR_FEATURE, 0, halted, 0);
        else
            packet(g);
        break;
    case THRANDUE_BUSY:
        report(g);
        break;
    case THRANDUE_STATUS_WAITING:
        if (halts != 0 && chance(&g->random, 50))
            setup(g, CLEAR_FEATURE, 0, halted, 0);
        else
            start(g, RECORD_STATUS, 0);
        break;
    case THRANDUE_STOPPED:
        setup(g, MASS_STORAGE_RESET, 0, 0, 0);
        break;
    default:
        setup(g, CLEAR_FEATURE, 0, halted, 0);
    }
}

/* Each phase lasts long enough to meet every kind of event, and ends often enough. */
static void compose(struct generator *g) {
    static const uint8_t percent_of_next_steps[] = {40, 10, 15, 4, 4};
    bool configured = thrandue_configuration(g->bench.image) != 0;
    uint8_t phase = thrandue_phase(g->bench.image);
    if (g->bench.options.bursts && chance(&g->random, g->cutting ? 60 : 15))
        fragment(g);
    else if (!configured && chance(&g->random, 25))
        setup(g, SET_CONFIGURATION, 2, 0, 0);
    else if (configured && chance(&g->random, percent_of_next_steps[phase]))
        next_step(g);
    else
        anything(g);
}

static void follow(struct generator *g) {
    uint64_t outcome = bench_event(&g->bench, &g->record);
    if (!record_makes_operations(&g->record) || thrandue_answer(outcome) != THRANDUE_DONE)
        return;
    const uint8_t *packet = g->record.kind == RECORD_PACKET ? g->record.payload : g->cut.payload;
    g->length = record_load(packet + PACKET_TRANSFER_LENGTH, 4);
    g->direction = packet[PACKET_FLAGS] == FLAGS_IN ? 1 : 2;
    if (g->length == 0)
        g->direction = 0;
}

/* Headers that are torn, and whole ones whose payload is then cut. */
static void tear(struct generator *g) {
    const uint16_t torn_burst = g->bench.options.bursts ? 521 : 0;
    const uint16_t headers[][2] = {{521, 2}, {521, 3},        {0xFFFF, 3}, {0x0208, 0x0200},
                                   {0, 0},   {torn_burst, 6}, {0, 0x0101}, {31, 0x0103},
                                   {1, 1},   {520, 1},        {1, 5},      {13, 5},
                                   {0, 4},   {5, 4},          {7, 4},      {6, 4},
                                   {8, 2},   {31, 3},         {520, 3},    {1, 2}};
    const uint16_t *header = PICK(&g->random, headers);
    uint8_t bytes[RECORD_HEADER + TORN_PAYLOAD_MOST] = {0};
    record_store(bytes, 2, header[0]);
    record_store(bytes + 2, 2, header[1]);
    uint32_t payload = header[0] < TORN_PAYLOAD_MOST ? header[0] : TORN_PAYLOAD_MOST;
    size_t count = chance(&g->random, 25) ? 1 + below(&g->random, 3)
                                          : RECORD_HEADER + below(&g->random, payload);
    fwrite(bytes, 1, count, stdout);
}

static int generate(uint64_t seed, uint64_t events, bool torn, struct bench_options options) {
    struct generator g = {.random = {seed}};
    bench_open(&g.bench, options);
    for (uint64_t i = 0; i < events && !ferror(stdout); i++) {
        compose(&g);
        follow(&g);
        record_write(stdout, &g.record);
    }
    if (torn)
        tear(&g);
    bench_close(&g.bench);
    return command_end(EXIT_FINE);
}

int main(int argc, char **argv) {
    struct bench_arguments arguments = bench_arguments(argv, help);
    const char *argument;
    uint64_t numbers[2];
    int given = 0;
    bool torn = false;
    (void)argc;
    command_begin(argv[0]);
    while ((argument = bench_argument(&arguments)) != NULL) {
        if (strcmp(argument, "--torn") == 0)
            torn = true;
        else if (given == 2 || !command_number(argument, UINT64_MAX, &numbers[given++]))
            return command_misused("%s is neither an option nor one of two numbers", argument);
    }
    if (given != 2)
        return command_misused("a seed and a number of events are needed");
    return generate(numbers[0], numbers[1], torn, arguments.options);
}
