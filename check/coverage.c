/* coverage: counts the answers that sessions meet, against those that the paper allows. */
#include "bench.h"
#include "command.h"
#include "layout.h"
#include "second_page.h"

#include <stdio.h>
#include <string.h>

static const char help[] =
    "[OPTION..] FILE [[OPTION..] FILE..]\n"
    "Replays sessions and prints how often each event, the control\n"
    "requests one by one, met each answer in each phase before it, - where the paper allows\n"
    "none, and how often with something held; how often a power-on met each number of a store;\n"
    "how often a memory write was done, or crossed a page, at the end of one, by where the page\n"
    "size came from; and how often a packet with nothing wrong but perhaps its LUN was taken, or\n"
    "answered 14, by the number of drives given.\n"
    "The options hold for the files after them:\n" BENCH_OPTIONS_HELP
    "Status 0: all is allowed, and met 100 times or more; 1: it is not, a call changed what it\n"
    "must leave alone or left a wrong LUN told, or a session is torn; 2: bad usage, or a file\n"
    "that cannot be read.\n";

enum {
    PHASES = 5,
    ANSWERS = UINT8_MAX + 1,
    LEAST = 100,
    SETTINGS_BYTES = 14,
    PAGE_BYTES = 1
};

enum event {
    BUS_RESET,
    SET_CONFIGURATION,
    GET_DESCRIPTOR,
    GET_CONFIGURATION,
    CLEAR_FEATURE,
    GET_STATUS,
    GET_MAX_LUN,
    MASS_STORAGE_RESET,
    LOAD_CONFIG_DATA,
    READ_CONFIG_DATA,
    SOFT_RESET,
    BOGUS_READ,
    OTHER_REQUEST,
    SHORT_SETUP,
    PACKET,
    REPORT,
    STATUS,
    BURST,
    END_MARK,
    POWER_ON,
    EVENTS
};

static const char *const event_names[EVENTS] = {
    "bus reset",         "Set Configuration",  "Get Descriptor",
    "Get Configuration", "Clear Feature",      "Get Status",
    "Get Max LUN",       "Mass Storage Reset", "LOAD_CONFIG_DATA",
    "READ_CONFIG_DATA",  "SOFT_RESET",         "BOGUS_READ",
    "other request",     "setup not 8 bytes",  "command packet",
    "drive report",      "status request",     "burst",
    "end mark",          "power-on, store",
};

static const char *const phase_names[PHASES] = {"awaiting", "busy", "waiting", "stopped",
                                                "after reset"};

/* Phases, as bits. */
enum {
    AWAITING = 0x01,
    BUSY = 0x02,
    WAITING = 0x04,
    STOPPED = 0x08,
    AFTER_RESET = 0x10,
    ANY = AWAITING | BUSY | WAITING | STOPPED | AFTER_RESET
};

/* What the paper allows. Configuration 0 goes with awaiting: all that sets it restores both. A
 * busy bridge never has bulk out halted, or its packet would have been refused, but may have bulk
 * in halted: a reset of either kind leaves halts, and a packet is then accepted. A power-on with a
 * store has no phase before it, and stands with the one that it leaves. */
static const struct {
    enum event event;
    uint8_t answer;
    uint8_t phases;
} allowed[] = {
    {BUS_RESET, 0, ANY},
    {SET_CONFIGURATION, 0, ANY},
    {SET_CONFIGURATION, 5, ANY},
    {SET_CONFIGURATION, 2, ANY},
    {GET_DESCRIPTOR, 0, ANY},
    {GET_DESCRIPTOR, 7, ANY},
    {GET_DESCRIPTOR, 18, ANY},
    {GET_DESCRIPTOR, 19, ANY},
    {GET_DESCRIPTOR, 2, ANY},
    {GET_CONFIGURATION, 0, ANY},
    {GET_CONFIGURATION, 5, ANY},
    {GET_CONFIGURATION, 2, ANY},
    {GET_CONFIGURATION, 3, ANY},
    {CLEAR_FEATURE, 0, ANY},
    {CLEAR_FEATURE, 4, AWAITING},
    {CLEAR_FEATURE, 5, ANY},
    {CLEAR_FEATURE, 2, ANY},
    {GET_STATUS, 0, ANY},
    {GET_STATUS, 4, AWAITING},
    {GET_STATUS, 5, ANY},
    {GET_STATUS, 2, ANY},
    {GET_STATUS, 3, ANY},
    {GET_MAX_LUN, 0, ANY},
    {GET_MAX_LUN, 4, AWAITING},
    {GET_MAX_LUN, 5, ANY},
    {GET_MAX_LUN, 2, ANY},
    {GET_MAX_LUN, 3, ANY},
    {MASS_STORAGE_RESET, 0, ANY},
    {MASS_STORAGE_RESET, 4, AWAITING},
    {MASS_STORAGE_RESET, 5, ANY},
    {MASS_STORAGE_RESET, 2, ANY},
    {LOAD_CONFIG_DATA, 0, ANY},
    {LOAD_CONFIG_DATA, 4, AWAITING},
    {LOAD_CONFIG_DATA, 6, ANY},
    {LOAD_CONFIG_DATA, 7, ANY},
    {LOAD_CONFIG_DATA, 8, ANY},
    {LOAD_CONFIG_DATA, 9, ANY},
    {LOAD_CONFIG_DATA, 10, ANY},
    {LOAD_CONFIG_DATA, 2, ANY},
    {READ_CONFIG_DATA, 0, ANY},
    {READ_CONFIG_DATA, 4, AWAITING},
    {READ_CONFIG_DATA, 6, ANY},
    {READ_CONFIG_DATA, 7, ANY},
    {READ_CONFIG_DATA, 8, ANY},
    {READ_CONFIG_DATA, 2, ANY},
    {READ_CONFIG_DATA, 3, ANY},
    {SOFT_RESET, 0, ANY},
    {SOFT_RESET, 4, AWAITING},
    {SOFT_RESET, 5, ANY},
    {SOFT_RESET, 2, ANY},
    {BOGUS_READ, 0, ANY},
    {BOGUS_READ, 4, AWAITING},
    {BOGUS_READ, 2, ANY},
    {BOGUS_READ, 3, ANY},
    {OTHER_REQUEST, 4, AWAITING},
    {OTHER_REQUEST, 5, ANY},
    {SHORT_SETUP, 1, ANY},
    {PACKET, 0, AWAITING},
    {PACKET, 4, AWAITING},
    {PACKET, 11, AWAITING | WAITING | STOPPED | AFTER_RESET},
    {PACKET, 16, BUSY | WAITING},
    {PACKET, 13, AWAITING},
    {PACKET, 14, AWAITING},
    {PACKET, 15, AWAITING},
    {REPORT, 0, BUSY},
    {REPORT, 4, AWAITING},
    {REPORT, 16, AWAITING | WAITING | STOPPED | AFTER_RESET},
    {REPORT, 17, BUSY},
    {STATUS, 0, WAITING},
    {STATUS, 4, AWAITING},
    {STATUS, 11, ANY},
    {STATUS, 16, AWAITING | BUSY},
    {STATUS, 3, WAITING},
    {BURST, 0, ANY},
    {END_MARK, 0, AWAITING},
    {END_MARK, 4, AWAITING},
    {END_MARK, 11, AWAITING | WAITING | STOPPED | AFTER_RESET},
    {END_MARK, 16, BUSY | WAITING},
    {END_MARK, 13, AWAITING},
    {END_MARK, 14, AWAITING},
    {END_MARK, 15, AWAITING},
    {POWER_ON, 0, AWAITING},
    {POWER_ON, 20, AWAITING},
    {POWER_ON, 21, AWAITING},
    {POWER_ON, 22, AWAITING},
    {POWER_ON, 23, AWAITING},
};

enum {
    ROWS = sizeof allowed / sizeof *allowed
};

/* The kinds of packet that a select is made for, by a bit each: that its block reads registers,
 * action bit 5, that it selects register 6, bits 4, 5 and 7 of byte 11, and the LUN. */
enum {
    SELECTS = 128
};

/* Where a page size came from: a number given at power-on, or a store that replaced it. */
enum page {
    PAGE_32,
    PAGE_64,
    PAGE_128,
    PAGE_256,
    PAGE_OTHER,
    PAGE_OF_STORE,
    PAGES
};

static const char *const page_names[PAGES] = {"32 given",  "64 given",      "128 given",
                                              "256 given", "another given", "a store's"};

/* The number of drives given at power-on. */
enum drives {
    DRIVES_1,
    DRIVES_2,
    DRIVES_OTHER,
    DRIVES
};

static const char *const drives_names[DRIVES] = {"1 drive given", "2 drives given",
                                                 "another given"};

/* LUN bytes: those of the two drives, and from 2 on those that end as they do. */
enum lun {
    LUN_0,
    LUN_1,
    LUN_EVEN,
    LUN_ODD,
    LUNS
};

static const char *const lun_names[LUNS] = {"0", "1", "even", "odd"};

struct coverage {
    struct bench bench;
    struct bench before;
    unsigned long counts[EVENTS][ANSWERS][PHASES];
    unsigned long selects[SELECTS];
    /* How often a memory write at the end of a page was done, and how often it crossed it. */
    unsigned long page_ends[PAGES][2];
    enum page page; /* of the session */
    /* How often a packet with such a LUN was taken, and how often it was not meaningful. */
    unsigned long luns[DRIVES][LUNS][2];
    enum drives drives;               /* of the session */
    uint8_t fragments[PACKET_LENGTH]; /* what is held of a packet in bursts */
    /* How often something was held before it, and how often a burst left so much held. */
    unsigned long holding[EVENTS][ANSWERS];
    unsigned long held[THRANDUE_HELD_TOO_LONG + 1];
    unsigned long faults;
};

static enum event request_of(const struct record *record) {
    static const uint8_t pairs[][2] = {{0x00, 0x09}, {0x80, 0x06}, {0x80, 0x08}, {0x02, 0x01},
                                       {0x82, 0x00}, {0xA1, 0xFE}, {0x21, 0xFF}, {0x40, 0x01},
                                       {0xC0, 0x02}, {0x40, 0x03}, {0xC0, 0x01}};
    if (record->length < SETUP_LENGTH)
        return SHORT_SETUP;
    for (unsigned i = 0; i < sizeof pairs / sizeof *pairs; i++)
        if (memcmp(pairs[i], record->payload, sizeof pairs[i]) == 0)
            return (enum event)(SET_CONFIGURATION + i);
    return OTHER_REQUEST;
}

static enum event event_of(const struct record *record) {
    switch (record->kind) {
    case RECORD_BUS_RESET:
        return BUS_RESET;
    case RECORD_CONTROL:
        return request_of(record);
    case RECORD_PACKET:
        return PACKET;
    case RECORD_REPORT:
        return REPORT;
    case RECORD_BURST:
        return BURST;
    case RECORD_END_MARK:
        return END_MARK;
    default:
        return STATUS;
    }
}

/* What a burst adds to those before it. */
static void hold(struct coverage *coverage, const struct record *record) {
    size_t held = thrandue_held(coverage->before.image);
    if (held + record->length <= PACKET_LENGTH)
        memcpy(coverage->fragments + held, record->payload, record->length);
}

/* The packet that a record hands over, whole or by the bursts before it, NULL where it has not the
 * length of one. */
static const uint8_t *packet_of(const struct coverage *coverage, const struct record *record) {
    if (record->kind == RECORD_PACKET)
        return record->length == PACKET_LENGTH ? record->payload : NULL;
    return record->kind == RECORD_END_MARK && thrandue_held(coverage->before.image) == PACKET_LENGTH
               ? coverage->fragments
               : NULL;
}

static unsigned select_of(const uint8_t *packet) {
    const uint8_t *block = packet + PACKET_BLOCK;
    unsigned action = block[2];
    unsigned device = block[11];
    return (action & 1) | (action >> 5 & 1) << 1 | (block[3] >> 6 & 1U) << 2 |
           (device >> 4 & 3) << 3 | (device >> 7) << 5 | (packet[PACKET_LUN] & 1U) << 6;
}

static enum lun lun_of(const uint8_t *packet) {
    unsigned lun = packet[PACKET_LUN];
    return (enum lun)(lun < 2 ? lun : LUN_EVEN + lun % 2);
}

static void copy(void *to, const void *from, size_t bytes) {
    if (bytes != 0)
        memcpy(to, from, bytes);
}

/* Whether both are alike behind their fronts, which are no longer than they. */
static bool same_from(size_t from, const void *one, const void *other, size_t bytes) {
    return from == bytes ||
           (from < bytes &&
            memcmp((const uint8_t *)one + from, (const uint8_t *)other + from, bytes - from) == 0);
}

static void remember(struct coverage *coverage) {
    const struct bench *bench = &coverage->bench;
    struct bench *before = &coverage->before;
    *before->image = *bench->image;
    copy(before->memory, bench->memory, bench->options.memory);
    copy(before->reply, bench->reply, bench->options.reply);
    copy(before->operations, bench->operations, bench->options.operations * sizeof(uint16_t));
}

static bool only_reads(enum event event) {
    return event == GET_DESCRIPTOR || event == GET_CONFIGURATION || event == GET_STATUS ||
           event == GET_MAX_LUN || event == READ_CONFIG_DATA || event == BOGUS_READ;
}

static size_t differing(const thrandue_image *one, const thrandue_image *other) {
    size_t count = 0;
    for (size_t i = 0; i < sizeof one->bytes; i++)
        count += one->bytes[i] != other->bytes[i];
    return count;
}

/* 13 and 14 stop the bridge; any other refusal, and a request that only reads, leaves every byte of
 * the image but the one that says how much is held. */
static bool keeps_the_image(const struct coverage *coverage, enum event event, uint8_t answer) {
    const thrandue_image *image = coverage->bench.image;
    const thrandue_image *before = coverage->before.image;
    if (answer == THRANDUE_NOT_VALID || answer == THRANDUE_NOT_MEANINGFUL)
        return thrandue_phase(image) == THRANDUE_STOPPED &&
               thrandue_halts(image) == (THRANDUE_HALT_OUT | THRANDUE_HALT_IN) &&
               thrandue_configuration(image) == thrandue_configuration(before);
    return (answer == THRANDUE_DONE && !only_reads(event)) ||
           differing(image, before) == (thrandue_held(image) != thrandue_held(before));
}

/* Which events drop what is held, by the paper. */
static bool drops(const struct coverage *coverage, enum event event, uint8_t answer) {
    switch (event) {
    case BUS_RESET:
    case PACKET:
    case END_MARK:
        return true;
    case SET_CONFIGURATION:
    case MASS_STORAGE_RESET:
    case SOFT_RESET:
        return answer == THRANDUE_DONE;
    case CLEAR_FEATURE:
        return thrandue_phase(coverage->before.image) == THRANDUE_STOPPED_RESET &&
               thrandue_phase(coverage->bench.image) == THRANDUE_AWAITING;
    default:
        return false;
    }
}

static bool holds_as_it_should(const struct coverage *coverage, const struct record *record,
                               enum event event, uint8_t answer) {
    unsigned held = thrandue_held(coverage->before.image);
    if (drops(coverage, event, answer))
        held = 0;
    if (event == BURST)
        held += record->length;
    if (held > PACKET_LENGTH)
        held = THRANDUE_HELD_TOO_LONG;
    return thrandue_held(coverage->bench.image) == held;
}

/* A part of the memory is inside it, and every other reply is at the front of its room. */
static bool stands_inside(const struct bench *bench, enum event event, uint64_t outcome) {
    const uint8_t *reply = bench_reply(bench, outcome);
    if (event != GET_DESCRIPTOR || thrandue_answer(outcome) != THRANDUE_DONE)
        return reply == bench->reply;
    return reply != bench->reply &&
           (size_t)(reply - bench->memory) + thrandue_count(outcome) <= bench->options.memory;
}

/* What is handed out stands at the front of its room, a descriptor in the memory, and a refusal
 * hands out nothing. */
static bool keeps_the_rooms(const struct coverage *coverage, enum event event, uint64_t outcome) {
    const struct bench *bench = &coverage->bench;
    const struct bench *before = &coverage->before;
    uint32_t count = thrandue_count(outcome);
    uint32_t operations = event == PACKET || event == END_MARK ? count : 0;
    uint32_t bytes = operations != 0 || event == GET_DESCRIPTOR ? 0 : count;
    if (thrandue_answer(outcome) != THRANDUE_DONE && count != 0)
        return false;
    return stands_inside(bench, event, outcome) &&
           same_from(bytes, bench->reply, before->reply, bench->options.reply) &&
           same_from(operations * sizeof(uint16_t), bench->operations, before->operations,
                     bench->options.operations * sizeof(uint16_t));
}

/* Only an accepted write changes the memory, and nothing changes what is lent for reading: setup,
 * host data, packet, burst. */
static bool keeps_the_rest(const struct coverage *coverage, const struct record *record,
                           enum event event, uint64_t outcome) {
    const struct bench *bench = &coverage->bench;
    uint8_t answer = thrandue_answer(outcome);
    bool writes = event == LOAD_CONFIG_DATA && answer == THRANDUE_DONE;
    return keeps_the_image(coverage, event, answer) &&
           holds_as_it_should(coverage, record, event, answer) &&
           keeps_the_rooms(coverage, event, outcome) &&
           (writes ||
            same_from(0, bench->memory, coverage->before.memory, bench->options.memory)) &&
           same_from(0, bench_payload(bench, record), record->payload, record->length);
}

/* Of a busy bridge the LUN of the packet that made it so, and of any other none. */
static bool tells_the_lun(const struct coverage *coverage, const uint8_t *packet) {
    const thrandue_image *image = coverage->bench.image;
    uint8_t lun = thrandue_lun(coverage->before.image);
    if (thrandue_phase(image) != THRANDUE_BUSY)
        lun = THRANDUE_NO_LUN;
    else if (thrandue_phase(coverage->before.image) != THRANDUE_BUSY && packet != NULL)
        lun = packet[PACKET_LUN];
    return thrandue_lun(image) == lun;
}

/* At the end of a page is a write that ends with it and is done, or that goes a byte beyond and
 * crosses it; with a store's page size, one that the number given would have answered otherwise. */
static void count_page_end(struct coverage *coverage, const uint8_t *setup, uint8_t answer) {
    uint32_t page = second_page(coverage->bench.options.page);
    uint32_t end = record_load(setup + 4, 2) % page + record_load(setup + 6, 2);
    bool crosses = answer == THRANDUE_CROSSES_PAGE;
    if (record_load(setup + 2, 2) != PLACE_MEMORY || (answer != THRANDUE_DONE && !crosses))
        return;
    if (coverage->page == PAGE_OF_STORE ? crosses != (end > page) : end == page + crosses)
        coverage->page_ends[coverage->page][crosses]++;
}

/* A packet that is judged by its LUN has nothing wrong before it, and its flags and block length
 * are right. */
static void count_packet(struct coverage *coverage, const uint8_t *packet, uint64_t outcome) {
    uint8_t answer = thrandue_answer(outcome);
    bool refused = answer == THRANDUE_NOT_MEANINGFUL;
    uint8_t length = packet[PACKET_BLOCK_LENGTH];
    if (thrandue_count(outcome) != 0)
        coverage->selects[select_of(packet)]++;
    if ((refused || answer == THRANDUE_DONE || answer == THRANDUE_OPERATION_ROOM) &&
        (packet[PACKET_FLAGS] & ~FLAGS_IN) == 0 && length >= 1 && length <= BLOCK_LENGTH)
        coverage->luns[coverage->drives][lun_of(packet)][refused]++;
}

static void count_event(void *context, const struct record *record) {
    struct coverage *coverage = context;
    enum event event = event_of(record);
    uint8_t phase = thrandue_phase(coverage->bench.image);
    remember(coverage);
    uint64_t outcome = bench_event(&coverage->bench, record);
    uint8_t answer = thrandue_answer(outcome);
    const uint8_t *packet = packet_of(coverage, record);
    coverage->counts[event][answer][phase]++;
    coverage->holding[event][answer] += thrandue_held(coverage->before.image) != 0;
    coverage->held[thrandue_held(coverage->bench.image)] += event == BURST;
    if (packet != NULL)
        count_packet(coverage, packet, outcome);
    if (event == BURST)
        hold(coverage, record);
    if (event == LOAD_CONFIG_DATA)
        count_page_end(coverage, record->payload, answer);
    bool keeps = keeps_the_rest(coverage, record, event, outcome);
    if (keeps && tells_the_lun(coverage, packet))
        return;
    coverage->faults++;
    command_say("%s, answer %u while %s: %s", event_names[event], (unsigned)answer,
                phase_names[phase],
                keeps ? "left a wrong LUN told" : "changed what it must leave alone");
}

static enum page page_given(uint32_t page) {
    switch (page) {
    case 32:
        return PAGE_32;
    case 64:
        return PAGE_64;
    case 128:
        return PAGE_128;
    case 256:
        return PAGE_256;
    default:
        return PAGE_OTHER;
    }
}

static enum drives drives_given(uint32_t drives) {
    if (drives == 1)
        return DRIVES_1;
    return drives == 2 ? DRIVES_2 : DRIVES_OTHER;
}

/* A store changes, of the image that a power-on without it makes, fourteen bytes and the one with
 * the page size, and no more; one that is refused changes none. */
static void power_on(struct coverage *coverage, struct bench_options options) {
    uint8_t answer = bench_open(&coverage->bench, options);
    bool stored = options.store != NULL && answer == THRANDUE_DONE;
    coverage->page = stored ? PAGE_OF_STORE : page_given(options.page);
    coverage->drives = drives_given(options.drives);
    if (options.store != NULL)
        coverage->counts[POWER_ON][answer][thrandue_phase(coverage->bench.image)]++;
    options.store = NULL;
    bench_open(&coverage->before, options);
    size_t changed = differing(coverage->bench.image, coverage->before.image);
    if (changed <= (stored ? SETTINGS_BYTES + PAGE_BYTES : 0))
        return;
    coverage->faults++;
    command_say("power-on, answer %u: changed what it must leave alone", (unsigned)answer);
}

static int count_session(struct coverage *coverage, const char *name,
                         struct bench_options options) {
    power_on(coverage, options);
    int status = record_each(name, options.bursts, count_event, coverage);
    bench_close(&coverage->bench);
    bench_close(&coverage->before);
    return status;
}

static uint8_t allowed_phases(enum event event, uint8_t answer) {
    for (size_t i = 0; i < ROWS; i++)
        if (allowed[i].event == event && allowed[i].answer == answer)
            return allowed[i].phases;
    return 0;
}

static void judge(struct coverage *coverage, enum event event, uint8_t answer) {
    uint8_t phases = allowed_phases(event, answer);
    for (unsigned phase = 0; phase < PHASES; phase++) {
        unsigned long count = coverage->counts[event][answer][phase];
        bool is_allowed = phases >> phase & 1;
        if (is_allowed ? count >= LEAST : count == 0)
            continue;
        coverage->faults++;
        command_say("%s, answer %u while %s: met %lu times, %s", event_names[event],
                    (unsigned)answer, phase_names[phase], count,
                    is_allowed ? "too seldom" : "and the paper does not allow it");
    }
}

/* Whatever an event meets, it meets with something held too; and packets are cut at every place. */
static void judge_bursts(struct coverage *coverage) {
    for (size_t i = 0; i < ROWS; i++) {
        if (allowed[i].event == POWER_ON ||
            coverage->holding[allowed[i].event][allowed[i].answer] >= LEAST)
            continue;
        coverage->faults++;
        command_say("%s, answer %u with something held: met too seldom",
                    event_names[allowed[i].event], (unsigned)allowed[i].answer);
    }
    for (unsigned held = 0; held <= THRANDUE_HELD_TOO_LONG; held++) {
        if (coverage->held[held] >= LEAST)
            continue;
        coverage->faults++;
        command_say("a burst that leaves %u bytes held: met too seldom", held);
    }
}

static void judge_selects(struct coverage *coverage) {
    for (unsigned select = 0; select < SELECTS; select++) {
        if (coverage->selects[select] >= LEAST)
            continue;
        coverage->faults++;
        command_say("a packet with a select of kind 0x%02X: met too seldom", select);
    }
}

static void judge_pages(struct coverage *coverage) {
    for (unsigned page = 0; page < PAGES; page++) {
        if (coverage->page_ends[page][0] >= LEAST && coverage->page_ends[page][1] >= LEAST)
            continue;
        coverage->faults++;
        command_say("a page's end, page size %s: met too seldom", page_names[page]);
    }
}

/* LUN 0 is taken, LUN 1 of two drives too, and no other is. */
static bool is_taken(unsigned drives, unsigned lun) {
    return lun == LUN_0 || (lun == LUN_1 && drives == DRIVES_2);
}

static void judge_luns(struct coverage *coverage) {
    for (unsigned drives = 0; drives < DRIVES; drives++)
        for (unsigned lun = 0; lun < LUNS; lun++) {
            const unsigned long *counts = coverage->luns[drives][lun];
            bool taken = is_taken(drives, lun);
            if (counts[!taken] >= LEAST && counts[taken] == 0)
                continue;
            coverage->faults++;
            command_say("a LUN byte, %s, %s: taken %lu times, and %lu times not",
                        drives_names[drives], lun_names[lun], counts[0], counts[1]);
        }
}

/* - where the paper allows none. */
static void print_count(unsigned long count, bool is_allowed) {
    if (count == 0 && !is_allowed)
        printf(" %11s", "-");
    else
        printf(" %11lu", count);
}

static void print_row(const struct coverage *coverage, enum event event, uint8_t answer,
                      uint8_t phases) {
    printf("%-18s %6u", event_names[event], (unsigned)answer);
    for (unsigned phase = 0; phase < PHASES; phase++)
        print_count(coverage->counts[event][answer][phase], phases >> phase & 1);
    printf(" %11lu\n", coverage->holding[event][answer]);
}

static void print_luns(const struct coverage *coverage) {
    printf("%-18s %6s %11s %11s\n", "drives", "LUN", "taken", "14");
    for (unsigned drives = 0; drives < DRIVES; drives++)
        for (unsigned lun = 0; lun < LUNS; lun++) {
            printf("%-18s %6s", drives_names[drives], lun_names[lun]);
            print_count(coverage->luns[drives][lun][0], is_taken(drives, lun));
            print_count(coverage->luns[drives][lun][1], !is_taken(drives, lun));
            putchar('\n');
        }
}

static void print_table(const struct coverage *coverage) {
    printf("%-18s %6s", "event", "answer");
    for (unsigned phase = 0; phase < PHASES; phase++)
        printf(" %11s", phase_names[phase]);
    printf(" %11s\n", "holding");
    for (size_t i = 0; i < ROWS; i++)
        print_row(coverage, allowed[i].event, allowed[i].answer, allowed[i].phases);
    printf("%-18s %6s %11s\n", "page size", "0", "10");
    for (unsigned page = 0; page < PAGES; page++)
        printf("%-18s %6lu %11lu\n", page_names[page], coverage->page_ends[page][0],
               coverage->page_ends[page][1]);
    print_luns(coverage);
}

static int conclude(struct coverage *coverage) {
    print_table(coverage);
    for (unsigned event = 0; event < EVENTS; event++)
        for (unsigned answer = 0; answer < ANSWERS; answer++)
            judge(coverage, (enum event)event, (uint8_t)answer);
    judge_bursts(coverage);
    judge_selects(coverage);
    judge_pages(coverage);
    judge_luns(coverage);
    return command_end(coverage->faults == 0 ? EXIT_FINE : EXIT_REFUSED);
}

int main(int argc, char **argv) {
    static struct coverage coverage;
    struct bench_arguments arguments = bench_arguments(argv, help);
    const char *argument;
    bool counted = false;
    (void)argc;
    command_begin(argv[0]);
    while ((argument = bench_argument(&arguments)) != NULL) {
        if (command_is_option(argument))
            return command_misused("there is no option %s", argument);
        int status = count_session(&coverage, argument, arguments.options);
        if (status != EXIT_FINE)
            return status;
        counted = true;
    }
    if (!counted)
        return command_misused("a session is needed");
    return conclude(&coverage);
}
