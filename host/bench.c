/* The bench: a bridge from power-on, with the memory and the rooms that are lent to it. */
#include "bench.h"

#include "layout.h"

#include <stdlib.h>
#include <string.h>

enum {
    ERASED = 0xFF
};

static size_t *named_size(struct bench_options *options, const char *name) {
    if (strcmp(name, "--memory") == 0)
        return &options->memory;
    if (strcmp(name, "--reply") == 0)
        return &options->reply;
    return strcmp(name, "--operations") == 0 ? &options->operations : NULL;
}

static uint32_t *named_number(struct bench_options *options, const char *name) {
    if (strcmp(name, "--page") == 0)
        return &options->page;
    return strcmp(name, "--drives") == 0 ? &options->drives : NULL;
}

static bool *named_fact(struct bench_options *options, const char *name) {
    if (strcmp(name, "--bus-powered") == 0)
        return &options->bus_powered;
    return strcmp(name, "--bursts") == 0 ? &options->bursts : NULL;
}

struct bench_arguments bench_arguments(char **argv, const char *help) {
    return (struct bench_arguments){
        .rest = argv + 1,
        .help = help,
        .options = {.memory = 2048, .reply = 4096, .operations = 11, .page = 256, .drives = 1},
    };
}

const char *bench_argument(struct bench_arguments *arguments) {
    const char *argument;
    while ((argument = *arguments->rest) != NULL) {
        arguments->rest++;
        if (strcmp(argument, "--help") == 0)
            exit(command_help(arguments->help));
        size_t *size = named_size(&arguments->options, argument);
        uint32_t *number = named_number(&arguments->options, argument);
        bool *fact = named_fact(&arguments->options, argument);
        if (size != NULL)
            *size = command_size_after(&arguments->rest, argument);
        else if (number != NULL)
            *number = command_number_after(&arguments->rest, argument);
        else if (fact != NULL)
            *fact = true;
        else if (strcmp(argument, "--store") == 0)
            arguments->options.store = command_file_after(&arguments->rest, argument);
        else
            return argument;
    }
    return NULL;
}

static void *room(size_t bytes) {
    void *lent = command_room(bytes);
    if (bytes != 0)
        memset(lent, ERASED, bytes);
    return lent;
}

static uint32_t power_on(struct bench *bench) {
    const struct bench_options *options = &bench->options;
    struct command_file *store = &bench->store;
    if (options->store == NULL) {
        *store = (struct command_file){0};
        return thrandue_power_on(bench->image, options->bus_powered, options->page,
                                 options->drives);
    }
    if (!command_read(options->store, store))
        exit(EXIT_MISUSED);
    return thrandue_power_on_with_store(bench->image, options->bus_powered, options->page,
                                        options->drives, store->bytes, store->length);
}

uint8_t bench_open(struct bench *bench, struct bench_options options) {
    bench->options = options;
    bench->image = room(sizeof *bench->image);
    bench->memory = room(options.memory);
    bench->reply = room(options.reply);
    bench->operations = room(options.operations * sizeof *bench->operations);
    bench->payload = room(RECORD_PAYLOAD_MOST);
    return thrandue_answer(power_on(bench));
}

void bench_close(struct bench *bench) {
    free(bench->image);
    free(bench->memory);
    free(bench->reply);
    free(bench->operations);
    free(bench->payload);
    free(bench->store.bytes);
}

static uint64_t control_event(struct bench *bench, const uint8_t *payload, size_t length) {
    size_t setup_len = length < SETUP_LENGTH ? length : SETUP_LENGTH;
    return thrandue_control(bench->image, payload, setup_len, payload + setup_len,
                            length - setup_len, bench->memory, bench->options.memory, bench->reply,
                            bench->options.reply);
}

uint8_t *bench_payload(const struct bench *bench, const struct record *record) {
    return bench->payload + RECORD_PAYLOAD_MOST - record->length;
}

uint64_t bench_event(struct bench *bench, const struct record *record) {
    uint8_t *payload = bench_payload(bench, record);
    memcpy(payload, record->payload, record->length);
    switch (record->kind) {
    case RECORD_BUS_RESET:
        return thrandue_bus_reset(bench->image);
    case RECORD_CONTROL:
        return control_event(bench, payload, record->length);
    case RECORD_PACKET:
        return thrandue_packet(bench->image, payload, record->length, bench->operations,
                               bench->options.operations);
    case RECORD_BURST:
        return thrandue_burst(bench->image, payload, record->length);
    case RECORD_END_MARK:
        return thrandue_end_mark(bench->image, bench->operations, bench->options.operations);
    case RECORD_REPORT:
        return thrandue_report(bench->image, payload[0], payload[1], record_load(payload + 2, 4));
    default:
        return thrandue_status(bench->image, bench->reply, bench->options.reply);
    }
}

const uint8_t *bench_reply(const struct bench *bench, uint64_t outcome) {
    return thrandue_reply(outcome, bench->memory, bench->reply);
}
