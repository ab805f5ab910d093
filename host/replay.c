/* replay: replays a session through the bridge it is linked with; prints what the bench prints. */
#include "bench.h"
#include "command.h"
#include "explain.h"

#include <stdio.h>
#include <string.h>

static const char help[] =
    "[OPTION..] [FILE]\n"
    "Replays a session of records through the bridge, the proved one in replay and the one "
    "written\n"
    "by hand in second, and prints, for each event, the answer number and then the reply's bytes "
    "or\n"
    "the operations; with --store the number of the store first, on a line of its own. Without\n"
    "FILE, or for -, it reads standard input.\n"
    "  --explain       under each answer a line that says in words what came, what the bridge\n"
    "                  answered and how it then stands\n" BENCH_OPTIONS_HELP
    "Status 0: every event is answered; 1: the session is torn, and the last line says torn;\n"
    "2: bad usage, or a file that cannot be read or written.\n";

struct replay {
    struct bench bench;
    bool explains;
};

static void answer(void *context, const struct record *record) {
    struct replay *replay = context;
    const struct bench *bench = &replay->bench;
    uint64_t outcome = bench_event(&replay->bench, record);
    const uint8_t *reply = bench_reply(bench, outcome);
    uint32_t count = thrandue_count(outcome);
    printf("%u", (unsigned)thrandue_answer(outcome));
    for (uint32_t i = 0; i < count; i++) {
        if (record_makes_operations(record))
            printf(" %04X", (unsigned)bench->operations[i]);
        else
            printf(" %02X", (unsigned)reply[i]);
    }
    putchar('\n');
    if (replay->explains)
        explain_event(bench, record, outcome);
}

static void answer_store(const struct replay *replay, uint8_t number) {
    printf("%u\n", (unsigned)number);
    if (replay->explains)
        explain_store(&replay->bench, number);
}

static int run(const char *name, struct bench_options options, bool explains) {
    struct replay replay = {.explains = explains};
    uint8_t number = bench_open(&replay.bench, options);
    if (options.store != NULL)
        answer_store(&replay, number);
    int status = record_each(name, options.bursts, answer, &replay);
    if (status == EXIT_REFUSED)
        puts("torn");
    bench_close(&replay.bench);
    return command_end(status);
}

int main(int argc, char **argv) {
    struct bench_arguments arguments = bench_arguments(argv, help);
    const char *name = NULL;
    const char *argument;
    bool explains = false;
    (void)argc;
    command_begin(argv[0]);
    while ((argument = bench_argument(&arguments)) != NULL) {
        if (strcmp(argument, "--explain") == 0)
            explains = true;
        else if (command_is_option(argument))
            return command_misused("there is no option %s", argument);
        else if (name != NULL)
            return command_misused("%s is a second file", argument);
        else
            name = argument;
    }
    return run(name == NULL ? "-" : name, arguments.options, explains);
}
