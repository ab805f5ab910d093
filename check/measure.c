/* measure: runs sessions through the bridge it is linked with, to be counted or timed. */
#define _POSIX_C_SOURCE 200809L
#include "command.h"
#include "measured.h"

#include <stdlib.h>
#include <string.h>
#include <time.h>

static const char help[] =
    "run FILE.. | time TIMES FILE.. | state | copy TIMES BYTES\n"
    "Runs sessions of records through the bridge, each from power-on, and prints nothing of what\n"
    "it answers. Among the files, --drives N is the number of drives for those behind it (1).\n"
    "  run     once; prints how many bus resets, control requests, command packets, drive\n"
    "          reports, status requests, bursts and end marks there were\n"
    "  time    all of them TIMES times; prints the nanoseconds for an event, the calls and the\n"
    "          loop around them\n"
    "  state   prints the bytes of the bridge's state\n"
    "  copy    copies as many BYTES, TIMES times\n"
    "Status 1: a torn session; 2: bad usage, or a file that cannot be read.\n";

enum {
    KINDS = RECORD_END_MARK + 1,
    TIMES_MOST = 1000000
};

struct session {
    size_t count;
    struct record *records;
};

static void count_record(void *context, const struct record *record) {
    size_t *count = context;
    (void)record;
    ++*count;
}

static void keep_record(void *context, const struct record *record) {
    struct session *session = context;
    session->records[session->count++] = *record;
}

/* Ends the program where it cannot be had. */
static struct session load(const char *name) {
    struct session session = {0};
    size_t count = 0;
    int status = record_each(name, true, count_record, &count);
    if (status != EXIT_FINE)
        exit(status);
    size_t bytes = count * sizeof *session.records + MEASURED_PAGE - 1;
    session.records = aligned_alloc(MEASURED_PAGE, bytes - bytes % MEASURED_PAGE);
    if (session.records == NULL) {
        command_say("%s: no room for %zu records", name, count);
        exit(EXIT_MISUSED);
    }
    record_each(name, true, keep_record, &session);
    return session;
}

/* The next file, NULL at the end; the drives are those given up to it. Ends the program where no
 * file follows them. */
static const char *next_file(char ***arguments, uint32_t *drives) {
    const char *argument = *(*arguments)++;
    while (argument != NULL && strcmp(argument, "--drives") == 0) {
        *drives = command_number_after(arguments, argument);
        argument = *(*arguments)++;
        if (argument == NULL)
            exit(command_misused("--drives is followed by no file"));
    }
    return argument;
}

static void run(const struct session *session, uint32_t drives) {
    measured_power_on(drives);
    for (size_t i = 0; i < session->count; i++)
        measured_event(&session->records[i]);
}

static void run_all(char **arguments) {
    size_t counts[KINDS] = {0};
    uint32_t drives = 1;
    const char *name;
    while ((name = next_file(&arguments, &drives)) != NULL) {
        struct session session = load(name);
        run(&session, drives);
        for (size_t i = 0; i < session.count; i++)
            counts[session.records[i].kind]++;
        free(session.records);
    }
    for (size_t kind = RECORD_BUS_RESET; kind < KINDS; kind++)
        printf("%zu%c", counts[kind], kind + 1 < KINDS ? ' ' : '\n');
}

static double nanoseconds(void) {
    struct timespec now;
    clock_gettime(CLOCK_MONOTONIC, &now);
    return (double)now.tv_sec * 1e9 + (double)now.tv_nsec;
}

static void time_all(size_t times, char **arguments) {
    double spent = 0;
    double events = 0;
    uint32_t drives = 1;
    const char *name;
    while ((name = next_file(&arguments, &drives)) != NULL) {
        struct session session = load(name);
        double start = nanoseconds();
        for (size_t i = 0; i < times; i++)
            run(&session, drives);
        spent += nanoseconds() - start;
        events += (double)session.count * (double)times;
        free(session.records);
    }
    printf("%.2f\n", spent / events);
}

static int copy(char **arguments) {
    uint64_t times;
    uint64_t bytes;
    if (!command_number(arguments[0], TIMES_MOST, &times) ||
        !command_number(arguments[1], measured_memory_size, &bytes))
        return command_misused("copy takes a number of times, and of bytes at most %zu",
                               measured_memory_size);
    measured_copies((size_t)times, (size_t)bytes);
    return EXIT_FINE;
}

static int timed(char **arguments) {
    uint64_t times;
    if (!command_number(arguments[0], TIMES_MOST, &times))
        return command_misused("time takes a number of times");
    time_all((size_t)times, arguments + 1);
    return EXIT_FINE;
}

static int measure(const char *what, int given, char **arguments) {
    if (strcmp(what, "run") == 0 && given > 0)
        run_all(arguments);
    else if (strcmp(what, "state") == 0 && given == 0)
        printf("%zu\n", measured_state_size);
    else if (strcmp(what, "time") == 0 && given > 1)
        return timed(arguments);
    else if (strcmp(what, "copy") == 0 && given == 2)
        return copy(arguments);
    else
        return command_misused("%s is unknown, or is missing something", what);
    return EXIT_FINE;
}

int main(int argc, char **argv) {
    command_begin(argv[0]);
    if (argc >= 2 && strcmp(argv[1], "--help") == 0)
        return command_help(help);
    if (argc < 2)
        return command_misused("nothing to do");
    return command_end(measure(argv[1], argc - 2, argv + 2));
}
