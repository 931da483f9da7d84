// trace AMX_TRACE FOLDER: the trace program over files of mixed steps, beside the same steps called alone, in one run. The files are written into the
// folder and removed again. First its peak memory at three lengths; then all that it prints is compared; then it is timed at two lengths, and the longer
// time held to that of the steps alone: the ratio is to be at most 1.2. The program's times are those of a whole process, with its output in a new file.
// Times are the least of interleaved runs: what else the machine does only adds to them.
#include <errno.h>
#include <fcntl.h>
#include <spawn.h>
#include <stdio.h>
#include <stdlib.h>
#include <string.h>
#include <sys/resource.h>
#include <sys/wait.h>
#include <unistd.h>
#include "draw.h"

enum { SHORT, MIDDLE, LONG, SIZES };
enum { RUNS = 15, MOST = 1000000, LINE = 24, Z_LINES = 64 * 160, Z = 1024, ROW = 64, PATH = 4096 };
static const int steps_of[SIZES] = {1000, 100000, MOST};

// a trace file of two sections up to its steps, and a step there
struct head {
    uint32_t sections;
    struct { uint16_t kind, zero; uint32_t offset, length; } entry[2];
    uint8_t registers[AMX_COUNT_AT];
};
struct record { uint8_t instruction, generation, padding[6]; uint64_t operand; };
_Static_assert(sizeof(struct head) == 5148 && sizeof(struct record) == 16, "a trace file's bytes, without gaps");

struct cost { double seconds; long kilobytes; };

extern char **environ;
static char *program, trace_path[SIZES][PATH], text_path[PATH];
static struct head head;
static struct record list[MOST];
static uint8_t state[ROOM] __attribute__((aligned(64)));
static char expected[LINE * MOST + Z_LINES], printed[LINE * MOST + Z_LINES];

static void stop(const char *what) {
    perror(what);
    exit(1);
}

static void remove_files(void) {
    for (int size = 0; size < SIZES; size++) unlink(trace_path[size]);
    unlink(text_path);
}

static FILE *opened(const char *path, const char *how) {
    FILE *file = fopen(path, how);
    if (!file) stop(path);
    return file;
}

// a step of the mixed list: of the no-ops and refusals that are drawn, one in eight
static struct record draw_record(void) {
    for (;;) {
        struct call c = draw(1, 2);
        struct record r = {.instruction = c.instruction, .generation = c.generation, .operand = c.operand};
        if (amx_normal_answer(r.instruction, r.generation, r.operand) == 0 || below(8) == 0) return r;
    }
}

// A file of the list's first n steps, written as they are drawn: what this process holds would count as memory of those that it starts.
static void write_trace(const char *path, int n) {
    FILE *file = opened(path, "wb");
    seed = 1;
    head = (struct head){2, {{1, 0, 28, AMX_COUNT_AT}, {2, 0, sizeof head, n * sizeof(struct record)}}, {0}};
    for (int i = 0; i < AMX_COUNT_AT; i++) head.registers[i] = normal_byte();
    fwrite(&head, sizeof head, 1, file);
    for (int i = 0; i < n; i++) {
        struct record r = draw_record();
        fwrite(&r, sizeof r, 1, file);
    }
    int failed = ferror(file);
    if (fclose(file) || failed) stop(path);
}

static void read_list(void) {
    FILE *file = opened(trace_path[LONG], "rb");
    if (fread(&head, sizeof head, 1, file) != 1 || fread(list, sizeof *list, MOST, file) != MOST) stop(trace_path[LONG]);
    fclose(file);
}

// One run of the trace program.
static struct cost run_trace(int size) {
    char *words[] = {program, trace_path[size], NULL};
    posix_spawn_file_actions_t actions;
    pid_t child;
    int status;
    struct rusage usage;
    unlink(text_path);
    int out = open(text_path, O_WRONLY | O_CREAT | O_EXCL, 0644);
    if (out < 0) stop(text_path);
    posix_spawn_file_actions_init(&actions);
    posix_spawn_file_actions_adddup2(&actions, out, STDOUT_FILENO);
    double start = seconds();
    errno = posix_spawn(&child, program, &actions, NULL, words, environ);
    if (errno || wait4(child, &status, 0, &usage) < 0) stop(program);
    double end = seconds();
    posix_spawn_file_actions_destroy(&actions);
    close(out);
    return (struct cost){end - start, usage.ru_maxrss};
}

static void set_start(void) {
    memset(state, 0, sizeof state);
    memcpy(state, head.registers, sizeof head.registers);
}

static uint64_t step(struct record r, uint64_t serial) { return amx_step(state, LENGTH, r.instruction, r.generation, r.operand, serial); }

// The list's first n steps called alone; no step waits for the count to be read.
static double run_alone(int n) {
    set_start();
    uint64_t serial = 0;
    double start = seconds();
    for (int i = 0; i < n; i++) serial += !AMX_IS_REFUSED(step(list[i], serial));
    return seconds() - start;
}

// The rows of Z that differ from those at the start.
static char *put_rows(char *at) {
    for (int row = 0; row < 64; row++) {
        int place = Z + ROW * row;
        if (memcmp(state + place, head.registers + place, ROW) == 0) continue;
        at += sprintf(at, "z %d ", row);
        for (int i = 0; i < ROW; i++) at += sprintf(at, "%02x", state[place + i]);
        at += sprintf(at, "\n");
    }
    return at;
}

// The text of the first n steps, by the answers that they have when they are called alone; its length.
static size_t expect(int n) {
    int done = 0, no_op = 0;
    char *at = expected;
    set_start();
    for (int i = 0, serial = 0; i < n; i++) {
        uint64_t answer = step(list[i], serial);
        serial += !AMX_IS_REFUSED(answer);
        done += AMX_IS_DONE(answer), no_op += AMX_IS_NO_OP(answer);
        const char *word = AMX_IS_DONE(answer) ? "done" : AMX_IS_NO_OP(answer) ? "no-op" : "refused";
        at += sprintf(at, "step %d %s %d\n", i, word, (int)(answer % AMX_NO_OP));
    }
    at = put_rows(at);
    at += sprintf(at, "steps %d\n", n);
    if (n == MOST) printf("%d mixed steps: done %d, no-op %d, refused %d\n", n, done, no_op, n - done - no_op);
    return at - expected;
}

// Holds what the trace program printed to the text of the steps called alone.
static void compare(int size) {
    run_trace(size);
    FILE *file = opened(text_path, "rb");
    size_t length = expect(steps_of[size]), got = fread(printed, 1, sizeof printed, file);
    fclose(file);
    if (got == length && memcmp(printed, expected, length) == 0) return;
    size_t same = 0, line = 1;
    while (same < got && same < length && printed[same] == expected[same]) line += expected[same++] == '\n';
    fprintf(stderr, "%s, %d steps: line %zu of the text is not that of the steps called alone\n", program, steps_of[size], line);
    exit(1);
}

// The system counts pages in batches, so that some hundred kB more or less are the same.
static void print_memory(void) {
    printf("peak memory of amx_trace:");
    for (int size = 0; size < SIZES; size++) printf("%s %d steps %ld kB", size ? "," : "", steps_of[size], run_trace(size).kilobytes);
    printf("\n");
}

static double least(double a, double b) { return a < b ? a : b; }

static void measure(void) {
    double alone = 1, middle = 1, whole = 1; // seconds a step
    for (int r = 0; r < RUNS; r++) {
        alone = least(alone, run_alone(MOST) / MOST);
        whole = least(whole, run_trace(LONG).seconds / MOST);
        middle = least(middle, run_trace(MIDDLE).seconds / steps_of[MIDDLE]);
    }
    printf("amx_trace, %7d steps         %5.0f ns a step\n", steps_of[MIDDLE], middle * 1e9);
    printf("amx_trace, %7d steps         %5.0f ns a step   ratio to %d steps: %.2f\n", MOST, whole * 1e9, steps_of[MIDDLE], whole / middle);
    printf("the same %7d steps, alone    %5.0f ns a step   ratio of amx_trace to them: %.2f\n", MOST, alone * 1e9, whole / alone);
}

int main(int count, char **words) {
    if (count != 3) {
        fprintf(stderr, "usage: trace AMX_TRACE FOLDER\n");
        return 2;
    }
    program = words[1];
    snprintf(text_path, PATH, "%s/steps.txt", words[2]);
    atexit(remove_files);
    for (int size = 0; size < SIZES; size++) {
        snprintf(trace_path[size], PATH, "%s/%d.trace", words[2], steps_of[size]);
        write_trace(trace_path[size], steps_of[size]);
    }
    print_memory();
    read_list();
    for (int size = 0; size < SIZES; size++) compare(size);
    measure();
}
