// Each allocation of a run, a session, a study and the look-ups that need memory is refused in turn. A call then says so and leaves
// nothing, and the same call with memory says what it says anyway; a session goes on with the next record, and gives the same output in
// the end. Nothing is left allocated.
#include "plantbal.h"
#include <dlfcn.h>
#include <stdio.h>
#include <stdlib.h>
#include <string.h>

static long left = -1, live;

static int is_refused(void) { return left > 0 && --left == 0; }

void *malloc(size_t size) {
    static void *(*real)(size_t);
    if (!real) real = (void *(*)(size_t))dlsym(RTLD_NEXT, "malloc");
    if (is_refused()) return NULL;
    void *made = real(size);
    live += made != NULL;
    return made;
}

void *realloc(void *old, size_t size) {
    static void *(*real)(void *, size_t);
    if (!real) real = (void *(*)(void *, size_t))dlsym(RTLD_NEXT, "realloc");
    if (is_refused()) return NULL;
    void *made = real(old, size);
    live += old == NULL && made != NULL;
    return made;
}

void free(void *old) {
    static void (*real)(void *);
    if (!real) real = (void (*)(void *))dlsym(RTLD_NEXT, "free");
    live -= old != NULL;
    real(old);
}

static unsigned char input[1 << 18], wanted[1 << 20], got[1 << 20], codes[1 << 16];
static size_t length, count;

static int fail(const char *what, long at) {
    printf("starve: %s, at allocation %ld\n", what, at);
    return 1;
}

// Refuses each allocation of a run in turn, and makes the same call again.
static int starve_run(const plantbal_options *options) {
    plantbal_session answer = PLANTBAL_SESSION;
    const int anyway = plantbal_run(options, input, length, answer);
    if (plantbal_session_output(answer, wanted, sizeof wanted, &count)) return fail("no output", 0);
    plantbal_session_free(answer);
    for (long at = 1;; at++) {
        long before = live;
        size_t size;
        left = at;
        int status = plantbal_run(options, input, length, answer);
        int was_refused = left == 0;
        left = -1;
        if (was_refused && status != PLANTBAL_NO_MEMORY) return fail("another status", at);
        if (live != before && was_refused) return fail("blocks are left", at);
        if (was_refused) status = plantbal_run(options, input, length, answer);
        if (status != anyway) return fail("another status with memory", at);
        if (plantbal_session_output(answer, got, sizeof got, &size) || size != count || memcmp(got, wanted, size)) return fail("another output with memory", at);
        plantbal_session_free(answer);
        if (live != before) return fail("blocks are left with memory", at);
        if (!was_refused) {
            printf("starve: %ld allocations of a run\n", at - 1);
            return 0;
        }
    }
}

// Refuses each allocation of a session in turn, and gives what wasn't taken again.
static int starve_session(const plantbal_options *options) {
    size_t whole = count;
    long again = 0;
    for (long at = 1;; at++) {
        plantbal_session session = PLANTBAL_SESSION;
        long before = live;
        size_t skip = 0, taken, size;
        int status;
        left = at;
        while (plantbal_session_new(options, session) == PLANTBAL_NO_MEMORY) {}
        while ((status = plantbal_session_rows(session, input, length, skip, codes, sizeof codes, &taken)) == PLANTBAL_NO_MEMORY) {
            skip += taken;
            again++;
        }
        int was_refused = left == 0;
        left = -1;
        if (status) return fail("another status of a block", at);
        if (plantbal_session_output(session, got, 10, &size) != PLANTBAL_SMALL_BUFFER) return fail("a small buffer", at);
        if (plantbal_session_output(session, got, sizeof got, &size) || size != whole || memcmp(got, wanted, size)) return fail("another output", at);
        plantbal_session_free(session);
        plantbal_session_free(session);
        if (live != before) return fail("blocks of a session are left", at);
        if (!was_refused) {
            printf("starve: %ld allocations of a session, %ld blocks given again\n", at - 1, again);
            return 0;
        }
    }
}

// Refuses each allocation of a study in turn: nothing is held then, and the same call with memory says what it said before.
static int starve_study(void) {
    static const plantbal_measured_stream streams[] = {
        {0, 1, true, 500, {1, 0}}, {0, 1, true, 500, {1, 0}}, {1, 2, true, 2000, {1, 0}}, {2, 0, true, 1000, {1, 0}}, {1, 2, false, 0, {0, 0}}};
    static const plantbal_critical_row limits[] = {{1, 6635}, {2, 9210}};
    plantbal_study_options options = PLANTBAL_STUDY_OPTIONS;
    plantbal_study study = PLANTBAL_STUDY;
    plantbal_result anyway;
    size_t wrong;
    options.eliminate = 2;
    if (plantbal_study_new(&options, limits, 2, 3, streams, 5, study, &wrong)) return fail("no study", 0);
    if (plantbal_study_stream(study, 0, 4, &anyway)) return fail("no stream of a study", 0);
    plantbal_study_free(study);
    for (long at = 1;; at++) {
        plantbal_studied counts;
        plantbal_result result;
        long before = live;
        left = at;
        int status = plantbal_study_new(&options, limits, 2, 3, streams, 5, study, &wrong);
        int was_refused = left == 0;
        left = -1;
        if (status != (was_refused ? PLANTBAL_NO_MEMORY : PLANTBAL_DONE)) return fail("another status of a study", at);
        if (was_refused && plantbal_study_counts(study, &counts) != PLANTBAL_BAD_HANDLE) return fail("a study is held", at);
        if (was_refused && plantbal_study_new(&options, limits, 2, 3, streams, 5, study, &wrong)) return fail("no study with memory", at);
        if (plantbal_study_stream(study, 0, 4, &result) || result.flow.low != anyway.flow.low) return fail("another study", at);
        plantbal_study_free(study);
        plantbal_study_free(study);
        if (live != before) return fail("blocks of a study are left", at);
        if (!was_refused) {
            printf("starve: %ld allocations of a study\n", at - 1);
            return 0;
        }
    }
}

// Refuses each allocation of one look-up in turn: it says so, and the same call with memory finds what is there.
static int starve_look(plantbal_session session, int (*look)(plantbal_session)) {
    for (long at = 1;; at++) {
        long before = live;
        left = at;
        int status = look(session);
        int was_refused = left == 0;
        left = -1;
        if (status != (was_refused ? PLANTBAL_NO_MEMORY : PLANTBAL_DONE)) return fail("another status of a look-up", at);
        if (was_refused && look(session)) return fail("another status of a look-up with memory", at);
        if (live != before) return fail("blocks of a look-up are left", at);
        if (!was_refused) return 0;
    }
}

static plantbal_measured_stream streams[4000];
static plantbal_name node_names[1001], stream_names[4000];

static int graph(plantbal_session session) {
    plantbal_graph_size size;
    return plantbal_session_period_graph(session, 0, streams, 4000, &size);
}

static int names(plantbal_session session) {
    size_t nodes, many;
    return plantbal_session_period_names(session, 0, node_names, 1001, stream_names, 4000, &nodes, &many);
}

static int classes(plantbal_session session) {
    size_t many;
    return plantbal_session_classes(session, codes, 4000, &many);
}

static int starve_looks(const plantbal_options *options) {
    plantbal_session session = PLANTBAL_SESSION;
    size_t taken;
    if (plantbal_session_new(options, session)) return fail("no session", 0);
    if (plantbal_session_rows(session, input, length, 0, codes, sizeof codes, &taken)) return fail("no rows", 0);
    int failed = starve_look(session, graph) || starve_look(session, names) || starve_look(session, classes);
    plantbal_session_free(session);
    return failed;
}

int main(int argc, char **argv) {
    plantbal_options options = PLANTBAL_OPTIONS;
    FILE *file = argc > 1 ? fopen(argv[1], "rb") : NULL;
    if (!file) return 2;
    length = fread(input, 1, sizeof input, file);
    fclose(file);
    setvbuf(stdout, NULL, _IONBF, 0);
    return starve_run(&options) || starve_session(&options) || starve_looks(&options) || starve_study();
}
