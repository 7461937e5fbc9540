// Wrong use that the library answers: handles that hold nothing or already hold a session, numbers outside their limits, small and
// empty buffers, places of fields that aren't in order.
#include "plantbal.h"
#include <stdio.h>
#include <string.h>

static int faults;

static void is(const char *what, long got, long wanted) {
    if (got != wanted) {
        printf("wrong_use: %s: %ld, not %ld\n", what, got, wanted);
        faults++;
    }
}

static const char rows[] = "unit,A\nunit,A\nfrob\n";

static void empty_handles(void) {
    plantbal_session none = PLANTBAL_SESSION;
    unsigned char codes[4], code = 9;
    size_t count = 7, ends[] = {4, 5}, two = 2;
    is("rows without a session", plantbal_session_rows(none, rows, sizeof rows - 1, 0, codes, 4, &count), PLANTBAL_BAD_HANDLE);
    is("none is taken", (long)count, 0);
    is("a row without a session", plantbal_session_row(none, "unitA", 5, ends, 2, &code), PLANTBAL_BAD_HANDLE);
    is("records without a session", plantbal_session_records(none, "unitA", 5, ends, 2, &two, 1, codes, 4, &count), PLANTBAL_BAD_HANDLE);
    is("no record is taken", (long)count, 0);
    count = 7;
    is("output without a session", plantbal_session_output(none, codes, 4, &count), PLANTBAL_BAD_HANDLE);
    is("no byte", (long)count, 0);
    plantbal_session_free(none);
    plantbal_session_free(none);
}

// How much there is of what a handle doesn't hold.
static void counts_of_nothing(void) {
    plantbal_session none = PLANTBAL_SESSION;
    plantbal_study no_study = PLANTBAL_STUDY;
    plantbal_counts counts;
    plantbal_studied studied;
    plantbal_graph_size size = {7, 7, 7};
    plantbal_measured_stream streams[1];
    plantbal_name names[1];
    unsigned char classes[1];
    size_t count = 7, node_count = 7, stream_count = 7;
    memset(&counts, 7, sizeof counts);
    memset(&studied, 7, sizeof studied);
    is("counts without a session", plantbal_session_counts(none, &counts), PLANTBAL_BAD_HANDLE);
    is("none of anything", counts.version | counts.nodes | counts.streams | counts.periods | counts.facts | counts.assays | (counts.edits != 0), 0);
    is("counts without a study", plantbal_study_counts(no_study, &studied), PLANTBAL_BAD_HANDLE);
    is("no stage", studied.stages || studied.taken || studied.stop, 0);
    is("a graph without a session", plantbal_session_period_graph(none, 0, streams, 1, &size), PLANTBAL_BAD_HANDLE);
    is("no size", size.nodes | size.over | (size.streams != 0), 0);
    is("names without a session", plantbal_session_period_names(none, 0, names, 1, names, 1, &node_count, &stream_count), PLANTBAL_BAD_HANDLE);
    is("no name", (long)(node_count + stream_count), 0);
    is("classes without a session", plantbal_session_classes(none, classes, 1, &count), PLANTBAL_BAD_HANDLE);
    is("no class", (long)count, 0);
}

static void one_session(void) {
    plantbal_options options = PLANTBAL_OPTIONS;
    plantbal_session session = PLANTBAL_SESSION;
    unsigned char codes[4] = {9, 9, 9, 9}, code = 9, text[64];
    size_t taken = 9, count, ends[] = {4, 5}, back[] = {4, 3}, beyond[] = {4, 6};
    is("a session", plantbal_session_new(&options, session), PLANTBAL_DONE);
    is("a second one", plantbal_session_new(&options, session), PLANTBAL_BAD_HANDLE);
    is("a run into it", plantbal_run(&options, rows, sizeof rows - 1, session), PLANTBAL_BAD_HANDLE);
    is("a check into it", plantbal_check(rows, sizeof rows - 1, session), PLANTBAL_BAD_HANDLE);
    is("no bytes", plantbal_session_rows(session, rows, 0, 0, codes, 4, &taken), PLANTBAL_DONE);
    is("no record", (long)taken, 0);
    is("no room", plantbal_session_rows(session, rows, sizeof rows - 1, 0, codes, 0, &taken), PLANTBAL_DONE);
    is("still no record", (long)taken, 0);
    is("room for two", plantbal_session_rows(session, rows, sizeof rows - 1, 0, codes, 2, &taken), PLANTBAL_DONE);
    is("two", (long)taken, 2);
    is("the others", plantbal_session_rows(session, rows, sizeof rows - 1, 2, codes + 2, 2, &taken), PLANTBAL_DONE);
    is("one", (long)taken, 1);
    is("the codes", memcmp(codes, "\0\7\1\11", 4), 0);
    is("more passed over than there are", plantbal_session_rows(session, rows, sizeof rows - 1, (size_t)-1, codes, 4, &taken), PLANTBAL_DONE);
    is("none left", (long)taken, 0);
    is("places that go back", plantbal_session_row(session, "unitB", 5, back, 2, &code), PLANTBAL_USAGE);
    is("a place beyond the text", plantbal_session_row(session, "unitB", 5, beyond, 2, &code), PLANTBAL_USAGE);
    is("a row", plantbal_session_row(session, "unitB", 5, ends, 2, &code), PLANTBAL_DONE);
    is("its code", code, 0);
    is("a row without fields", plantbal_session_row(session, "", 0, ends, 0, &code), PLANTBAL_DONE);
    is("a small buffer", plantbal_session_output(session, text, 5, &count), PLANTBAL_SMALL_BUFFER);
    is("the length", (long)count, (long)strlen("refused,2,7,duplicate\nrefused,3,1,kind\n"));
    is("the output", plantbal_session_output(session, text, sizeof text, &count), PLANTBAL_DONE);
    is("its bytes", memcmp(text, "refused,2,7,duplicate\nrefused,3,1,kind\n", count), 0);
    is("no more output", plantbal_session_output(session, text, 0, &count), PLANTBAL_DONE);
    is("it is empty", (long)count, 0);
    plantbal_session_free(session);
    plantbal_session_free(session);
    is("after it is freed", plantbal_session_output(session, text, sizeof text, &count), PLANTBAL_BAD_HANDLE);
    is("another in its place", plantbal_session_new(&options, session), PLANTBAL_DONE);
    plantbal_session_free(session);
}

// Blocks of records whose places aren't those of fields: what stands before the first wrong place is taken.
static void records(void) {
    static const struct {
        const char *what;
        size_t ends[4], counts[2], room;
        int wanted;
        size_t taken;
    } cases[] = {
        {"two records", {4, 5, 9, 10}, {2, 4}, 2, PLANTBAL_DONE, 2},
        {"room for one", {4, 5, 9, 10}, {2, 4}, 1, PLANTBAL_DONE, 1},
        {"no room", {4, 5, 9, 10}, {2, 4}, 0, PLANTBAL_DONE, 0},
        {"no fields", {0, 0, 0, 0}, {0, 0}, 2, PLANTBAL_DONE, 2},
        {"empty fields", {0, 0, 0, 0}, {2, 4}, 2, PLANTBAL_DONE, 2},
        {"places that go back", {5, 4, 9, 10}, {2, 4}, 2, PLANTBAL_USAGE, 0},
        {"places of the second that go back", {4, 5, 3, 10}, {2, 4}, 2, PLANTBAL_USAGE, 1},
        {"a place beyond the text", {4, 5, 9, 11}, {2, 4}, 2, PLANTBAL_USAGE, 1},
        {"all bits", {(size_t)-1, 5, 9, 10}, {2, 4}, 2, PLANTBAL_USAGE, 0},
        {"counts that go back", {4, 5, 9, 10}, {2, 1}, 2, PLANTBAL_USAGE, 1},
        {"more fields than there are", {4, 5, 9, 10}, {2, 5}, 2, PLANTBAL_USAGE, 1},
        {"a count of all bits", {4, 5, 9, 10}, {(size_t)-1, 4}, 2, PLANTBAL_USAGE, 0},
    };
    for (size_t i = 0; i < sizeof cases / sizeof *cases; i++) {
        plantbal_options options = PLANTBAL_OPTIONS;
        plantbal_session session = PLANTBAL_SESSION;
        unsigned char codes[2];
        size_t taken = 9;
        is("a session", plantbal_session_new(&options, session), PLANTBAL_DONE);
        is(cases[i].what, plantbal_session_records(session, "unitAunitB", 10, cases[i].ends, 4, cases[i].counts, 2, codes, cases[i].room, &taken), cases[i].wanted);
        is(cases[i].what, (long)taken, (long)cases[i].taken);
        is("again", plantbal_session_records(session, "", 0, cases[i].ends, 0, cases[i].counts, 0, codes, 2, &taken), PLANTBAL_DONE);
        is("none", (long)taken, 0);
        plantbal_session_free(session);
    }
}

static void limits(void) {
    static const struct {
        const char *what;
        plantbal_options options;
        int wanted;
    } cases[] = {
        {"no gap", {0, 5000, 0, 0, 0}, PLANTBAL_USAGE},
        {"the least gap", {1, 0, 0, 0, 0}, PLANTBAL_DONE},
        {"too great a gap", {1000001, 5000, 0, 0, 0}, PLANTBAL_USAGE},
        {"too many sweeps", {10, 100001, 0, 0, 0}, PLANTBAL_USAGE},
        {"too many rounds", {10, 5000, 21, 0, 0}, PLANTBAL_USAGE},
        {"JSON", {10, 5000, 0, 0, 1}, PLANTBAL_DONE},
        {"another form", {10, 5000, 0, 0, 2}, PLANTBAL_USAGE},
        {"all bits", {~0u, ~0u, ~0u, ~0u, ~0u}, PLANTBAL_USAGE},
        {"any number for tests", {10, 5000, 0, ~0u, 0}, PLANTBAL_DONE},
    };
    for (size_t i = 0; i < sizeof cases / sizeof *cases; i++) {
        plantbal_session session = PLANTBAL_SESSION;
        is(cases[i].what, plantbal_session_new(&cases[i].options, session), cases[i].wanted);
        plantbal_session_free(session);
        is(cases[i].what, plantbal_run(&cases[i].options, "", 0, session), cases[i].wanted);
        plantbal_session_free(session);
    }
}

int main(void) {
    empty_handles();
    counts_of_nothing();
    one_session();
    records();
    limits();
    return faults != 0;
}
