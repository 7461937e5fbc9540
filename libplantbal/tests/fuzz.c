// A fuzzer's one input: its first byte says what is done with the others. A run and a session of blocks must agree, and nothing may
// be left allocated or read beyond its end.
//
//     clang -g -O1 -fsanitize=fuzzer,address,undefined -Ilibplantbal libplantbal/tests/fuzz.c libplantbal/out/libplantbal.a
#include "plantbal.h"
#include <stdlib.h>
#include <string.h>

static unsigned char *output_of(plantbal_session session, size_t *count) {
    unsigned char none, *text;
    plantbal_session_output(session, &none, 0, count);
    text = malloc(*count + 1);
    if (plantbal_session_output(session, text, *count, count)) abort();
    return text;
}

// The graph of each period and the classes of the plant, in rooms that are just large enough.
static void graphs(plantbal_session session) {
    plantbal_counts counts;
    plantbal_graph_size size = {0, 0, 0};
    size_t count, nodes, streams;
    if (plantbal_session_counts(session, &counts)) abort();
    unsigned char *classes = malloc(counts.streams);
    plantbal_measured_stream *given = malloc(counts.streams * sizeof *given);
    plantbal_name *names = malloc((counts.nodes + counts.streams) * sizeof *names);
    if (plantbal_session_classes(session, classes, counts.streams, &count) || count != counts.streams) abort();
    for (uint32_t i = 0; i <= counts.periods; i++) {
        int status = plantbal_session_period_graph(session, i, given, counts.streams, &size);
        int named = plantbal_session_period_names(session, i, names, counts.nodes, names + counts.nodes, counts.streams, &nodes, &streams);
        if (named != (i < counts.periods ? PLANTBAL_DONE : PLANTBAL_NOT_THERE)) abort();
        if (status != named && !(named == PLANTBAL_DONE && status == PLANTBAL_BAD_STREAM && size.over < counts.streams)) abort();
        if (status == PLANTBAL_DONE && (size.nodes != nodes || size.streams != streams)) abort();
    }
    free(classes);
    free(given);
    free(names);
}

// A run, and the same records in blocks of this many codes.
static void run_both(const unsigned char *data, size_t length, size_t room) {
    plantbal_options options = PLANTBAL_OPTIONS;
    options.sweeps = 50;
    plantbal_session run = PLANTBAL_SESSION, session = PLANTBAL_SESSION;
    size_t taken, skip = 0, one, other, refused = 0;
    unsigned char codes[256];
    int status = plantbal_run(&options, data, length, run);
    if (status > PLANTBAL_DONE_REFUSED) abort();
    if (plantbal_session_new(&options, session)) abort();
    do {
        if (plantbal_session_rows(session, data, length, skip, codes, room, &taken)) abort();
        for (size_t i = 0; i < taken; i++) refused |= codes[i];
        skip += taken;
    } while (taken == room);
    unsigned char *first = output_of(run, &one), *second = output_of(session, &other);
    if (one != other || memcmp(first, second, one) || status != (refused != 0)) abort();
    graphs(session);
    free(first);
    free(second);
    plantbal_session_free(run);
    plantbal_session_free(session);
}

// Records whose fields end at places that the data gives, in blocks of the counts that it gives.
static void records(plantbal_session session, const unsigned char *data, size_t length) {
    size_t ends[8], counts[4], taken = 9, count = length < 12 ? 0 : 8;
    unsigned char codes[4];
    for (size_t i = 0; i < count; i++) ends[i] = data[i] % 64;
    for (size_t i = 0; i < 4 && count; i++) counts[i] = data[8 + i] % 10;
    int status = plantbal_session_records(session, data, length, ends, count, counts, count / 2, codes, 3, &taken);
    if (status != PLANTBAL_DONE && status != PLANTBAL_USAGE) abort();
    if (taken > 3 || taken > count / 2 || (status == PLANTBAL_DONE && taken != (count ? 3 : 0))) abort();
    for (size_t i = 0; i < taken; i++)
        if (codes[i] > PLANTBAL_CAUSE_FULL) abort();
}

// A row whose fields end at places that the data gives.
static void row(const unsigned char *data, size_t length) {
    plantbal_options options = PLANTBAL_OPTIONS;
    plantbal_session session = PLANTBAL_SESSION;
    size_t ends[8], count = length < 8 ? length : 8;
    unsigned char code = 0;
    for (size_t i = 0; i < count; i++) ends[i] = data[i] % 64;
    if (plantbal_session_new(&options, session)) abort();
    int status = plantbal_session_row(session, data, length, ends, count, &code);
    if (status != PLANTBAL_DONE && status != PLANTBAL_USAGE) abort();
    if (code > PLANTBAL_CAUSE_FULL) abort();
    records(session, data, length);
    plantbal_session_free(session);
}

// A study of up to 8 nodes whose streams the data gives, four bytes each; what it says is read past its ends.
static void study(const unsigned char *data, size_t length) {
    plantbal_study_options options = PLANTBAL_STUDY_OPTIONS;
    plantbal_measured_stream streams[32];
    plantbal_critical_row limit = {1, length > 1 ? data[1] * 100 : 0};
    plantbal_study study = PLANTBAL_STUDY;
    plantbal_studied counts = {0};
    plantbal_result result;
    plantbal_member member;
    plantbal_wide price;
    size_t wrong = 99, count = 0;
    bool inside;
    if (length < 2) return;
    options.sweeps = 50;
    options.eliminate = data[0] >> 6;
    options.tests = options.has_measure = options.has_nodal = data[0] & 32;
    options.measure = options.nodal = data[1] * 100;
    for (size_t i = 2; i + 4 <= length && count < 32; i += 4, count++) {
        plantbal_measured_stream one = {data[i] % 9, data[i + 1] % 9, data[i] & 128, (int64_t)data[i + 2] << (data[i + 1] >> 4), {data[i + 3], 0}};
        streams[count] = one;
    }
    int status = plantbal_study_new(&options, &limit, 1, data[0] & 15, streams, count, study, &wrong);
    if (status == PLANTBAL_BAD_STREAM && wrong >= count) abort();
    if (status != PLANTBAL_DONE && status != PLANTBAL_USAGE && status != PLANTBAL_BAD_STREAM) abort();
    if (plantbal_study_counts(study, &counts) != (status ? PLANTBAL_BAD_HANDLE : PLANTBAL_DONE)) abort();
    if (counts.stages != (status ? 0 : counts.taken + 1)) abort();
    for (size_t stage = 0; stage <= counts.stages && status == PLANTBAL_DONE; stage++)
        for (uint32_t i = 0; i <= count; i++) {
            int found = plantbal_study_stream(study, stage, i, &result);
            if ((found == PLANTBAL_DONE) != (stage < counts.stages && i < count)) abort();
            if (found) continue;
            for (size_t k = 0; k <= result.members; k++)
                if ((plantbal_study_member(study, stage, i, k, &member) == PLANTBAL_DONE) != (k < result.members)) abort();
            if ((plantbal_study_inside(study, stage, i, 0, &inside) == PLANTBAL_DONE) == result.cycle) abort();
            if (plantbal_study_price(study, stage, 0, &price)) abort();
        }
    plantbal_study_free(study);
}

int LLVMFuzzerTestOneInput(const unsigned char *data, size_t length) {
    if (length == 0 || length > 4096) return 0;
    unsigned char how = data[0] & 7;
    data++, length--;
    if (how == 0) {
        plantbal_session answer = PLANTBAL_SESSION;
        if (plantbal_check(data, length, answer) > PLANTBAL_DONE_REFUSED) abort();
        plantbal_session_free(answer);
    } else if (how == 1) {
        row(data, length);
    } else if (how >= 4) {
        study(data, length);
    } else {
        run_both(data, length, how == 2 ? 256 : 7);
    }
    return 0;
}
