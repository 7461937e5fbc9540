// Threads, each with runs, sessions and studies of its own, come to the same output as one thread.
#include "plantbal.h"
#include <pthread.h>
#include <stdio.h>
#include <stdlib.h>

static unsigned char input[1 << 18];
static size_t length;

// The sum of the flows of a study, whose last stream closes the balance.
static size_t study(void) {
    static const plantbal_study_options options = PLANTBAL_STUDY_OPTIONS;
    plantbal_measured_stream streams[40];
    static const plantbal_critical_row none[1];
    plantbal_study study = PLANTBAL_STUDY;
    plantbal_result result;
    size_t wrong, sum = 0;
    for (uint32_t i = 0; i < 40; i++) {
        plantbal_measured_stream one = {i % 20, i % 20 + 1, i % 7 != 0, 1000 + 37 * i, {1 + i, 0}};
        if (one.to == 20) one.to = 0;
        streams[i] = one;
    }
    if (plantbal_study_new(&options, none, 0, 20, streams, 40, study, &wrong)) abort();
    for (uint32_t i = 0; i < 40; i++) {
        if (plantbal_study_stream(study, 0, i, &result)) abort();
        sum = sum * 31 + result.flow.low + result.stream_class;
    }
    plantbal_study_free(study);
    return sum;
}

// A sum of the output of a run, of a session and of a study, from nothing.
static void *work(void *answer) {
    static const plantbal_options options = PLANTBAL_OPTIONS;
    size_t room = 1 << 20, count, taken, sum = 0;
    unsigned char *text = malloc(room), *codes = malloc(length + 1);
    for (int turn = 0; turn < 3; turn++) {
        plantbal_session session = PLANTBAL_SESSION;
        if (plantbal_run(&options, input, length, session) > PLANTBAL_DONE_REFUSED) abort();
        if (plantbal_session_output(session, text, room, &count)) abort();
        for (size_t i = 0; i < count; i++) sum = sum * 31 + text[i];
        plantbal_session_free(session);
        if (plantbal_session_new(&options, session)) abort();
        if (plantbal_session_rows(session, input, length, 0, codes, length + 1, &taken)) abort();
        if (plantbal_session_output(session, text, room, &count)) abort();
        for (size_t i = 0; i < count; i++) sum = sum * 31 + text[i];
        plantbal_session_free(session);
        sum = sum * 31 + study();
    }
    free(text);
    free(codes);
    *(size_t *)answer = sum;
    return NULL;
}

int main(int argc, char **argv) {
    enum { MOST = 64 };
    pthread_t threads[MOST];
    size_t answers[MOST + 1];
    int many = argc > 2 ? atoi(argv[1]) : 0;
    FILE *file = argc > 2 ? fopen(argv[2], "rb") : NULL;
    if (!file || many < 1 || many > MOST) return 2;
    length = fread(input, 1, sizeof input, file);
    fclose(file);
    for (int i = 0; i < many; i++) pthread_create(&threads[i], NULL, work, &answers[i]);
    for (int i = 0; i < many; i++) pthread_join(threads[i], NULL);
    work(&answers[many]);
    for (int i = 0; i < many; i++)
        if (answers[i] != answers[many]) return printf("threads: thread %d has another output\n", i), 1;
    return 0;
}
