// A thread with the least stack that the page promises, 128 KB, serves a run with three rounds of elimination, a session of blocks and a
// check of its report; and they come to the same as in a thread with the usual stack.
#include "plantbal.h"
#include <pthread.h>
#include <stdio.h>
#include <stdlib.h>
#include <string.h>

static unsigned char input[1 << 18];
static size_t length;

struct said {
    unsigned char *text;
    size_t count;
};

static struct said take(plantbal_session session) {
    struct said found = {NULL, 0};
    plantbal_session_output(session, &found, 0, &found.count);
    found.text = malloc(found.count + 1);
    if (plantbal_session_output(session, found.text, found.count, &found.count)) abort();
    plantbal_session_free(session);
    return found;
}

static void *work(void *to) {
    plantbal_options options = PLANTBAL_OPTIONS;
    plantbal_session session = PLANTBAL_SESSION;
    struct said *said = to;
    size_t taken;
    unsigned char *codes = malloc(length + 1);
    options.eliminate = 3;
    if (plantbal_run(&options, input, length, session) > PLANTBAL_DONE_REFUSED) abort();
    said[0] = take(session);
    if (plantbal_session_new(&options, session)) abort();
    if (plantbal_session_rows(session, input, length, 0, codes, length + 1, &taken)) abort();
    said[1] = take(session);
    if (plantbal_check(said[0].text, said[0].count, session) > PLANTBAL_DONE_REFUSED) abort();
    said[2] = take(session);
    free(codes);
    return NULL;
}

int main(int argc, char **argv) {
    struct said little[3], usual[3];
    pthread_attr_t attributes;
    pthread_t thread;
    FILE *file = argc == 3 ? fopen(argv[2], "rb") : NULL;
    if (!file) return 2;
    length = fread(input, 1, sizeof input, file);
    fclose(file);
    pthread_attr_init(&attributes);
    if (pthread_attr_setstacksize(&attributes, strtoul(argv[1], NULL, 10) << 10)) return 2;
    pthread_create(&thread, &attributes, work, little);
    pthread_join(thread, NULL);
    pthread_attr_destroy(&attributes);
    pthread_create(&thread, NULL, work, usual);
    pthread_join(thread, NULL);
    for (int i = 0; i < 3; i++) {
        if (little[i].count != usual[i].count || memcmp(little[i].text, usual[i].text, usual[i].count))
            return printf("stack: output %d is another one\n", i), 1;
        free(little[i].text);
        free(usual[i].text);
    }
    return 0;
}
