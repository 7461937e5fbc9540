// The program's runs and checks through the library: reads standard input, writes standard output, and ends with the status.
//
//     drive run|check|block|records|fields|apart [gap sweeps eliminate tests form]
//     drive many WORD..
//
// `run` and `check` are one call each. `block` hands all records over in one block, `records` in blocks of one code each, and
// `fields` gives each line that has no quotes as fields, and `apart` all of them in one block of fields. `many` reads sessions, each after its length in four bytes, and writes for each
// of them and each word the status in four bytes, the length in four and the output: so a process serves any number of sessions.
#include "plantbal.h"
#include <stdio.h>
#include <stdlib.h>
#include <string.h>

static unsigned char *input;
static size_t length;

static void read_all(void) {
    size_t room = 1 << 16, got;
    input = malloc(room);
    while ((got = fread(input + length, 1, room - length, stdin)) > 0) {
        length += got;
        if (length == room) input = realloc(input, room *= 2);
    }
}

// The output so far.
static unsigned char *said;
static size_t said_length;

// Appends what a session has to hand over, by a buffer of its length.
static int take_output(plantbal_session session) {
    size_t count = 0;
    int status = plantbal_session_output(session, &count, 0, &count);
    if (status != PLANTBAL_SMALL_BUFFER) return status;
    said = realloc(said, said_length + count);
    status = plantbal_session_output(session, said + said_length, count, &count);
    said_length += count;
    return status;
}

// Gives all records in blocks with this much room for codes. Returns 1 if one was refused.
static int give_blocks(plantbal_session session, size_t room) {
    unsigned char *codes = malloc(room);
    size_t skip = 0, taken, refused = 0;
    do {
        if (plantbal_session_rows(session, input, length, skip, codes, room, &taken)) exit(100);
        for (size_t i = 0; i < taken; i++) refused |= codes[i];
        skip += taken;
        if (room < 1000 && take_output(session)) exit(101);
    } while (taken == room);
    free(codes);
    return refused != 0;
}

// Gives each line as fields, without its end. Lines without fields are no records.
static int give_fields(plantbal_session session) {
    size_t *ends = malloc((length + 1) * sizeof *ends), refused = 0;
    unsigned char *text = malloc(length + 1), code;
    for (unsigned char *at = input, *end = input + length; at < end; at++) {
        size_t fields = 0, size = 0;
        for (; at < end && *at != '\n' && *at != '\r'; at++) {
            if (*at == ',') ends[fields++] = size;
            else text[size++] = *at;
        }
        if (fields == 0 && size == 0) continue;
        ends[fields++] = size;
        if (plantbal_session_row(session, text, size, ends, fields, &code)) exit(102);
        refused |= code;
    }
    free(ends);
    free(text);
    return refused != 0;
}

// Gives all lines as fields in one block, without their ends.
static int give_apart(plantbal_session session) {
    size_t *ends = malloc((length + 1) * sizeof *ends), *counts = malloc((length + 1) * sizeof *counts);
    size_t fields = 0, size = 0, records = 0, taken = 0, refused = 0;
    unsigned char *text = malloc(length + 1), *codes = malloc(length + 1);
    for (unsigned char *at = input, *end = input + length; at < end; at++) {
        size_t before = fields, begin = size;
        for (; at < end && *at != '\n' && *at != '\r'; at++) {
            if (*at == ',') ends[fields++] = size;
            else text[size++] = *at;
        }
        if (fields == before && size == begin) continue;
        ends[fields++] = size;
        counts[records++] = fields;
    }
    if (plantbal_session_records(session, text, size, ends, fields, counts, records, codes, records, &taken)) exit(104);
    if (taken != records) exit(105);
    for (size_t i = 0; i < taken; i++) refused |= codes[i];
    free(ends);
    free(counts);
    free(text);
    free(codes);
    return refused != 0;
}

// Does what a word says with the input, and leaves the output. Returns the status.
static int answer(const char *word, const plantbal_options *options) {
    plantbal_session session = PLANTBAL_SESSION;
    int status;
    said_length = 0;
    if (strcmp(word, "run") == 0) {
        status = plantbal_run(options, input, length, session);
    } else if (strcmp(word, "check") == 0) {
        status = plantbal_check(input, length, session);
    } else {
        status = plantbal_session_new(options, session);
        if (status == PLANTBAL_DONE) {
            if (strcmp(word, "block") == 0) status = give_blocks(session, length + 1);
            else if (strcmp(word, "records") == 0) status = give_blocks(session, 1);
            else if (strcmp(word, "apart") == 0) status = give_apart(session);
            else status = give_fields(session);
        }
    }
    if (status <= PLANTBAL_DONE_REFUSED && take_output(session)) exit(103);
    plantbal_session_free(session);
    return status;
}

// Answers one session after another, by each word.
static void answer_many(int count, char **words, const plantbal_options *options) {
    uint32_t size, head[2];
    while (fread(&size, 4, 1, stdin) == 1) {
        input = realloc(input, size + 1);
        length = fread(input, 1, size, stdin);
        for (int i = 0; i < count; i++) {
            head[0] = (uint32_t)answer(words[i], options);
            head[1] = (uint32_t)said_length;
            fwrite(head, 4, 2, stdout);
            fwrite(said, 1, said_length, stdout);
        }
        fflush(stdout);
    }
}

int main(int argc, char **argv) {
    plantbal_options options = PLANTBAL_OPTIONS;
    uint32_t *words[] = {&options.gap, &options.sweeps, &options.eliminate, &options.tests, &options.form};
    int status = 0;
    if (strcmp(argv[1], "many") == 0) {
        answer_many(argc - 2, argv + 2, &options);
    } else {
        for (int i = 2; i < argc && i < 7; i++) *words[i - 2] = (uint32_t)strtoul(argv[i], NULL, 10);
        read_all();
        status = answer(argv[1], &options);
        fwrite(said, 1, said_length, stdout);
    }
    free(input);
    free(said);
    return status;
}
