// Studies of rings whose meters agree, from two streams up to as many as a graph may have: each flow is the measured one.
#include "plantbal.h"
#include <stdio.h>
#include <stdlib.h>

enum { REDUNDANT = 2, GRAMS = 100 };

// That many units after one another, each with as many streams to the next one; the last leads back to the first.
static plantbal_measured_stream *ring(uint32_t nodes, uint32_t beside) {
    plantbal_measured_stream *streams = calloc((size_t)nodes * beside, sizeof *streams);
    for (uint32_t i = 0; streams && i < nodes * beside; i++) {
        plantbal_measured_stream one = {i % nodes, (i + 1) % nodes, true, GRAMS, {1, 0}};
        streams[i] = one;
    }
    return streams;
}

// A critical value for each number of degrees of freedom up to that many: ten times the number.
static plantbal_critical_row *limits_up_to(uint32_t many) {
    plantbal_critical_row *limits = calloc(many, sizeof *limits);
    for (uint32_t i = 0; limits && i < many; i++) {
        plantbal_critical_row one = {i + 1, 10 * ((int64_t)i + 1)};
        limits[i] = one;
    }
    return limits;
}

// What is wrong with the study of such a ring, or null.
static const char *wrong_with(uint32_t nodes, uint32_t beside) {
    uint32_t count = nodes * beside;
    plantbal_measured_stream *streams = ring(nodes, beside);
    plantbal_critical_row *limits = limits_up_to(count);
    if (!streams || !limits) return "no memory for the test itself";
    plantbal_study_options options = PLANTBAL_STUDY_OPTIONS;
    options.tests = true;
    plantbal_study study = PLANTBAL_STUDY;
    plantbal_stage stage;
    plantbal_result result;
    size_t place;
    const char *wrong = NULL;
    if (plantbal_study_new(&options, limits, count, nodes, streams, count, study, &place) != PLANTBAL_DONE)
        wrong = "no study";
    else if (plantbal_study_stage(study, 0, &stage) != PLANTBAL_DONE)
        wrong = "no stage";
    else if (!stage.converged || stage.dof != nodes - 1 || stage.critical != 10 * (int64_t)stage.dof)
        wrong = "another stage";
    for (uint32_t i = 0; i < count && !wrong; i++)
        if (plantbal_study_stream(study, 0, i, &result) != PLANTBAL_DONE || result.stream_class != REDUNDANT ||
            result.flow.high != 0 || result.flow.low != GRAMS)
            wrong = "another stream";
    plantbal_study_free(study);
    free(streams);
    free(limits);
    return wrong;
}

int main(void) {
    static const uint32_t sizes[][2] = {{2, 1}, {3, 17}, {300, 1}, {1001, 1}, {500, 4}, {1000, 4}};
    int faults = 0;
    for (size_t i = 0; i < sizeof sizes / sizeof *sizes; i++) {
        const char *wrong = wrong_with(sizes[i][0], sizes[i][1]);
        if (wrong) printf("long_study: %u units with %u streams each: %s\n", sizes[i][0], sizes[i][1], wrong), faults++;
    }
    if (faults == 0) printf("long_study: each flow is the measured one\n");
    return faults != 0;
}
