// Studies of small graphs that are handed over in arrays, whose answers follow by hand, and wrong use of each call.
#include "plantbal.h"
#include <stdio.h>
#include <string.h>

static int faults;

static void is(const char *what, long long got, long long wanted) {
    if (got != wanted) {
        printf("study: %s: %lld, not %lld\n", what, got, wanted);
        faults++;
    }
}

// A number of two words that fits into one.
static long long whole(plantbal_wide wide) {
    if (wide.high != ((int64_t)wide.low < 0 ? -1 : 0)) is("the high word", wide.high, 0);
    return (long long)wide.low;
}

#define METER(a, b, grams, squared) {a, b, true, grams, {squared, 0}}
#define PIPE(a, b) {a, b, false, 0, {0, 0}}

enum { OBSERVABLE, UNOBSERVABLE, REDUNDANT, NONREDUNDANT };
enum { REJECT, ACCEPT, UNDECIDED, NO_CRITICAL, NO_TEST };

// 100 g go into a mill and 104 g come out, each with a variance of 1 g2: the least squares give 102 g to both, and cost 4 + 4.
static const plantbal_measured_stream mill[] = {METER(0, 1, 100, 1), METER(1, 0, 104, 1)};

static void two_meters(void) {
    static const plantbal_critical_row limits[] = {{2, 1}, {1, 3841}, {1, 9000}};
    plantbal_study_options options = PLANTBAL_STUDY_OPTIONS;
    plantbal_study study = PLANTBAL_STUDY;
    plantbal_studied counts;
    plantbal_stage stage;
    plantbal_nodal_test nodal;
    plantbal_measure_test measure;
    size_t wrong = 77;
    options.tests = options.has_nodal = true;
    options.nodal = 100000;
    is("new", plantbal_study_new(&options, limits, 3, 2, mill, 2, study, &wrong), PLANTBAL_DONE);
    is("wrong stays", (long long)wrong, 77);
    is("counts", plantbal_study_counts(study, &counts), PLANTBAL_DONE);
    is("stages", (long long)counts.stages, 1);
    is("taken", (long long)counts.taken, 0);
    is("stop", counts.stop, 0);
    is("stage", plantbal_study_stage(study, 0, &stage), PLANTBAL_DONE);
    is("converged", stage.converged, true);
    is("degrees of freedom", stage.dof, 1);
    is("has a high end", stage.has_high, true);
    is("the statistic isn't above 8", whole(stage.low) <= 8000, true);
    is("the statistic isn't below 8", whole(stage.high) >= 8000, true);
    is("tested", stage.tested, true);
    is("the first limit of its degrees counts", stage.critical, 3841);
    is("8 is above 3.841", stage.verdict, REJECT);
    for (uint32_t i = 0; i < 2; i++) {
        plantbal_result result;
        is("stream", plantbal_study_stream(study, 0, i, &result), PLANTBAL_DONE);
        is("class", result.stream_class, REDUNDANT);
        is("flow", whole(result.flow), 102);
        is("bounded", result.bounded && result.least_bounded, true);
        is("lo", whole(result.lo) <= 102 && whole(result.least_lo) <= 102, true);
        is("hi", whole(result.hi) >= 102 && whole(result.least_hi) >= 102, true);
        is("cut", result.cycle, false);
        is("members", (long long)result.members, 2);
        plantbal_member member;
        for (size_t k = 0; k < 2; k++) {
            is("member", plantbal_study_member(study, 0, i, k, &member), PLANTBAL_DONE);
            is("streams in order", member.stream, (long long)k);
        }
        bool inside[2];
        for (uint32_t node = 0; node < 2; node++)
            is("inside", plantbal_study_inside(study, 0, i, node, &inside[node]), PLANTBAL_DONE);
        is("one side", inside[0] != inside[1], true);
    }
    is("nodal", plantbal_study_nodal(study, 0, 0, &nodal), PLANTBAL_DONE);
    is("node", nodal.node, 1);
    is("net", whole(nodal.net), -4);
    is("variance", whole(nodal.variance), 2);
    is("8 isn't above 100", nodal.verdict, ACCEPT);
    is("its limit", nodal.critical, 100000);
    is("measure", plantbal_study_measure(study, 0, 1, &measure), PLANTBAL_DONE);
    is("stream of the test", measure.stream, 1);
    is("no limit", measure.has_critical, false);
    is("no limit, no verdict", measure.verdict, NO_CRITICAL);
    is("fall", measure.low.high == 0 && whole(measure.low) <= 8000, true);
    plantbal_study_free(study);
    plantbal_study_free(study);
}

// Two mills in a row, between them a pipe without a meter, and then two.
static void pipes(void) {
    static const plantbal_measured_stream streams[] = {METER(0, 1, 50, 4), PIPE(1, 2), METER(2, 0, 50, 4), PIPE(1, 2)};
    static const int with_one[] = {REDUNDANT, OBSERVABLE, REDUNDANT};
    static const int with_two[] = {REDUNDANT, UNOBSERVABLE, REDUNDANT, UNOBSERVABLE};
    static const plantbal_critical_row none[1];
    const plantbal_study_options options = PLANTBAL_STUDY_OPTIONS;
    size_t wrong;
    for (size_t count = 3; count <= 4; count++) {
        plantbal_study study = PLANTBAL_STUDY;
        plantbal_stage stage;
        is("new", plantbal_study_new(&options, none, 0, 3, streams, count, study, &wrong), PLANTBAL_DONE);
        is("stage", plantbal_study_stage(study, 0, &stage), PLANTBAL_DONE);
        is("not tested", stage.tested, false);
        is("they agree", whole(stage.low) <= 0 && stage.has_high && whole(stage.high) >= 0, true);
        for (uint32_t i = 0; i < count; i++) {
            plantbal_result result;
            bool inside;
            is("stream", plantbal_study_stream(study, 0, i, &result), PLANTBAL_DONE);
            is("class", result.stream_class, (count == 3 ? with_one : with_two)[i]);
            is("bounds", result.bounded, result.stream_class != UNOBSERVABLE);
            is("cycle", result.cycle, result.stream_class == UNOBSERVABLE);
            if (!result.cycle) is("flow", whole(result.flow), 50);
            else is("no inside", plantbal_study_inside(study, 0, i, 0, &inside), PLANTBAL_NOT_THERE);
            is("members", (long long)result.members, result.cycle || result.stream_class == REDUNDANT ? 2 : (long long)result.members);
        }
        plantbal_study_free(study);
    }
}

// A meter that is 1,000 g wrong is taken out in the first round.
static void elimination(void) {
    static const plantbal_measured_stream streams[] = {METER(0, 1, 500, 1), METER(0, 1, 500, 1), METER(1, 2, 2000, 1), METER(2, 0, 1000, 1)};
    static const plantbal_critical_row limits[] = {{1, 6635}, {2, 9210}};
    plantbal_study_options options = PLANTBAL_STUDY_OPTIONS;
    plantbal_study study = PLANTBAL_STUDY;
    plantbal_studied counts;
    plantbal_taken taken;
    plantbal_result result;
    size_t wrong;
    options.eliminate = 2;
    options.has_measure = true;
    options.measure = 3841;
    is("new", plantbal_study_new(&options, limits, 2, 3, streams, 4, study, &wrong), PLANTBAL_DONE);
    is("counts", plantbal_study_counts(study, &counts), PLANTBAL_DONE);
    is("stages", (long long)counts.stages, 2);
    is("taken", (long long)counts.taken, 1);
    is("the last stage is accepted", counts.stop, 1);
    is("taken", plantbal_study_taken(study, 0, &taken), PLANTBAL_DONE);
    is("the wrong meter", taken.stream, 2);
    is("stream", plantbal_study_stream(study, 1, 2, &result), PLANTBAL_DONE);
    is("now observable", result.stream_class, OBSERVABLE);
    is("and right", whole(result.flow), 1000);
    is("no more", plantbal_study_taken(study, 1, &taken), PLANTBAL_NOT_THERE);
    plantbal_study_free(study);
}

static void wrong_use(void) {
    static const plantbal_measured_stream bad[][2] = {
        {METER(0, 1, 1, 1), METER(1, 1, 1, 1)}, {METER(0, 1, 1, 1), METER(2, 0, 1, 1)}, {METER(0, 1, 1, 1), METER(1, 0, 1, 0)},
        {METER(0, 1, 1, 1), METER(1, 0, 1000000000000001, 1)}, {METER(0, 1, 1, 1), {1, 0, true, 1, {0, 1000}}}};
    static const plantbal_critical_row below[] = {{1, -1}}, above[] = {{1, 1000000000001}};
    plantbal_study_options usual = PLANTBAL_STUDY_OPTIONS, options;
    plantbal_study study = PLANTBAL_STUDY;
    plantbal_result result;
    plantbal_wide price;
    plantbal_studied counts;
    size_t wrong = 0;
    for (size_t i = 0; i < sizeof bad / sizeof *bad; i++) {
        wrong = 9;
        is("bad stream", plantbal_study_new(&usual, below, 0, 2, bad[i], 2, study, &wrong), PLANTBAL_BAD_STREAM);
        is("its place", (long long)wrong, 1);
    }
    is("no node", plantbal_study_new(&usual, below, 0, 0, mill, 0, study, &wrong), PLANTBAL_USAGE);
    is("too many nodes", plantbal_study_new(&usual, below, 0, 1002, mill, 2, study, &wrong), PLANTBAL_USAGE);
    is("a limit below 0", plantbal_study_new(&usual, below, 1, 2, mill, 2, study, &wrong), PLANTBAL_USAGE);
    is("a limit too great", plantbal_study_new(&usual, above, 1, 2, mill, 2, study, &wrong), PLANTBAL_USAGE);
    options = usual, options.gap = 0;
    is("no gap", plantbal_study_new(&options, below, 0, 2, mill, 2, study, &wrong), PLANTBAL_USAGE);
    options = usual, options.eliminate = 21;
    is("too many rounds", plantbal_study_new(&options, below, 0, 2, mill, 2, study, &wrong), PLANTBAL_USAGE);
    is("nothing is held", plantbal_study_counts(study, &counts), PLANTBAL_BAD_HANDLE);
    is("one node, no stream", plantbal_study_new(&usual, below, 0, 1, mill, 0, study, &wrong), PLANTBAL_DONE);
    is("no stream", plantbal_study_stream(study, 0, 0, &result), PLANTBAL_NOT_THERE);
    plantbal_study_free(study);
    is("new", plantbal_study_new(&usual, below, 0, 2, mill, 2, study, &wrong), PLANTBAL_DONE);
    is("a second one", plantbal_study_new(&usual, below, 0, 2, mill, 1, study, &wrong), PLANTBAL_BAD_HANDLE);
    memset(&result, 7, sizeof result);
    is("past the stages", plantbal_study_stream(study, 1, 0, &result), PLANTBAL_NOT_THERE);
    is("past the streams", plantbal_study_stream(study, 0, 2, &result), PLANTBAL_NOT_THERE);
    is("nothing is written", result.stream_class, 7);
    is("the first one stays", plantbal_study_stream(study, 0, 1, &result), PLANTBAL_DONE);
    is("price", plantbal_study_price(study, 0, 1, &price), PLANTBAL_DONE);
    is("past the nodes", plantbal_study_price(study, 0, 2, &price), PLANTBAL_NOT_THERE);
    plantbal_study_free(study);
    is("freed", plantbal_study_stream(study, 0, 1, &result), PLANTBAL_BAD_HANDLE);
}

int main(void) {
    two_meters();
    pipes();
    elimination();
    wrong_use();
    if (faults == 0) printf("study: what follows by hand\n");
    return faults != 0;
}
