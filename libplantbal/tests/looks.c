// What a session's book says: a session written here row by row, so that each value that is looked up is known from its row.
#include "plantbal.h"
#include <stdio.h>
#include <string.h>

static int faults;

static void is(const char *what, long long got, long long wanted) {
    if (got != wanted) {
        printf("looks: %s: %lld, not %lld\n", what, got, wanted);
        faults++;
    }
}

static void says(const char *what, const char *got, const char *wanted) {
    if (strcmp(got, wanted) != 0) {
        printf("looks: %s: %s, not %s\n", what, got, wanted);
        faults++;
    }
}

// The days from 1970-01-01 to 2024-03-01 are 54 years of 365 days, 13 leap days before 2024, and 60 days of 2024.
enum { MARCH = 54 * 365 + 13 + 60 };

static const char rows[] =
    "unit,MILL\n"                                                   // node 1
    "tank,SILO,1000000000000\n"                                     // node 2, stream 0
    "strap,SILO,0,0\n"
    "strap,SILO,9000,9000000000\n"
    "stream,ORE,env,MILL,metered,10000000000\n"                     // stream 1
    "stream,BAGS,SILO,env,batch,400000000\n"                        // stream 2
    "stream,GRIT,MILL,SILO,plain,0\n"                               // stream 3
    "period,mar,2024-03-01,2024-03-31\n"                            // period 0
    "period,apr,2024-04-01,2024-04-30\n"                            // period 1
    "reading,r1,ORE,2024-03-01,-5,10000000000000000000\n"           // fact 0, whose variance takes 64 bits
    "transfer,b1,BAGS,2024-03-30,2024-04-02,810000000,1000000000000\n" // fact 1
    "dip,s1,SILO,2024-03-31,8120,1250000,25000000000000\n"          // fact 2
    "reading,r2,ORE,2024-04-01,7,9\n"                               // fact 3
    "amend,r1,11,13,meter read twice\n"                             // edit 0
    "close,mar\n"                                                   // edit 1
    "strike,r2,wrong stream\n"                                      // edit 2
    "late,reading,r3,ORE,2024-03-02,17,19\n";                       // edit 3, fact 4

static void numbers(plantbal_session session) {
    plantbal_counts counts;
    is("counts", plantbal_session_counts(session, &counts), PLANTBAL_DONE);
    is("version", counts.version, 1);
    is("nodes", counts.nodes, 3);
    is("streams", counts.streams, 4);
    is("periods", counts.periods, 2);
    is("facts", counts.facts, 5);
    is("assays", counts.assays, 0);
    is("edits", (long long)counts.edits, 4);
}

static void plant(plantbal_session session) {
    static const char *nodes[] = {"env", "MILL", "SILO"};
    static const struct {
        const char *name;
        int kind;
        unsigned from, to;
        unsigned long long base;
    } streams[] = {{"SILO", 3, 2, 0, 1000000000000}, {"ORE", 0, 0, 1, 10000000000}, {"BAGS", 1, 2, 0, 400000000}, {"GRIT", 2, 1, 2, 0}};
    plantbal_node node;
    plantbal_stream stream;
    uint32_t place;
    for (uint32_t i = 0; i < 3; i++) {
        is("a node", plantbal_session_node(session, i, &node), PLANTBAL_DONE);
        says("its name", node.name, nodes[i]);
        is("a tank", node.tank, i == 2);
        is("its place", plantbal_session_node_named(session, nodes[i], strlen(nodes[i]), &place), PLANTBAL_DONE);
        is("the place", place, i);
    }
    is("no node", plantbal_session_node(session, 3, &node), PLANTBAL_NOT_THERE);
    for (uint32_t i = 0; i < 4; i++) {
        is("a stream", plantbal_session_stream(session, i, &stream), PLANTBAL_DONE);
        says("its name", stream.name, streams[i].name);
        is("its kind", stream.kind, streams[i].kind);
        is("from", stream.from, streams[i].from);
        is("to", stream.to, streams[i].to);
        is("served", stream.served, 0);
        is("its base", (long long)stream.base.low, (long long)streams[i].base);
        is("its base's high word", stream.base.high, 0);
        is("its place", plantbal_session_stream_named(session, streams[i].name, strlen(streams[i].name), &place), PLANTBAL_DONE);
        is("the place", place, i);
    }
    is("no stream", plantbal_session_stream(session, 4, &stream), PLANTBAL_NOT_THERE);
    place = 99;
    is("a name that isn't declared", plantbal_session_stream_named(session, "MILL", 4, &place), PLANTBAL_NOT_THERE);
    is("no name", plantbal_session_node_named(session, "", 0, &place), PLANTBAL_NOT_THERE);
    is("nothing is written", place, 99);
}

static void periods(plantbal_session session) {
    plantbal_period period;
    uint32_t place;
    is("a period", plantbal_session_period(session, 0, &period), PLANTBAL_DONE);
    says("its name", period.name, "mar");
    is("closed", period.closed, 1);
    is("its first day", period.first, MARCH);
    is("its last day", period.last, MARCH + 30);
    is("another", plantbal_session_period(session, 1, &period), PLANTBAL_DONE);
    is("open", period.closed, 0);
    is("no period", plantbal_session_period(session, 2, &period), PLANTBAL_NOT_THERE);
    is("by its name", plantbal_session_period_named(session, "apr", 3, &place), PLANTBAL_DONE);
    is("the place", place, 1);
}

static void facts(plantbal_session session) {
    static const struct {
        const char *id, *stream;
        int kind, struck, first, last;
        long long amount, density;
        unsigned long long variance;
        int march, april;
    } wanted[] = {
        {"r1", "ORE", 0, 0, MARCH, MARCH, 11, 0, 13, 1, 0},
        {"b1", "BAGS", 1, 0, MARCH + 29, MARCH + 32, 810000000, 0, 1000000000000, 1, 1},
        {"s1", "SILO", 2, 0, MARCH + 30, MARCH + 30, 8120, 1250000, 25000000000000, 1, 1},
        {"r2", "ORE", 0, 1, MARCH + 31, MARCH + 31, 7, 0, 9, 0, 1},
        {"r3", "ORE", 0, 0, MARCH + 1, MARCH + 1, 17, 0, 19, 1, 0},
    };
    plantbal_fact fact;
    uint32_t place;
    bool touches;
    for (uint32_t i = 0; i < 5; i++) {
        is("a fact", plantbal_session_fact(session, i, &fact), PLANTBAL_DONE);
        says("its id", fact.id, wanted[i].id);
        says("its stream", fact.stream, wanted[i].stream);
        is("its kind", fact.kind, wanted[i].kind);
        is("struck", fact.struck, wanted[i].struck);
        is("its first day", fact.first, wanted[i].first);
        is("its last day", fact.last, wanted[i].last);
        is("its amount", fact.amount, wanted[i].amount);
        is("its density", fact.density, wanted[i].density);
        is("its variance", (long long)fact.variance.low, (long long)wanted[i].variance);
        is("the high word", fact.variance.high, 0);
        is("march", plantbal_session_fact_touches(session, i, 0, &touches), PLANTBAL_DONE);
        is("touches march", touches, wanted[i].march);
        is("april", plantbal_session_fact_touches(session, i, 1, &touches), PLANTBAL_DONE);
        is("touches april", touches, wanted[i].april);
        is("by its id", plantbal_session_fact_named(session, wanted[i].id, 2, &place), wanted[i].struck ? PLANTBAL_NOT_THERE : PLANTBAL_DONE);
        if (!wanted[i].struck) is("the place", place, i);
    }
    is("no fact", plantbal_session_fact(session, 5, &fact), PLANTBAL_NOT_THERE);
    is("no fact to touch", plantbal_session_fact_touches(session, 5, 0, &touches), PLANTBAL_NOT_THERE);
    is("no period to touch", plantbal_session_fact_touches(session, 0, 2, &touches), PLANTBAL_NOT_THERE);
}

static void edits(plantbal_session session) {
    static const struct {
        const char *id, *reason;
        int kind, record;
        long long amount;
        unsigned long long variance;
        int march, april;
    } wanted[] = {
        {"r1", "meter read twice", 2, 14, 11, 13, 1, 0},
        {"mar", "", 0, 15, 0, 0, 1, 0},
        {"r2", "wrong stream", 3, 16, 0, 0, 0, 1},
        {"r3", "", 1, 17, 17, 19, 1, 0},
    };
    plantbal_edit edit;
    bool touches;
    for (uint64_t i = 0; i < 4; i++) {
        is("an edit", plantbal_session_edit(session, i, &edit), PLANTBAL_DONE);
        says("its id", edit.id, wanted[i].id);
        says("its reason", edit.reason, wanted[i].reason);
        is("its kind", edit.kind, wanted[i].kind);
        is("its record", edit.record, wanted[i].record);
        is("its amount", edit.amount, wanted[i].amount);
        is("its variance", (long long)edit.variance.low, (long long)wanted[i].variance);
        is("march", plantbal_session_edit_touches(session, i, 0, &touches), PLANTBAL_DONE);
        is("touches march", touches, wanted[i].march);
        is("april", plantbal_session_edit_touches(session, i, 1, &touches), PLANTBAL_DONE);
        is("touches april", touches, wanted[i].april);
    }
    is("no edit", plantbal_session_edit(session, 4, &edit), PLANTBAL_NOT_THERE);
}

// The graph of a period from what is live, by hand; and the classes of the plant.
static void graphs(plantbal_session session) {
    static const struct {
        const char *name;
        unsigned from, to;
        int measured;
        long long value;
        unsigned long long variance;
    } wanted[] = {
        {"SILO", 2, 0, 0, 0, 0},                                 // no dip at the end of February
        {"ORE", 0, 1, 0, 0, 0},                                  // read on two days of March alone
        {"BAGS", 2, 0, 1, 405000000, 400000000 + 500000000000},  // two of the transfer's four days
        {"GRIT", 1, 2, 0, 0, 0},
    };
    static const char *nodes[] = {"env", "MILL", "SILO"};
    plantbal_measured_stream streams[4];
    plantbal_name node_names[3], stream_names[4];
    plantbal_graph_size size = {0, 0, 0};
    unsigned char classes[4] = {9, 9, 9, 9};
    size_t node_count = 0, stream_count = 0, count = 0;
    is("room for three", plantbal_session_period_graph(session, 0, streams, 3, &size), PLANTBAL_SMALL_BUFFER);
    is("four", (long long)size.streams, 4);
    is("a graph", plantbal_session_period_graph(session, 0, streams, 4, &size), PLANTBAL_DONE);
    is("its nodes", size.nodes, 3);
    is("its streams", (long long)size.streams, 4);
    is("names without room", plantbal_session_period_names(session, 0, node_names, 3, stream_names, 3, &node_count, &stream_count), PLANTBAL_SMALL_BUFFER);
    is("its names", plantbal_session_period_names(session, 0, node_names, 3, stream_names, 4, &node_count, &stream_count), PLANTBAL_DONE);
    is("of nodes", (long long)node_count, 3);
    is("of streams", (long long)stream_count, 4);
    for (int i = 0; i < 3; i++) says("a node", node_names[i].name, nodes[i]);
    for (int i = 0; i < 4; i++) {
        says("a stream", stream_names[i].name, wanted[i].name);
        is("from", streams[i].from, wanted[i].from);
        is("to", streams[i].to, wanted[i].to);
        is("measured", streams[i].measured, wanted[i].measured);
        is("its value", streams[i].value, wanted[i].value);
        if (wanted[i].measured) is("its variance", (long long)streams[i].variance.low, (long long)wanted[i].variance);
    }
    is("no period", plantbal_session_period_graph(session, 2, streams, 4, &size), PLANTBAL_NOT_THERE);
    is("no names", plantbal_session_period_names(session, 2, node_names, 3, stream_names, 4, &node_count, &stream_count), PLANTBAL_NOT_THERE);
    is("classes without room", plantbal_session_classes(session, classes, 3, &count), PLANTBAL_SMALL_BUFFER);
    is("four of them", (long long)count, 4);
    is("nothing is written", classes[0], 9);
    is("classes", plantbal_session_classes(session, classes, 4, &count), PLANTBAL_DONE);
    // before any reading three meters are on the streams round MILL and SILO; GRIT has none, and is what ORE shows
    is("of SILO", classes[0], 2);
    is("of ORE", classes[1], 2);
    is("of BAGS", classes[2], 2);
    is("of GRIT", classes[3], 0);
}

// Each look-up of a handle that holds nothing.
static void nothing(void) {
    plantbal_session none = PLANTBAL_SESSION;
    plantbal_counts counts;
    plantbal_node node;
    plantbal_stream stream;
    plantbal_period period;
    plantbal_fact fact;
    plantbal_edit edit;
    plantbal_graph_size size;
    plantbal_measured_stream stream_of_graph;
    plantbal_name name;
    uint32_t place;
    size_t count, other;
    bool touches;
    const int got[] = {
        plantbal_session_counts(none, &counts),
        plantbal_session_node(none, 0, &node),
        plantbal_session_stream(none, 0, &stream),
        plantbal_session_period(none, 0, &period),
        plantbal_session_fact(none, 0, &fact),
        plantbal_session_edit(none, 0, &edit),
        plantbal_session_fact_touches(none, 0, 0, &touches),
        plantbal_session_edit_touches(none, 0, 0, &touches),
        plantbal_session_node_named(none, "env", 3, &place),
        plantbal_session_stream_named(none, "env", 3, &place),
        plantbal_session_period_named(none, "env", 3, &place),
        plantbal_session_fact_named(none, "env", 3, &place),
        plantbal_session_period_graph(none, 0, &stream_of_graph, 1, &size),
        plantbal_session_period_names(none, 0, &name, 1, &name, 1, &count, &other),
        plantbal_session_classes(none, &touches, 1, &count),
    };
    for (size_t i = 0; i < sizeof got / sizeof *got; i++) is("without a session", got[i], PLANTBAL_BAD_HANDLE);
}

int main(void) {
    plantbal_options options = PLANTBAL_OPTIONS;
    plantbal_session session = PLANTBAL_SESSION;
    unsigned char codes[32];
    size_t taken;
    is("a session", plantbal_session_new(&options, session), PLANTBAL_DONE);
    is("its rows", plantbal_session_rows(session, rows, sizeof rows - 1, 0, codes, 32, &taken), PLANTBAL_DONE);
    is("all of them", (long long)taken, 17);
    for (size_t i = 0; i < taken; i++) is("accepted", codes[i], 0);
    numbers(session);
    plant(session);
    periods(session);
    facts(session);
    edits(session);
    graphs(session);
    plantbal_session_free(session);
    nothing();
    return faults != 0;
}
