/* plantbal.h: plant mass balance, in process. Made by packaging/derived write. What each call promises
   is proved. plantbal(3) says what the caller owes: true pointers and lengths, none of them null, buffers
   that don't overlap, one call at a time for each session, and no copy of a session's words. */
#ifndef PLANTBAL_H
#define PLANTBAL_H

#include <stdbool.h>
#include <stddef.h>
#include <stdint.h>

#ifdef __cplusplus
extern "C" {
#endif

/* How a call ended. The numbers up to 6 are the exit statuses of the program. */
enum plantbal_status {
    /* Everything was done; of a run or a check, nothing is wrong. */
    PLANTBAL_DONE = 0,
    /* The same, and a record was refused or a block is wrong. */
    PLANTBAL_DONE_REFUSED = 1,
    /* An argument is outside its limits. Nothing was done with it. */
    PLANTBAL_USAGE = 2,
    /* There are more bytes or more records than the limit. */
    PLANTBAL_TOO_LARGE = 5,
    /* Memory ran out. */
    PLANTBAL_NO_MEMORY = 6,
    /* The handle holds no session or, where a call makes one, it already holds one. Nothing was
       done. */
    PLANTBAL_BAD_HANDLE = 7,
    /* The buffer is too small. Nothing was done. */
    PLANTBAL_SMALL_BUFFER = 8,
    /* There is nothing at this place, or nothing of this name. Nothing was written. */
    PLANTBAL_NOT_THERE = 9,
    /* A stream isn't one of a process graph. */
    PLANTBAL_BAD_STREAM = 10,
};

/* The codes of records: why one is refused, or 0. The first cause that holds counts. */
enum plantbal_cause {
    PLANTBAL_ACCEPTED = 0,
    /* There is no such kind of row. */
    PLANTBAL_CAUSE_KIND = 1,
    /* The number of fields isn't that of the row's kind. */
    PLANTBAL_CAUSE_FIELDS = 2,
    /* A name doesn't have the form of one. */
    PLANTBAL_CAUSE_BAD_NAME = 3,
    /* A number doesn't have the form of one, or is outside its range. */
    PLANTBAL_CAUSE_NUMBER = 4,
    /* A date doesn't have the form of one, or isn't in the calendar. */
    PLANTBAL_CAUSE_DATE = 5,
    /* A name isn't declared. */
    PLANTBAL_CAUSE_UNKNOWN = 6,
    /* A name, id, day, critical value or assay is already there. */
    PLANTBAL_CAUSE_DUPLICATE = 7,
    /* A level or volume that falls, or a first day after the last. */
    PLANTBAL_CAUSE_ORDER = 8,
    /* A stream from a node to itself, a fact of another kind, a cost of a stream that isn't
       plain, or a day in two periods. */
    PLANTBAL_CAUSE_MISMATCH = 9,
    /* A unit, a tank, a point of a table or a stream, once some period is closed. */
    PLANTBAL_CAUSE_SEALED = 10,
    /* A fact that touches a closed period, a second closing, or an assay over a closed period. */
    PLANTBAL_CAUSE_CLOSED = 11,
    /* A period or transfer that is too long, a level outside the tank's table, or a fact or an
       assay of days out of service. */
    PLANTBAL_CAUSE_RANGE = 12,
    /* There are already as many as are allowed. */
    PLANTBAL_CAUSE_FULL = 13,
};

/* What a caller holds of a session. It begins as PLANTBAL_SESSION, and the caller never reads or
   writes its words. As an array it is passed by reference, and can't be assigned. */
typedef struct plantbal_handle {
    void *at;
    bool live;
} plantbal_session[1];
#define PLANTBAL_SESSION {{0, false}}

/* The same of a study, which begins as PLANTBAL_STUDY. */
typedef struct plantbal_study_handle {
    void *at;
    bool live;
} plantbal_study[1];
#define PLANTBAL_STUDY {{0, false}}

/* How large a graph is. */
typedef struct plantbal_graph_size {
    /* How many nodes there are, the environment among them. */
    uint32_t nodes;
    /* The place of the first stream whose value is above 10^15 grams either way, or whose
       variance is above 10^22 squared grams. */
    uint32_t over;
    /* How many streams there are. */
    size_t streams;
} plantbal_graph_size;

/* The options of a run. */
typedef struct plantbal_options {
    /* The gap in thousandths of a standard deviation. */
    uint32_t gap;
    /* The greatest number of sweeps. */
    uint32_t sweeps;
    /* How many rounds of elimination; with any, tests are made. */
    uint32_t eliminate;
    /* Not 0 if tests are made. */
    uint32_t tests;
    /* 0 for CSV, 1 for JSON lines. */
    uint32_t form;
} plantbal_options;

/* A whole number of up to 128 bits: high times 2 to the power of 64, plus low. */
typedef struct plantbal_wide {
    /* The low word. */
    uint64_t low;
    /* The high word, with the sign. */
    int64_t high;
} plantbal_wide;

/* A name of a node or a stream. */
typedef struct plantbal_name {
    /* The name, with zeros after it. */
    char name[33];
} plantbal_name;

/* How much there is of everything. What there are n of has the places from 0 to n - 1. */
typedef struct plantbal_counts {
    /* The version of the session, 1 or 2; 0 while no row is stored. */
    uint32_t version;
    /* Nodes: the environment, whose place is 0, the units and the tanks. */
    uint32_t nodes;
    /* Streams, and tanks as what they hold. */
    uint32_t streams;
    /* Periods. */
    uint32_t periods;
    /* Facts that were booked, struck ones too. */
    uint32_t facts;
    /* Assays. */
    uint32_t assays;
    /* Edits: periods closed, facts booked late, changed or struck. */
    uint64_t edits;
} plantbal_counts;

/* A period. */
typedef struct plantbal_period {
    /* Its name, with zeros after it. */
    char name[33];
    /* Whether it is closed. */
    bool closed;
    /* Its first day, counted from 1970-01-01. */
    int32_t first;
    /* Its last day. */
    int32_t last;
} plantbal_period;

/* A node of the plant: the environment, a unit or a tank. */
typedef struct plantbal_node {
    /* Its name, with zeros after it. */
    char name[33];
    /* Whether it is a tank. */
    bool tank;
} plantbal_node;

/* What is asked of a study, with the critical values of the tests of nodes and of measurements. */
typedef struct plantbal_study_options {
    /* The gap in thousandths of a standard deviation. */
    uint32_t gap;
    /* The greatest number of sweeps. */
    uint32_t sweeps;
    /* How many rounds of elimination; with any, tests are made. */
    uint32_t eliminate;
    /* Whether tests are made. */
    bool tests;
    /* Whether there is a critical value for the tests of nodes. */
    bool has_nodal;
    /* Whether there is one for the tests of measurements. */
    bool has_measure;
    /* The critical value for the tests of nodes in thousandths, at most 10^12. */
    int64_t nodal;
    /* The critical value for the tests of measurements in thousandths, at most 10^12. */
    int64_t measure;
} plantbal_study_options;

/* The critical value of the global test for some degrees of freedom, in thousandths. */
typedef struct plantbal_critical_row {
    /* The degrees of freedom. */
    uint32_t dof;
    /* The value, at most 10^12. */
    int64_t value;
} plantbal_critical_row;

/* What there is of a study: stages, with the streams whose measurements were taken out between
   them. What there are n of has the places from 0 to n - 1. */
typedef struct plantbal_studied {
    /* How many stages there are. */
    uint64_t stages;
    /* How many measurements were taken out, one between each stage and the next. */
    uint64_t taken;
    /* Why the elimination stopped: 0 if none was asked for, 1 if the global test accepts, 2 if
       it is undecided, 3 if there is no critical value, 4 if there is nothing to test, 5 if no
       measurement is a suspect, 6 if all rounds are done. */
    uint8_t stop;
} plantbal_studied;

/* A stream of a certificate. */
typedef struct plantbal_member {
    /* The place of the stream. */
    uint32_t stream;
    /* Of a cut, 1 if the stream enters the side and -1 if it leaves it; of a cycle, 1 along the
       stream's arrow and -1 against it. */
    int32_t sign;
} plantbal_member;

/* An edit of the book. */
typedef struct plantbal_edit {
    /* The name of the period that is closed, or the id of the fact, with zeros after it. */
    char id[33];
    /* Why a fact was changed or struck, with zeros after it; else zeros. */
    char reason[81];
    /* 0 for a period closed, 1 for a fact booked late, 2 for one changed, 3 for one struck. */
    uint8_t kind;
    /* The number of the record, counted from 1. */
    uint32_t record;
    /* The grams that a fact has from then on, or the level of a dip in millimetres; 0 for a
       period and a fact that is struck. */
    int64_t amount;
    /* The density of a dip in grams per cubic metre, otherwise 0. */
    int64_t density;
    /* The variance in squared grams; 0 for a period and a fact that is struck. */
    plantbal_wide variance;
} plantbal_edit;

/* A fact that was booked, with its last values. */
typedef struct plantbal_fact {
    /* Its id, with zeros after it. */
    char id[33];
    /* The name of its stream or tank, with zeros after it. */
    char stream[33];
    /* 0 for a reading, 1 for a transfer, 2 for a dip. */
    uint8_t kind;
    /* Whether it was struck. */
    bool struck;
    /* Its day or its first day, counted from 1970-01-01. */
    int32_t first;
    /* Its day or its last day. */
    int32_t last;
    /* Grams, or the level of a dip in millimetres. */
    int64_t amount;
    /* The density of a dip in grams per cubic metre, otherwise 0. */
    int64_t density;
    /* The variance in squared grams. */
    plantbal_wide variance;
} plantbal_fact;

/* A stream of the plant, or a tank as what it holds, which leads from the tank to the
   environment. */
typedef struct plantbal_stream {
    /* Its name, with zeros after it. */
    char name[33];
    /* 0 for a metered stream, 1 for one that moves in batches, 2 for a plain one, 3 for a tank. */
    uint8_t kind;
    /* Whether it has days of service. If not, it is in service on every day. */
    bool served;
    /* The place of the node from which it leads. */
    uint32_t from;
    /* The place of the node to which it leads. */
    uint32_t to;
    /* The first day of its service, counted from 1970-01-01. */
    int32_t since;
    /* The last day of its service. */
    int32_t until;
    /* Its base variance in squared grams; 0 for a plain one. */
    plantbal_wide base;
} plantbal_stream;

/* A stream of a process graph, from one node to another, measured or not. */
typedef struct plantbal_measured_stream {
    /* The place of the node from which it leads. Node 0 is the environment. */
    uint32_t from;
    /* The place of the node to which it leads. */
    uint32_t to;
    /* Whether it is measured. */
    bool measured;
    /* The measured grams, at most 10^15 either way. Meaningless if it isn't measured. */
    int64_t value;
    /* The variance of the measurement in squared grams, from 1 to 10^22. Meaningless if it isn't
       measured. */
    plantbal_wide variance;
} plantbal_measured_stream;

/* A stage of a study. */
typedef struct plantbal_stage {
    /* Whether the gap was met. */
    bool converged;
    /* Whether the weighted squares have a high end. */
    bool has_high;
    /* Whether there are tests. */
    bool tested;
    /* Whether there is a critical value of the global test. Without tests there is none. */
    bool has_critical;
    /* What the global test says: 0 reject, 1 accept, 2 undecided, 3 no critical value, 4 nothing
       to test. 4 without tests. */
    uint8_t verdict;
    /* The sweeps that were done. */
    uint32_t sweeps;
    /* The number h of the gap. */
    uint32_t h;
    /* The degrees of freedom. */
    uint32_t dof;
    /* The number g of the gap. */
    uint64_t g;
    /* How many tests of groups of nodes there are. */
    uint64_t nodal;
    /* How many tests of measurements there are. */
    uint64_t measure;
    /* The critical value of the global test in thousandths. */
    int64_t critical;
    /* The weighted squares in thousandths are at least this much. */
    plantbal_wide low;
    /* They are at most this much. */
    plantbal_wide high;
} plantbal_stage;

/* A stream whose measurement was taken out as a suspect. */
typedef struct plantbal_taken {
    /* The place of the stream. */
    uint32_t stream;
    /* How far the weighted squares fall without it at least, in thousandths. */
    plantbal_wide low;
} plantbal_taken;

/* What a stage says of a stream: its class with its certificate, its reconciled flow, and bounds
   of that flow. */
typedef struct plantbal_result {
    /* 0 observable, 1 unobservable, 2 redundant, 3 nonredundant. */
    uint8_t stream_class;
    /* Whether its certificate is a cycle. If not, it is a cut. */
    bool cycle;
    /* Whether there are bounds. An unobservable stream has none. */
    bool bounded;
    /* Whether there are least bounds. */
    bool least_bounded;
    /* How many streams its certificate has. */
    uint64_t members;
    /* The reconciled flow in grams. */
    plantbal_wide flow;
    /* The flow is at least this much in each balanced vector that is no worse. */
    plantbal_wide lo;
    /* It is at most this much. */
    plantbal_wide hi;
    /* The flow is at least this much in each least vector. */
    plantbal_wide least_lo;
    /* It is at most this much. */
    plantbal_wide least_hi;
} plantbal_result;

/* The test of the balance of a group of nodes. */
typedef struct plantbal_nodal_test {
    /* The place of the least node of the group. */
    uint32_t node;
    /* Whether there is a critical value. */
    bool has_critical;
    /* 0 reject, 1 accept, 2 undecided, 3 no critical value, 4 nothing to test. */
    uint8_t verdict;
    /* The critical value in thousandths. */
    int64_t critical;
    /* The net flow in grams. */
    plantbal_wide net;
    /* Its variance in squared grams. */
    plantbal_wide variance;
} plantbal_nodal_test;

/* The test of one measurement: how far the least weighted squares fall without it. */
typedef struct plantbal_measure_test {
    /* The place of the stream. */
    uint32_t stream;
    /* Whether the fall has a high end. */
    bool has_high;
    /* Whether there is a critical value. */
    bool has_critical;
    /* 0 reject, 1 accept, 2 undecided, 3 no critical value, 4 nothing to test. */
    uint8_t verdict;
    /* The critical value in thousandths. */
    int64_t critical;
    /* The fall is at least this much, in thousandths. */
    plantbal_wide low;
    /* It is at most this much. */
    plantbal_wide high;
} plantbal_measure_test;

/* The options that a run has if its words ask for nothing else. */
#define PLANTBAL_OPTIONS {10, 5000, 0, 0, 0}

/* The same of a study: no tests, and no critical values. */
#define PLANTBAL_STUDY_OPTIONS {10, 5000, 0, false, false, false, 0, 0}

/* Takes records whose fields are already apart, in order, and writes a code for each as
   plantbal_session_rows does. The fields lie one after another in text: each ends at the place
   that ends gives, counted in bytes from the beginning. counts has an item for each record: how
   many fields there are up to its end, those of the records before it too. It stops when there
   is no room for another code, and writes how many records it took to taken. PLANTBAL_USAGE: the
   places of the next record aren't in order, or lie beyond the text; PLANTBAL_NO_MEMORY,
   PLANTBAL_TOO_LARGE: with these too the records that were taken stay taken, and the next one
   wasn't. PLANTBAL_BAD_HANDLE: the handle holds no session; taken is 0. */
uint8_t plantbal_session_records(
    plantbal_session session,
    const void *text,
    size_t text_length,
    const size_t *ends,
    size_t ends_length,
    const size_t *counts,
    size_t counts_length,
    void *codes,
    size_t codes_length,
    size_t *taken);

/* Takes the records of the bytes in order, after as many as skip says, and writes a code for
   each: 0 if the record is accepted, otherwise the number of the cause for which it is refused.
   It stops when there is no room for another code, and writes how many records it took to taken:
   so the next call skips these too. PLANTBAL_NO_MEMORY, PLANTBAL_TOO_LARGE: the records that
   were taken stay taken, and the next one wasn't. PLANTBAL_BAD_HANDLE: the handle holds no
   session; taken is 0. */
uint8_t plantbal_session_rows(
    plantbal_session session,
    const void *bytes,
    size_t bytes_length,
    size_t skip,
    void *codes,
    size_t codes_length,
    size_t *taken);

/* Takes one record, whose fields lie one after another in text: each ends at the place that ends
   gives, counted in bytes from the beginning. Writes to code 0 if the record is accepted,
   otherwise the number of the cause for which it is refused. PLANTBAL_USAGE: the places aren't
   in order, or lie beyond the text. PLANTBAL_BAD_HANDLE: the handle holds no session. If the
   status isn't PLANTBAL_DONE, the session is as it was. */
uint8_t plantbal_session_row(
    plantbal_session session,
    const void *text,
    size_t text_length,
    const size_t *ends,
    size_t ends_length,
    uint8_t *code);

/* Writes the graph of the period at a place, from the facts that are live, as a report studies
   it: its streams in order, with what was measured, and to size how many nodes and streams there
   are. PLANTBAL_SMALL_BUFFER: there is no room for the streams; size says how many there are.
   PLANTBAL_BAD_STREAM: what is measured of the stream at the place over is above the limits, so
   there is no graph. PLANTBAL_NOT_THERE: there are no more than period periods.
   PLANTBAL_BAD_HANDLE: the handle holds no session; all of size is 0. */
uint8_t plantbal_session_period_graph(
    plantbal_session session,
    uint32_t period,
    plantbal_measured_stream *streams,
    size_t streams_length,
    plantbal_graph_size *size);

/* Writes the names of the nodes and of the streams of the graph of the period at a place, in the
   order of the graph, and how many there are. PLANTBAL_SMALL_BUFFER: there is no room for all of
   them. PLANTBAL_NOT_THERE: there are no more than period periods. PLANTBAL_BAD_HANDLE: the
   handle holds no session; both counts are 0. */
uint8_t plantbal_session_period_names(
    plantbal_session session,
    uint32_t period,
    plantbal_name *nodes,
    size_t nodes_length,
    plantbal_name *streams,
    size_t streams_length,
    size_t *node_count,
    size_t *stream_count);

/* Writes the class of each stream of the plant in the order of declaration, before any reading,
   as the rows of a design say it: 0 observable, 1 unobservable, 2 redundant, 3 nonredundant; and
   to count how many there are. PLANTBAL_SMALL_BUFFER: there is no room for all of them.
   PLANTBAL_BAD_HANDLE: the handle holds no session; count is 0. */
uint8_t plantbal_session_classes(
    plantbal_session session,
    void *classes,
    size_t classes_length,
    size_t *count);

/* Writes how much there is of everything in the book. PLANTBAL_BAD_HANDLE: the handle holds no
   session; all of counts is 0. */
uint8_t plantbal_session_counts(plantbal_session session, plantbal_counts *counts);

/* Writes the node at a place, counted from 0, which is the environment. PLANTBAL_NOT_THERE:
   there are no more than place nodes, and nothing is written. PLANTBAL_BAD_HANDLE: the handle
   holds no session. */
uint8_t plantbal_session_node(plantbal_session session, uint32_t place, plantbal_node *node);

/* Writes the stream at a place, counted from 0 in the order of declaration. PLANTBAL_NOT_THERE:
   there are no more than place streams, and nothing is written. PLANTBAL_BAD_HANDLE: the handle
   holds no session. */
uint8_t plantbal_session_stream(plantbal_session session, uint32_t place, plantbal_stream *stream);

/* Writes the period at a place, counted from 0 in the order of declaration. PLANTBAL_NOT_THERE:
   there are no more than place periods, and nothing is written. PLANTBAL_BAD_HANDLE: the handle
   holds no session. */
uint8_t plantbal_session_period(plantbal_session session, uint32_t place, plantbal_period *period);

/* Writes the fact at a place, counted from 0 in the order of booking, with its last values.
   PLANTBAL_NOT_THERE: there are no more than place facts, and nothing is written.
   PLANTBAL_BAD_HANDLE: the handle holds no session. */
uint8_t plantbal_session_fact(plantbal_session session, uint32_t place, plantbal_fact *fact);

/* Writes the edit at a place, counted from 0 in the order of the records. PLANTBAL_NOT_THERE:
   there are no more than place edits, and nothing is written. PLANTBAL_BAD_HANDLE: the handle
   holds no session. */
uint8_t plantbal_session_edit(plantbal_session session, uint64_t place, plantbal_edit *edit);

/* Writes whether the fact at one place touches the period at another: whether it counts there.
   PLANTBAL_NOT_THERE: there is no such fact or period, and nothing is written.
   PLANTBAL_BAD_HANDLE: the handle holds no session. */
uint8_t plantbal_session_fact_touches(
    plantbal_session session,
    uint32_t fact,
    uint32_t period,
    bool *touches);

/* Writes whether the edit at one place touches the period at another: whether it counts there.
   PLANTBAL_NOT_THERE: there is no such edit or period, and nothing is written.
   PLANTBAL_BAD_HANDLE: the handle holds no session. */
uint8_t plantbal_session_edit_touches(
    plantbal_session session,
    uint64_t edit,
    uint32_t period,
    bool *touches);

/* Writes the place of the node of a name, 0 for the environment and for a boundary.
   PLANTBAL_NOT_THERE: there is none, or the bytes aren't a name, and nothing is written.
   PLANTBAL_BAD_HANDLE: the handle holds no session. */
uint8_t plantbal_session_node_named(
    plantbal_session session,
    const void *name,
    size_t name_length,
    uint32_t *place);

/* Writes the place of the stream or the tank of a name. PLANTBAL_NOT_THERE: there is none, or
   the bytes aren't a name, and nothing is written. PLANTBAL_BAD_HANDLE: the handle holds no
   session. */
uint8_t plantbal_session_stream_named(
    plantbal_session session,
    const void *name,
    size_t name_length,
    uint32_t *place);

/* Writes the place of the period of a name. PLANTBAL_NOT_THERE: there is none, or the bytes
   aren't a name, and nothing is written. PLANTBAL_BAD_HANDLE: the handle holds no session. */
uint8_t plantbal_session_period_named(
    plantbal_session session,
    const void *name,
    size_t name_length,
    uint32_t *place);

/* Writes the place of the live fact that has this id. PLANTBAL_NOT_THERE: there is none, or the
   bytes aren't a name, and nothing is written. PLANTBAL_BAD_HANDLE: the handle holds no session. */
uint8_t plantbal_session_fact_named(
    plantbal_session session,
    const void *name,
    size_t name_length,
    uint32_t *place);

/* Makes the session of a number with this many streams, as plantbal make does, or, if summary
   isn't 0, studies its period by this gap and this many sweeps, and makes the row that sums up
   the study. The handle then holds a session of the usual options that has taken no record, and
   whose output is that text. PLANTBAL_USAGE: the streams, the gap or the sweeps are outside
   their limits. PLANTBAL_BAD_HANDLE: the handle already holds a session, which stays. After
   these and PLANTBAL_NO_MEMORY the handle is as it was. */
uint8_t plantbal_make(
    uint32_t number,
    uint32_t streams,
    uint32_t summary,
    uint32_t gap,
    uint32_t sweeps,
    plantbal_session session);

/* Answers the records of the input as plantbal run does. The handle then holds a session of
   these options that has taken no record, and whose output is that of the run.
   PLANTBAL_DONE_REFUSED: done, and some record was refused. PLANTBAL_USAGE: the options aren't
   within their limits. PLANTBAL_TOO_LARGE: the input has more than 67,108,864 bytes.
   PLANTBAL_BAD_HANDLE: the handle already holds a session, which stays. After these and
   PLANTBAL_NO_MEMORY the handle is as it was. */
uint8_t plantbal_run(
    const plantbal_options *options,
    const void *input,
    size_t input_length,
    plantbal_session session);

/* Judges the blocks of a report as plantbal check does. The handle then holds a session of the
   usual options that has taken no record, and whose output is that of the check.
   PLANTBAL_DONE_REFUSED: done, and a block fails or can't be read. PLANTBAL_TOO_LARGE,
   PLANTBAL_BAD_HANDLE, PLANTBAL_NO_MEMORY: as with plantbal_run. */
uint8_t plantbal_check(const void *input, size_t input_length, plantbal_session session);

/* Makes a session of these options that has taken no record. PLANTBAL_USAGE: the options aren't
   within their limits. PLANTBAL_BAD_HANDLE: the handle already holds a session, which stays.
   PLANTBAL_NO_MEMORY: the handle still holds none. */
uint8_t plantbal_session_new(const plantbal_options *options, plantbal_session session);

/* Hands over the output that wasn't handed over yet, if it fits into the buffer, and writes its
   length to count. PLANTBAL_SMALL_BUFFER: it doesn't fit, and stays. PLANTBAL_BAD_HANDLE: the
   handle holds no session; count is 0. */
uint8_t plantbal_session_output(
    plantbal_session session,
    void *buffer,
    size_t buffer_length,
    size_t *count);

/* Frees the session that the handle holds, if it holds one. The handle may be used for another. */
void plantbal_session_free(plantbal_session session);

/* Writes how many stages there are, how many measurements were taken out between them, and why
   the elimination stopped. PLANTBAL_BAD_HANDLE: the handle holds no study; all of counts is 0. */
uint8_t plantbal_study_counts(plantbal_study study, plantbal_studied *counts);

/* Writes the stage at a place. PLANTBAL_NOT_THERE: there is none, and nothing is written.
   PLANTBAL_BAD_HANDLE: the handle holds no study. */
uint8_t plantbal_study_stage(plantbal_study study, size_t stage, plantbal_stage *shown_stage);

/* Writes which measurement was taken out after a stage. PLANTBAL_NOT_THERE: none was, and
   nothing is written. PLANTBAL_BAD_HANDLE: the handle holds no study. */
uint8_t plantbal_study_taken(plantbal_study study, size_t stage, plantbal_taken *taken);

/* Writes what a stage says of a stream. PLANTBAL_NOT_THERE: there is no such stage or stream,
   and nothing is written. PLANTBAL_BAD_HANDLE: the handle holds no study. */
uint8_t plantbal_study_stream(
    plantbal_study study,
    size_t stage,
    uint32_t stream,
    plantbal_result *shown_result);

/* Writes the stream at a place of the certificate of a stream. PLANTBAL_NOT_THERE: there is
   none, and nothing is written. PLANTBAL_BAD_HANDLE: the handle holds no study. */
uint8_t plantbal_study_member(
    plantbal_study study,
    size_t stage,
    uint32_t stream,
    size_t place,
    plantbal_member *member);

/* Writes whether a node is inside the cut that is the certificate of a stream.
   PLANTBAL_NOT_THERE: the certificate is a cycle, or there is no such stage, stream or node, and
   nothing is written. PLANTBAL_BAD_HANDLE: the handle holds no study. */
uint8_t plantbal_study_inside(
    plantbal_study study,
    size_t stage,
    uint32_t stream,
    uint32_t node,
    bool *inside);

/* Writes the price of a node in a stage, in units of 2^-56. PLANTBAL_NOT_THERE: there is no such
   stage or node, and nothing is written. PLANTBAL_BAD_HANDLE: the handle holds no study. */
uint8_t plantbal_study_price(
    plantbal_study study,
    size_t stage,
    uint32_t node,
    plantbal_wide *price);

/* Writes the test of a group of nodes at a place of a stage. PLANTBAL_NOT_THERE: there is none,
   and nothing is written. PLANTBAL_BAD_HANDLE: the handle holds no study. */
uint8_t plantbal_study_nodal(
    plantbal_study study,
    size_t stage,
    size_t place,
    plantbal_nodal_test *test);

/* Writes the test of a measurement at a place of a stage. PLANTBAL_NOT_THERE: there is none, and
   nothing is written. PLANTBAL_BAD_HANDLE: the handle holds no study. */
uint8_t plantbal_study_measure(
    plantbal_study study,
    size_t stage,
    size_t place,
    plantbal_measure_test *test);

/* Makes the study of a process graph of nodes nodes, of which node 0 is the environment, and
   these streams: with the class of each stream, its certificate, its reconciled flow and bounds
   of it, the statistic, and tests if they are asked for. limits are the critical values of the
   global test; of two for the same degrees of freedom the first counts. PLANTBAL_USAGE: the
   options or the critical values aren't within their limits, or there are no nodes, more than
   1,001, or more than 4,000 streams. PLANTBAL_BAD_STREAM: the stream whose place is written to
   wrong leads to no node or to where it begins, or its measurement is outside the limits.
   PLANTBAL_BAD_HANDLE: the handle already holds a study, which stays. After these and
   PLANTBAL_NO_MEMORY the handle is as it was. */
uint8_t plantbal_study_new(
    const plantbal_study_options *options,
    const plantbal_critical_row *limits,
    size_t limits_length,
    uint32_t nodes,
    const plantbal_measured_stream *streams,
    size_t streams_length,
    plantbal_study study,
    size_t *wrong);

/* Frees the study that the handle holds, if it holds one. The handle may be used for another. */
void plantbal_study_free(plantbal_study study);

#ifdef __cplusplus
}
#endif

#endif
