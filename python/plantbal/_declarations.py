"""What cffi reads of libplantbal: made by packaging/derived write."""

from enum import IntEnum

DECLARATIONS = """\
typedef struct plantbal_handle {
    void *at;
    bool live;
} plantbal_session[1];
typedef struct plantbal_study_handle {
    void *at;
    bool live;
} plantbal_study[1];
typedef struct plantbal_graph_size {
    uint32_t nodes;
    uint32_t over;
    size_t streams;
} plantbal_graph_size;
typedef struct plantbal_options {
    uint32_t gap;
    uint32_t sweeps;
    uint32_t eliminate;
    uint32_t tests;
    uint32_t form;
} plantbal_options;
typedef struct plantbal_wide {
    uint64_t low;
    int64_t high;
} plantbal_wide;
typedef struct plantbal_name {
    char name[33];
} plantbal_name;
typedef struct plantbal_counts {
    uint32_t version;
    uint32_t nodes;
    uint32_t streams;
    uint32_t periods;
    uint32_t facts;
    uint32_t assays;
    uint64_t edits;
} plantbal_counts;
typedef struct plantbal_period {
    char name[33];
    bool closed;
    int32_t first;
    int32_t last;
} plantbal_period;
typedef struct plantbal_node {
    char name[33];
    bool tank;
} plantbal_node;
typedef struct plantbal_study_options {
    uint32_t gap;
    uint32_t sweeps;
    uint32_t eliminate;
    bool tests;
    bool has_nodal;
    bool has_measure;
    int64_t nodal;
    int64_t measure;
} plantbal_study_options;
typedef struct plantbal_critical_row {
    uint32_t dof;
    int64_t value;
} plantbal_critical_row;
typedef struct plantbal_studied {
    uint64_t stages;
    uint64_t taken;
    uint8_t stop;
} plantbal_studied;
typedef struct plantbal_member {
    uint32_t stream;
    int32_t sign;
} plantbal_member;
typedef struct plantbal_edit {
    char id[33];
    char reason[81];
    uint8_t kind;
    uint32_t record;
    int64_t amount;
    int64_t density;
    plantbal_wide variance;
} plantbal_edit;
typedef struct plantbal_fact {
    char id[33];
    char stream[33];
    uint8_t kind;
    bool struck;
    int32_t first;
    int32_t last;
    int64_t amount;
    int64_t density;
    plantbal_wide variance;
} plantbal_fact;
typedef struct plantbal_stream {
    char name[33];
    uint8_t kind;
    bool served;
    uint32_t from;
    uint32_t to;
    int32_t since;
    int32_t until;
    plantbal_wide base;
} plantbal_stream;
typedef struct plantbal_measured_stream {
    uint32_t from;
    uint32_t to;
    bool measured;
    int64_t value;
    plantbal_wide variance;
} plantbal_measured_stream;
typedef struct plantbal_stage {
    bool converged;
    bool has_high;
    bool tested;
    bool has_critical;
    uint8_t verdict;
    uint32_t sweeps;
    uint32_t h;
    uint32_t dof;
    uint64_t g;
    uint64_t nodal;
    uint64_t measure;
    int64_t critical;
    plantbal_wide low;
    plantbal_wide high;
} plantbal_stage;
typedef struct plantbal_taken {
    uint32_t stream;
    plantbal_wide low;
} plantbal_taken;
typedef struct plantbal_result {
    uint8_t stream_class;
    bool cycle;
    bool bounded;
    bool least_bounded;
    uint64_t members;
    plantbal_wide flow;
    plantbal_wide lo;
    plantbal_wide hi;
    plantbal_wide least_lo;
    plantbal_wide least_hi;
} plantbal_result;
typedef struct plantbal_nodal_test {
    uint32_t node;
    bool has_critical;
    uint8_t verdict;
    int64_t critical;
    plantbal_wide net;
    plantbal_wide variance;
} plantbal_nodal_test;
typedef struct plantbal_measure_test {
    uint32_t stream;
    bool has_high;
    bool has_critical;
    uint8_t verdict;
    int64_t critical;
    plantbal_wide low;
    plantbal_wide high;
} plantbal_measure_test;
uint8_t plantbal_session_records(
    plantbal_session session,
    const void *text,
    size_t text_length,
    const size_t *ends,
    size_t ends_length,
    const size_t *counts,
    size_t counts_length,
    void *codes,
    size_t codes_length,
    size_t *taken);
uint8_t plantbal_session_rows(
    plantbal_session session,
    const void *bytes,
    size_t bytes_length,
    size_t skip,
    void *codes,
    size_t codes_length,
    size_t *taken);
uint8_t plantbal_session_row(
    plantbal_session session,
    const void *text,
    size_t text_length,
    const size_t *ends,
    size_t ends_length,
    uint8_t *code);
uint8_t plantbal_session_period_graph(
    plantbal_session session,
    uint32_t period,
    plantbal_measured_stream *streams,
    size_t streams_length,
    plantbal_graph_size *size);
uint8_t plantbal_session_period_names(
    plantbal_session session,
    uint32_t period,
    plantbal_name *nodes,
    size_t nodes_length,
    plantbal_name *streams,
    size_t streams_length,
    size_t *node_count,
    size_t *stream_count);
uint8_t plantbal_session_classes(
    plantbal_session session,
    void *classes,
    size_t classes_length,
    size_t *count);
uint8_t plantbal_session_counts(plantbal_session session, plantbal_counts *counts);
uint8_t plantbal_session_node(plantbal_session session, uint32_t place, plantbal_node *node);
uint8_t plantbal_session_stream(plantbal_session session, uint32_t place, plantbal_stream *stream);
uint8_t plantbal_session_period(plantbal_session session, uint32_t place, plantbal_period *period);
uint8_t plantbal_session_fact(plantbal_session session, uint32_t place, plantbal_fact *fact);
uint8_t plantbal_session_edit(plantbal_session session, uint64_t place, plantbal_edit *edit);
uint8_t plantbal_session_fact_touches(
    plantbal_session session,
    uint32_t fact,
    uint32_t period,
    bool *touches);
uint8_t plantbal_session_edit_touches(
    plantbal_session session,
    uint64_t edit,
    uint32_t period,
    bool *touches);
uint8_t plantbal_session_node_named(
    plantbal_session session,
    const void *name,
    size_t name_length,
    uint32_t *place);
uint8_t plantbal_session_stream_named(
    plantbal_session session,
    const void *name,
    size_t name_length,
    uint32_t *place);
uint8_t plantbal_session_period_named(
    plantbal_session session,
    const void *name,
    size_t name_length,
    uint32_t *place);
uint8_t plantbal_session_fact_named(
    plantbal_session session,
    const void *name,
    size_t name_length,
    uint32_t *place);
uint8_t plantbal_make(
    uint32_t number,
    uint32_t streams,
    uint32_t summary,
    uint32_t gap,
    uint32_t sweeps,
    plantbal_session session);
uint8_t plantbal_run(
    const plantbal_options *options,
    const void *input,
    size_t input_length,
    plantbal_session session);
uint8_t plantbal_check(const void *input, size_t input_length, plantbal_session session);
uint8_t plantbal_session_new(const plantbal_options *options, plantbal_session session);
uint8_t plantbal_session_output(
    plantbal_session session,
    void *buffer,
    size_t buffer_length,
    size_t *count);
void plantbal_session_free(plantbal_session session);
uint8_t plantbal_study_counts(plantbal_study study, plantbal_studied *counts);
uint8_t plantbal_study_stage(plantbal_study study, size_t stage, plantbal_stage *shown_stage);
uint8_t plantbal_study_taken(plantbal_study study, size_t stage, plantbal_taken *taken);
uint8_t plantbal_study_stream(
    plantbal_study study,
    size_t stage,
    uint32_t stream,
    plantbal_result *shown_result);
uint8_t plantbal_study_member(
    plantbal_study study,
    size_t stage,
    uint32_t stream,
    size_t place,
    plantbal_member *member);
uint8_t plantbal_study_inside(
    plantbal_study study,
    size_t stage,
    uint32_t stream,
    uint32_t node,
    bool *inside);
uint8_t plantbal_study_price(
    plantbal_study study,
    size_t stage,
    uint32_t node,
    plantbal_wide *price);
uint8_t plantbal_study_nodal(
    plantbal_study study,
    size_t stage,
    size_t place,
    plantbal_nodal_test *test);
uint8_t plantbal_study_measure(
    plantbal_study study,
    size_t stage,
    size_t place,
    plantbal_measure_test *test);
uint8_t plantbal_study_new(
    const plantbal_study_options *options,
    const plantbal_critical_row *limits,
    size_t limits_length,
    uint32_t nodes,
    const plantbal_measured_stream *streams,
    size_t streams_length,
    plantbal_study study,
    size_t *wrong);
void plantbal_study_free(plantbal_study study);
"""


class Status(IntEnum):
    """How a call ended."""

    # Everything was done; of a run or a check, nothing is wrong.
    DONE = 0
    # The same, and a record was refused or a block is wrong.
    DONE_REFUSED = 1
    # An argument is outside its limits. Nothing was done with it.
    USAGE = 2
    # There are more bytes or more records than the limit.
    TOO_LARGE = 5
    # Memory ran out.
    NO_MEMORY = 6
    # The handle holds no session or, where a call makes one, it already holds one. Nothing was done.
    BAD_HANDLE = 7
    # The buffer is too small. Nothing was done.
    SMALL_BUFFER = 8
    # There is nothing at this place, or nothing of this name. Nothing was written.
    NOT_THERE = 9
    # A stream isn't one of a process graph.
    BAD_STREAM = 10
