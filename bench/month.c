/* The report of one month, in plain C: reads the rows of a session (boundary, unit, stream, period, reading, report), and sweeps best
 * prices in 128 bits until the gap is met, at most 5,000 times or as often as the words `sweeps N` say. With the word `report` it writes
 * the report, byte for byte as `plantbal run` does: the prices, each stream's class with its certificate, its flow and its bounds, and how
 * the plant was solved. Without it, it writes only the flows, one row `flow,STREAM,GRAMS` for each stream; with the word `cuts` with the
 * streams of a cut after it. With the word `tests` it goes on and solves the plant once more for each redundant stream, without its
 * measurement. It stands beside plantbal in bench/all and bench/c. It refuses nothing, and takes the rows as good: metered and plain
 * streams alone, all of them in service, one period, and totals within the limits. It is plain: each step asks the box of all its streams,
 * and each sweep makes the flows, whose gap is left at the first stream that is too far. */
#include <stdint.h>
#include <stdio.h>
#include <stdlib.h>
#include <string.h>

typedef __int128 wide;
typedef unsigned __int128 uwide;

enum { MOST_NODES = 1001, MOST_STREAMS = 4000, MOST_DAYS = 366 };

typedef struct { char name[64]; int from, to, metered, days; wide value, variance; } Stream;
typedef struct { int stream, other, enters; wide variance, room; } Border;
typedef struct { int stream, plus; } Part;
typedef struct { uint64_t number; int exponent; } Gap;

static Stream streams[MOST_STREAMS];
static char nodes[MOST_NODES][64];
static int stream_count, node_count = 1, day_count;
static char period[64], first_day[16], last_day[16];
static int asked;

/* ---- names, by a table of their hashes */
enum { SLOTS = 1 << 14 };
typedef struct { const char *name; int id; } Slot;
static Slot node_slots[SLOTS], stream_slots[SLOTS];

static unsigned hash(const char *s)
{
    unsigned h = 2166136261u;
    while (*s) h = (h ^ (unsigned char)*s++) * 16777619u;
    return h;
}

/* the slot of a name, or the free one where it belongs */
static Slot *slot_of(Slot *table, const char *name)
{
    unsigned i = hash(name) % SLOTS;
    while (table[i].name && strcmp(table[i].name, name)) i = (i + 1) % SLOTS;
    return &table[i];
}

static void put(Slot *table, const char *name, int id)
{
    Slot *slot = slot_of(table, name);
    slot->name = name;
    slot->id = id;
}

static int find(Slot *table, const char *name)
{
    Slot *slot = slot_of(table, name);
    return slot->name ? slot->id : -1;
}

static wide number(const char *s)
{
    wide x = 0;
    int minus = *s == '-';
    for (s += minus; *s; s++) x = x * 10 + (*s - '0');
    return minus ? -x : x;
}

/* ---- rows */
static int day_of(const char *date)
{
    int y = atoi(date), m = atoi(date + 5), d = atoi(date + 8);
    y -= m <= 2;
    int era = y / 400, yoe = y - era * 400, doy = (153 * (m + (m > 2 ? -3 : 9)) + 2) / 5 + d - 1;
    return era * 146097 + yoe * 365 + yoe / 4 - yoe / 100 + doy;
}

typedef struct { int stream, day; wide grams, variance; } Reading;
static Reading *readings;
static int reading_count, reading_room;

static void read_row(char *line)
{
    char *field[8] = {0};
    int count = 0;
    for (char *p = line; p && count < 8; count++) { field[count] = p; p = strchr(p, ','); if (p) *p++ = 0; }
    if (!strcmp(field[0], "boundary")) {
        static char boundaries[100][64];
        static int boundary_count;
        strcpy(boundaries[boundary_count], field[1]);
        put(node_slots, boundaries[boundary_count++], 0);
    } else if (!strcmp(field[0], "unit")) {
        strcpy(nodes[node_count], field[1]);
        put(node_slots, nodes[node_count], node_count);
        node_count++;
    } else if (!strcmp(field[0], "stream")) {
        Stream *s = &streams[stream_count];
        strcpy(s->name, field[1]);
        s->from = find(node_slots, field[2]);
        s->to = find(node_slots, field[3]);
        s->metered = !strcmp(field[4], "metered");
        s->variance = number(field[5]);
        put(stream_slots, s->name, stream_count);
        stream_count++;
    } else if (!strcmp(field[0], "period")) {
        strcpy(period, field[1]);
        strcpy(first_day, field[2]);
        strcpy(last_day, field[3]);
    } else if (!strcmp(field[0], "reading")) {
        if (reading_count == reading_room) readings = realloc(readings, (reading_room = 2 * reading_room + 1024) * sizeof *readings);
        Reading r = { find(stream_slots, field[2]), day_of(field[3]), number(field[4]), number(field[5]) };
        readings[reading_count++] = r;
    } else if (!strcmp(field[0], "report")) {
        asked = 1;
    }
}

static void add_readings(void)
{
    int from = day_of(first_day), to = day_of(last_day);
    day_count = to - from + 1;
    for (int i = 0; i < reading_count; i++) {
        Reading *r = &readings[i];
        if (r->day < from || r->day > to) continue;
        streams[r->stream].value += r->grams;
        streams[r->stream].variance += r->variance;
        streams[r->stream].days++;
    }
}

/* ---- groups and the forest */
static int parent[MOST_NODES], group[MOST_NODES], group_count;
static int held[MOST_STREAMS], order[MOST_NODES], up[MOST_NODES];

static int root(int n) { while (parent[n] != n) n = parent[n] = parent[parent[n]]; return n; }

static int is_measured(int j) { return streams[j].metered && streams[j].days == day_count; }

static int other_end(int j, int n) { return streams[j].from == n ? streams[j].to : streams[j].from; }

static void hold(int j)
{
    int from = root(streams[j].from), to = root(streams[j].to);
    if (from == to) return;
    held[j] = 1;
    parent[from] = to;
}

/* the unmeasured streams are taken first; the groups are numbered between */
static void join_all(void)
{
    static int number_of[MOST_NODES];
    for (int n = 0; n < node_count; n++) { parent[n] = n; number_of[n] = -1; }
    for (int j = 0; j < stream_count; j++) if (!is_measured(j)) hold(j);
    for (int n = 0; n < node_count; n++) {
        int r = root(n);
        if (number_of[r] < 0) number_of[r] = group_count++;
        group[n] = number_of[r];
    }
    for (int j = 0; j < stream_count; j++) if (is_measured(j)) hold(j);
}

/* nodes in an order in which each comes behind its parent, with the held stream that leads up */
static void walk_forest(void)
{
    static int near[MOST_NODES], next[2 * MOST_STREAMS], at[2 * MOST_STREAMS], seen[MOST_NODES];
    int count = 0, used = 0;
    for (int n = 0; n < node_count; n++) { near[n] = -1; seen[n] = 0; }
    for (int j = 0; j < stream_count; j++) {
        if (!held[j]) continue;
        int ends[2] = { streams[j].from, streams[j].to };
        for (int e = 0; e < 2; e++) { at[used] = j; next[used] = near[ends[e]]; near[ends[e]] = used++; }
    }
    for (int r = 0; r < node_count; r++) {
        if (seen[r]) continue;
        seen[r] = 1; up[r] = -1; order[count++] = r;
        for (int i = count - 1; i < count; i++)
            for (int e = near[order[i]]; e >= 0; e = next[e]) {
                int other = other_end(at[e], order[i]);
                if (!seen[other]) { seen[other] = 1; up[other] = at[e]; order[count++] = other; }
            }
    }
}

/* ---- prices and flows, in 128 bits */
static wide price[MOST_NODES], group_variance[MOST_NODES];
static wide dual[MOST_STREAMS], flow[MOST_STREAMS], deviation_root[MOST_STREAMS];
static Border border[2 * MOST_STREAMS];
static int border_at[MOST_NODES + 1];

static wide size(wide x) { return x < 0 ? -x : x; }

static wide floor_div(wide n, wide d) { wide q = n / d; return n % d < 0 ? q - 1 : q; }

static uint64_t root_floor(uwide n)
{
    uint64_t r = 0;
    for (int b = 63; b >= 0; b--) { uint64_t t = r | (uint64_t)1 << b; if ((uwide)t * t <= n) r = t; }
    return r;
}

static void make_borders(void)
{
    static int fill[MOST_NODES];
    for (int j = 0; j < stream_count; j++) {
        int f = group[streams[j].from], t = group[streams[j].to];
        if (!is_measured(j) || f == t) continue;
        border_at[f + 1]++;
        border_at[t + 1]++;
    }
    for (int k = 0; k < group_count; k++) { border_at[k + 1] += border_at[k]; fill[k] = border_at[k]; }
    for (int j = 0; j < stream_count; j++) {
        int f = group[streams[j].from], t = group[streams[j].to];
        if (!is_measured(j)) continue;
        dual[j] = streams[j].value * ((wide)1 << 56);
        deviation_root[j] = root_floor((uwide)streams[j].variance << 40);
        if (f == t) continue;
        wide v = streams[j].variance, room = ((wide)1 << 112) / v;
        Border leaves = { j, t, 0, v, room }, enters = { j, f, 1, v, room };
        border[fill[f]++] = leaves;
        border[fill[t]++] = enters;
        group_variance[f] += v;
        group_variance[t] += v;
    }
}

static wide net(int k)
{
    wide sum = 0;
    for (int i = border_at[k]; i < border_at[k + 1]; i++) sum += border[i].enters ? dual[border[i].stream] : -dual[border[i].stream];
    return sum;
}

static int step(int k)
{
    wide a = group_variance[k], c = price[k] - floor_div(2 * net(k) + a, 2 * a);
    wide lo = -((wide)1 << 120), hi = (wide)1 << 120;
    for (int i = border_at[k]; i < border_at[k + 1]; i++) {
        wide o = price[border[i].other];
        if (o - border[i].room > lo) lo = o - border[i].room;
        if (o + border[i].room < hi) hi = o + border[i].room;
    }
    c = c < lo ? lo : c > hi ? hi : c;
    if (c == price[k]) return 0;
    price[k] = c;
    for (int i = border_at[k]; i < border_at[k + 1]; i++) {
        Border *b = &border[i];
        wide rise = b->enters ? c - price[b->other] : price[b->other] - c;
        dual[b->stream] = streams[b->stream].value * ((wide)1 << 56) + b->variance * rise;
    }
    return 1;
}

static int sweep(void)
{
    int moved = 0;
    for (int k = 1; k < group_count; k++) if (border_at[k] < border_at[k + 1]) moved |= step(k);
    return moved;
}

static void write_flows(void)
{
    static wide excess[MOST_NODES];
    memset(excess, 0, sizeof excess);
    for (int j = 0; j < stream_count; j++) if (!held[j]) {
        flow[j] = is_measured(j) ? (dual[j] + ((wide)1 << 55)) >> 56 : 0;
        excess[streams[j].from] -= flow[j];
        excess[streams[j].to] += flow[j];
    }
    for (int i = node_count - 1; i >= 0; i--) {
        int n = order[i], j = up[n];
        if (j < 0) continue;
        flow[j] = streams[j].from == n ? excess[n] : -excess[n];
        excess[other_end(j, n)] += excess[n];
    }
}

/* how far the flow of a stream is from its dual flow, in units of 2^-20 standard deviation; 0 without a measurement */
static wide deviation_of(int j)
{
    if (!is_measured(j)) return 0;
    wide d = deviation_root[j] * (1 << 16);
    return (size(flow[j] * ((wide)1 << 56) - dual[j]) + d - 1) / d;
}

/* the root of the sum of the squares of the deviations, which are added in blocks of a power of two */
static Gap gap_of(const wide *deviations)
{
    Gap gap = {0, 0};
    for (int j = 0; j < stream_count; j++) while (deviations[j] > (wide)1 << (57 + gap.exponent)) gap.exponent++;
    uwide sum = 0;
    for (int j = 0; j < stream_count; j++) {
        wide blocks = (deviations[j] + ((wide)1 << gap.exponent) - 1) >> gap.exponent;
        sum += (uwide)(blocks * blocks);
    }
    gap.number = root_floor(sum);
    if ((uwide)gap.number * gap.number != sum) gap.number++;
    return gap;
}

static wide deviations[MOST_STREAMS];

static int is_met(wide thousandths)
{
    wide most = (thousandths << 20) / 1000;
    write_flows();
    for (int j = 0; j < stream_count; j++) if ((deviations[j] = deviation_of(j)) > most) return 0;
    Gap gap = gap_of(deviations);
    return ((uwide)gap.number << gap.exponent) * 1000 <= (uwide)thousandths << 20;
}

static void print_wide(wide x)
{
    char text[48], *p = text + sizeof text;
    uwide u = x < 0 ? -(uwide)x : (uwide)x;
    do *--p = '0' + (int)(u % 10); while (u /= 10);
    if (x < 0) *--p = '-';
    fwrite(p, 1, text + sizeof text - p, stdout);
}

enum { MOST_GAP = 10 };
static int most_sweeps = 5000, met;

/* sweeps from prices of 0 until the gap is met, or as often as is allowed, and makes the flows */
static int solve(void)
{
    group_count = 0;
    memset(held, 0, sizeof held);
    memset(price, 0, sizeof price);
    memset(border_at, 0, sizeof border_at);
    memset(group_variance, 0, sizeof group_variance);
    join_all();
    walk_forest();
    make_borders();
    int k = 0;
    met = is_met(MOST_GAP);
    for (; !met && k < most_sweeps; k++) {
        if (!sweep()) { k = most_sweeps; break; }
        met = is_met(MOST_GAP);
    }
    write_flows();
    return k;
}

/* a redundant stream is measured, and its ends are in two groups */
static void solve_without_each(void)
{
    static int redundant[MOST_STREAMS];
    int count = 0, sweeps = 0;
    for (int j = 0; j < stream_count; j++)
        if (is_measured(j) && group[streams[j].from] != group[streams[j].to]) redundant[count++] = j;
    for (int i = 0; i < count; i++) {
        streams[redundant[i]].metered = 0;
        sweeps += solve();
        streams[redundant[i]].metered = 1;
    }
    printf("tests,%d,%d\n", count, sweeps);
}

/* ---- rows of the output */
static void write_text(const char *s) { while (*s) putchar_unlocked(*s++); }

static void write_part(int first, int plus, int j)
{
    if (!first) putchar_unlocked(' ');
    putchar_unlocked(plus ? '+' : '-');
    write_text(streams[j].name);
}

/* the streams with one end in a group, with their signs */
static void write_border(int k)
{
    for (int i = border_at[k]; i < border_at[k + 1]; i++) write_part(i == border_at[k], border[i].enters, border[i].stream);
}

static void write_flow_rows(int cuts)
{
    for (int j = 0; j < stream_count; j++) {
        int k = group[streams[j].from];
        printf("flow,%s,", streams[j].name);
        print_wide(flow[j]);
        if (cuts && border_at[k] < border_at[k + 1]) { putchar(','); write_border(k); }
        putchar('\n');
    }
}

/* ---- classes and certificates
 * The certificate of a stream that the others determine is a cut: a side with its boundary, whose other streams are measured. That of a
 * stream which they leave free is a cycle, whose other streams aren't measured. */
typedef enum { OBSERVABLE, UNOBSERVABLE, REDUNDANT, NONREDUNDANT } Class;
static const char *const class_words[] = { "observable", "unobservable", "redundant", "nonredundant" };

/* for each stream of the forest the first unmeasured stream off it whose cycle has it, or -1; how deep each node is in its tree; and for
 * each group its nodes in order, as a list */
static int chord_of[MOST_STREAMS], depth[MOST_NODES], first_node[MOST_NODES], next_node[MOST_NODES];

/* the path in the forest from one node to another of the same tree */
static int path(int from, int to, Part *parts)
{
    static Part back[MOST_NODES];
    int count = 0, back_count = 0;
    while (from != to) {
        int climbs = depth[from] >= depth[to], n = climbs ? from : to, j = up[n];
        if (climbs) {
            Part part = { j, streams[j].from == n };
            parts[count++] = part;
            from = other_end(j, n);
        } else {
            Part part = { j, streams[j].to == n };
            back[back_count++] = part;
            to = other_end(j, n);
        }
    }
    while (back_count) parts[count++] = back[--back_count];
    return count;
}

/* the cycle of a stream off the forest: the stream, and the path back from its end to its begin */
static int cycle_of(int j, Part *parts)
{
    parts[0].stream = j;
    parts[0].plus = 1;
    return 1 + path(streams[j].to, streams[j].from, parts + 1);
}

static void make_tables(void)
{
    static Part parts[MOST_NODES + 1];
    for (int i = 0; i < node_count; i++) { int n = order[i]; depth[n] = up[n] < 0 ? 0 : depth[other_end(up[n], n)] + 1; }
    for (int k = 0; k < group_count; k++) first_node[k] = -1;
    for (int n = node_count - 1; n >= 0; n--) { next_node[n] = first_node[group[n]]; first_node[group[n]] = n; }
    for (int j = 0; j < stream_count; j++) chord_of[j] = -1;
    for (int j = 0; j < stream_count; j++) {
        if (held[j] || is_measured(j)) continue;
        int count = cycle_of(j, parts);
        for (int i = 0; i < count; i++) if (chord_of[parts[i].stream] < 0) chord_of[parts[i].stream] = j;
    }
}

static Class class_of(int j)
{
    if (is_measured(j)) return group[streams[j].from] == group[streams[j].to] ? NONREDUNDANT : REDUNDANT;
    return chord_of[j] < 0 ? OBSERVABLE : UNOBSERVABLE;
}

/* the side of an observable stream: the part of its group that its begin reaches without it */
static char is_inside[MOST_NODES];

static void make_side(int j)
{
    static char is_below[MOST_NODES];
    int from = streams[j].from, low = up[from] == j ? from : streams[j].to;
    for (int i = 0; i < node_count; i++) {
        int n = order[i];
        is_below[n] = n == low || (up[n] >= 0 && !is_measured(up[n]) && is_below[other_end(up[n], n)]);
    }
    for (int n = 0; n < node_count; n++) is_inside[n] = group[n] == group[from] && is_below[n] == (low == from);
}

/* the streams with one end in the side of an observable stream */
static int make_boundary(Part *parts)
{
    int count = 0;
    for (int j = 0; j < stream_count; j++) {
        int from_in = is_inside[streams[j].from], to_in = is_inside[streams[j].to];
        if (from_in == to_in) continue;
        Part part = { j, to_in };
        parts[count++] = part;
    }
    return count;
}

static void write_parts(const Part *parts, int count)
{
    for (int i = 0; i < count; i++) write_part(i == 0, parts[i].plus, parts[i].stream);
}

/* the nodes of a group, or those of them that are in the side */
static void write_side(int k, int all)
{
    int first = 1;
    for (int n = first_node[k]; n >= 0; n = next_node[n]) {
        if (!all && !is_inside[n]) continue;
        if (!first) putchar_unlocked(' ');
        write_text(nodes[n]);
        first = 0;
    }
}

/* ---- bounds and the statistic */
static wide ceil_shift(wide x, int bits) { return -(-x >> bits); }

/* a standard deviation times the gap, in grams, rounded up */
static wide half_width(wide root, Gap gap) { return ceil_shift(root * (wide)gap.number, 40 - gap.exponent); }

/* the bounds of a flow, about its dual flow, and the least bounds, about the middle of both, which are half as wide */
static void write_bounds(wide balanced, wide dual_flow, wide half)
{
    wide below = dual_flow >> 56, above = ceil_shift(dual_flow, 56), least = (half + 1) / 2;
    wide ends[4] = { below - half, above + half, ((balanced + below) >> 1) - least, ceil_shift(balanced + above, 1) + least };
    for (int i = 0; i < 4; i++) { print_wide(ends[i]); putchar_unlocked(','); }
}

static void write_measured_bounds(int j, Gap gap) { write_bounds(flow[j], dual[j], half_width(deviation_root[j] + 1, gap)); }

/* those of an observable stream, from the other streams of its cut */
static void write_observable_bounds(int j, Gap gap, const Part *parts, int count)
{
    wide sum = 0, variance = 0;
    int plus = 0;
    for (int i = 0; i < count; i++) {
        int other = parts[i].stream;
        if (other == j) { plus = parts[i].plus; continue; }
        sum += parts[i].plus ? dual[other] : -dual[other];
        variance += streams[other].variance;
    }
    wide half = count == 1 ? 0 : half_width((wide)root_floor((uwide)variance << 40) + 1, gap);
    write_bounds(flow[j], plus ? -sum : sum, half);
}

/* how far a flow is from its value, in units of 2^-40 gram */
static wide adjustment_of(int j) { return size(flow[j] - streams[j].value) << 40; }

/* the weighted squares are at least this many thousandths */
static wide low_end(Gap gap)
{
    const wide cap = (wide)1 << 52;
    uwide far = (uwide)gap.number << gap.exponent;
    if (far > (uwide)1 << 57) return 0;
    wide sum = -(wide)(far * far);
    for (int j = 0; j < stream_count; j++) {
        if (!is_measured(j)) continue;
        wide b = adjustment_of(j) / (deviation_root[j] + 1);
        if (b > cap) b = cap;
        sum += b * b;
    }
    return sum < 0 ? 0 : (1000 * sum) >> 40;
}

/* those of the flows are at most this many, or -1 if a flow is too far from its value */
static wide high_end(void)
{
    wide sum = 0;
    for (int j = 0; j < stream_count; j++) {
        if (!is_measured(j)) continue;
        wide b = (adjustment_of(j) + deviation_root[j] - 1) / deviation_root[j];
        if (b > (wide)1 << 52) return -1;
        sum += b * b;
    }
    return ceil_shift(1000 * sum, 40);
}

/* ---- the report */
static void write_stream(int j, Gap gap)
{
    static Part parts[MOST_STREAMS];
    const Stream *s = &streams[j];
    Class class = class_of(j);
    int count = 0, k = group[s->from];
    printf("stream,%s,%s,%s,", s->name, nodes[s->from], nodes[s->to]);
    if (is_measured(j)) { print_wide(s->value); putchar(','); print_wide(s->variance); } else putchar(',');
    printf(",%s,", class_words[class]);
    print_wide(flow[j]);
    putchar(',');
    switch (class) {
    case REDUNDANT:
        write_measured_bounds(j, gap);
        write_text("cut,");
        write_side(k, 1);
        putchar(',');
        write_border(k);
        break;
    case OBSERVABLE:
        make_side(j);
        count = make_boundary(parts);
        write_observable_bounds(j, gap, parts, count);
        write_text("cut,");
        write_side(k, 0);
        putchar(',');
        write_parts(parts, count);
        break;
    case NONREDUNDANT:
        write_measured_bounds(j, gap);
        write_text("cycle,,");
        count = cycle_of(j, parts);
        write_parts(parts, count);
        break;
    case UNOBSERVABLE:
        write_text(",,,,cycle,,");
        count = cycle_of(chord_of[j], parts);
        write_parts(parts, count);
        break;
    }
    putchar('\n');
}

static void write_solved(int sweeps, Gap gap)
{
    int freedom = 0;
    wide high = high_end();
    for (int j = 0; j < stream_count; j++) freedom += held[j] && is_measured(j);
    printf("solved,%d,%s,", sweeps, met ? "converged" : "unconverged");
    print_wide(gap.number);
    printf(",%d,%d,", gap.exponent, freedom);
    print_wide(low_end(gap));
    putchar(',');
    if (high >= 0) print_wide(high);
    putchar('\n');
}

static void write_report(int sweeps)
{
    make_tables();
    for (int j = 0; j < stream_count; j++) deviations[j] = deviation_of(j);
    Gap gap = gap_of(deviations);
    printf("report,%s,0,%d,%d,%d,%d\n", period, node_count, stream_count, MOST_GAP, most_sweeps);
    for (int n = 0; n < node_count; n++) {
        printf("node,%s,", nodes[n]);
        print_wide(price[group[n]]);
        putchar('\n');
    }
    for (int j = 0; j < stream_count; j++) write_stream(j, gap);
    write_solved(sweeps, gap);
    printf("end,%s,0\n", period);
}

int main(int count, char **words)
{
    static char line[4096];
    int report = 0, tests = 0, cuts = 0;
    for (int i = 1; i < count; i++) {
        report |= !strcmp(words[i], "report");
        tests |= !strcmp(words[i], "tests");
        cuts |= !strcmp(words[i], "cuts");
        if (!strcmp(words[i], "sweeps") && i + 1 < count) most_sweeps = atoi(words[++i]);
    }
    strcpy(nodes[0], "env");
    put(node_slots, nodes[0], 0);
    while (fgets(line, sizeof line, stdin)) { line[strcspn(line, "\n")] = 0; read_row(line); }
    if (!asked) return 0;
    add_readings();
    int sweeps = solve();
    if (report) write_report(sweeps);
    else write_flow_rows(cuts);
    if (tests) solve_without_each();
    return 0;
}
