// Times the copying and the in-place form, HDF5's H5Tconvert where it is there (-DWITH_HDF5), numpy where a driver lends it, and plain C loops, on the same bytes and round
// by round in one process; the report beside the in-place form, and the comparison of a log and its conversion beside the copying form, likewise. Times are the thread's
// processor time. Where a peer follows the same rules, a byte that differs from ours ends the run with status 1.
#include "bench.h"
#include <stdio.h>
#include <stdlib.h>
#include <string.h>
#include <time.h>

enum { ROUNDS = 15, ROUNDS_MOST = 101, ROUNDS_BEFORE = 2, WIDE = 100 };

// ---- what is timed: so many calls of so many records, one call behind the other

typedef struct {
    const Workload *w;
    Numpy numpy;
    size_t records, calls, s, d, most;  // bytes of a record: of the source, of the destination, of the longer one
    uint8_t *source, *background, *work, *h5_background;
    uint8_t *expected;  // what the copying form left in the first round
    size_t raised;      // how many leaves raised in it
    int rounds_done;
    uint32_t *table;
} Run;

static double now_ns(void) {
    struct timespec t;
    clock_gettime(CLOCK_THREAD_CPUTIME_ID, &t);
    return 1e9 * (double)t.tv_sec + (double)t.tv_nsec;
}

static int by_size(const void *a, const void *b) {
    double x = *(const double *)a, y = *(const double *)b;
    return (x > y) - (x < y);
}

static double median(double *times, int n) {
    qsort(times, (size_t)n, sizeof *times, by_size);
    return times[n / 2];
}

static void fail(const Workload *w, const char *what) {
    fflush(stdout);
    fprintf(stderr, "%s: %s\n", w->name, what);
    exit(1);
}

static uint8_t *room(size_t bytes) {
    uint8_t *p = malloc(bytes ? bytes : 1);
    if (!p) {
        fprintf(stderr, "no memory\n");
        exit(1);
    }
    memset(p, 0, bytes);
    return p;
}

static Run make_run(const Workload *w, Numpy numpy, size_t records, size_t calls) {
    size_t s = (size_t)w->source.size, d = (size_t)w->destination.size, most = s > d ? s : d, n = records * calls;
    Run r = {w, numpy, records, calls, s, d, most, room(n * s), room(n * d), room(n * most), room(n * d), room(n * d), 0, 0, (uint32_t *)room(4 * YIRVAGUL_TABLE_WORDS)};
    w->fill(w, r.source, n * s);
    random_bytes(r.background, n * d);
    return r;
}

static void free_run(Run *r) { free(r->source), free(r->background), free(r->work), free(r->h5_background), free(r->expected), free(r->table); }

// Before each call, outside its time: what it converts where it lies, or what it writes over.

static void lay_source(Run *r) {
    for (size_t i = 0; i < r->calls; i++)
        memcpy(r->work + i * r->records * r->most, r->source + i * r->records * r->s, r->records * r->s);
}

static void lay_background(Run *r) { memcpy(r->work, r->background, r->calls * r->records * r->d); }

// After it: that the converted bytes, a call's at each `step` bytes, are those of the copying form.
static void check(const Run *r, size_t step, const char *what) {
    size_t len = r->records * r->d;
    for (size_t i = 0; i < r->calls; i++)
        if (memcmp(r->work + i * step, r->expected + i * len, len))
            fail(r->w, what);
}

static void check_tail(const Run *r, const char *what) {
    for (size_t i = 0; r->s > r->d && i < r->calls; i++)
        for (size_t at = r->records * r->d; at < r->records * r->s; at++)
            if (r->work[i * r->records * r->most + at])
                fail(r->w, what);
}

static void check_raised(const Run *r, size_t raised, const char *what) {
    if (raised != r->raised)
        fail(r->w, what);
}

// ---- the peers: each gives the time of all calls in ns, 0 where it is not there

static double copying(Run *r) {
    uint64_t answer[8];
    const Side *s = &r->w->source, *d = &r->w->destination;
    size_t from = strlen(s->sheet), to = strlen(d->sheet), n = r->records, raised = 0;
    lay_background(r);
    double t = now_ns();
    for (size_t i = 0; i < r->calls; i++) {
        if (yirvagul_convert_copying((const uint8_t *)s->sheet, from, (const uint8_t *)d->sheet, to, n, (uint32_t)r->w->handling, r->source + i * n * r->s, n * r->s,
                                     r->work + i * n * r->d, n * r->d, r->table, YIRVAGUL_TABLE_WORDS, answer))
            fail(r->w, "the copying form refused");
        raised += answer[YIRVAGUL_ANSWER_COUNT];
    }
    t = now_ns() - t;
    if (r->rounds_done++ == 0) {
        memcpy(r->expected, r->work, r->calls * n * r->d);
        r->raised = raised;
    }
    check(r, n * r->d, "the copying form's bytes differ");
    check_raised(r, raised, "the copying form's count differs");
    return t;
}

static double in_place(Run *r) {
    uint64_t answer[8];
    const Side *s = &r->w->source, *d = &r->w->destination;
    size_t from = strlen(s->sheet), to = strlen(d->sheet), n = r->records, raised = 0;
    lay_source(r);
    double t = now_ns();
    for (size_t i = 0; i < r->calls; i++) {
        if (yirvagul_convert_in_place((const uint8_t *)s->sheet, from, (const uint8_t *)d->sheet, to, n, (uint32_t)r->w->handling, r->work + i * n * r->most, n * r->most,
                                      r->background + i * n * r->d, n * r->d, r->table, YIRVAGUL_TABLE_WORDS, answer))
            fail(r->w, "the in-place form refused");
        raised += answer[YIRVAGUL_ANSWER_COUNT];
    }
    t = now_ns() - t;
    check(r, n * r->most, "the two forms differ");
    check_tail(r, "the in-place form leaves bytes of the source");
    check_raised(r, raised, "the two forms' counts differ");
    return t;
}

// H5Tconvert works in place over a background. Its datatypes are ready.
static double hdf5(Run *r) {
    double t = 0;
#ifdef WITH_HDF5
    size_t n = r->records;
    lay_source(r);
    memcpy(r->h5_background, r->background, r->calls * n * r->d);
    t = now_ns();
    for (size_t i = 0; i < r->calls; i++)
        if (H5Tconvert(r->w->source.h5, r->w->destination.h5, n, r->work + i * n * r->most, r->h5_background + i * n * r->d, H5P_DEFAULT) < 0)
            fail(r->w, "HDF5 refused");
    t = now_ns() - t;
    if (!r->w->other_bytes)
        check(r, n * r->most, "HDF5's bytes differ");
#else
    (void)r;
#endif
    return t;
}

// Numpy has no call that stops before it writes.
static double numpy(Run *r) {
    if (!r->numpy || r->w->handling)
        return 0;
    double t = r->numpy(r->w->source.sheet, r->w->destination.sheet, r->records, r->calls, r->source, r->background, r->work);
    if (t < 0)
        fail(r->w, "numpy failed");
    if (t > 0)
        check(r, r->records * r->d, "numpy's bytes differ");
    return t;
}

static double plain(Run *r) {
    size_t raised = 0;
    if (!r->w->plain)
        return 0;
    lay_background(r);
    double t = now_ns();
    for (size_t i = 0; i < r->calls; i++)
        raised += r->w->plain(r->source + i * r->records * r->s, r->work + i * r->records * r->d, r->records);
    t = now_ns() - t;
    check(r, r->records * r->d, "the C loop's bytes differ");
    check_raised(r, raised, "the C loop's count differs");
    return t;
}

static double plain_in_place(Run *r) {
    size_t raised = 0;
    if (!r->w->plain_in_place)
        return 0;
    lay_source(r);
    double t = now_ns();
    for (size_t i = 0; i < r->calls; i++)
        raised += r->w->plain_in_place(r->work + i * r->records * r->most, r->records);
    t = now_ns() - t;
    check(r, r->records * r->most, "the bytes of the C loop in place differ");
    check_tail(r, "the C loop in place leaves bytes of the source");
    check_raised(r, raised, "the count of the C loop in place differs");
    return t;
}

enum { COPYING, IN_PLACE, HDF5, NUMPY, C, C_IN_PLACE, PEERS };
static double (*const peers[PEERS])(Run *) = {copying, in_place, hdf5, numpy, plain, plain_in_place};

// The medians of the rounds, for all calls. The rounds before them, which touch memory for the first time, do not count.
static void time_peers(Run *r, int rounds, double *medians) {
    static double times[PEERS][ROUNDS_MOST + ROUNDS_BEFORE];
    for (int i = rounds + ROUNDS_BEFORE - 1; i >= 0; i--)
        for (int p = 0; p < PEERS; p++)
            times[p][i] = peers[p](r);
    for (int p = 0; p < PEERS; p++)
        medians[p] = median(times[p], rounds);
}

// ---- tables

static void print_cell(double x) {
    if (x > 0)
        printf(x < 9.995 ? " %.2f |" : x < 99.95 ? " %.1f |" : " %.0f |", x);
    else
        printf(" |");
}

static double ratio(double a, double b) { return a > 0 && b > 0 ? a / b : 0; }

// What a row is told of its targets.
typedef struct {
    char missed[128];
    int targets, timed;
} Verdict;

static void judge(Verdict *v, const char *what, double target, double is, int met) {
    if (target <= 0)
        return;
    v->targets++;
    if (is <= 0)
        return;
    v->timed++;
    if (!met)
        strcat(strcat(v->missed, *v->missed ? ", " : " NOT MET: "), what);
}

static void print_verdict(const Verdict *v) {
    if (*v->missed)
        printf("%s |", v->missed);
    else if (v->timed)
        printf(v->timed < v->targets ? " met, as far as timed |" : " met |");
    else
        printf(" |");
}

static void print_targets(const Targets *t) {
    const char *comma = " ";
    if (t->hdf5 > 0) {
        printf(" HDF5 %.3g", t->hdf5);
        if (t->hdf5_in_place != t->hdf5)
            printf(" (in place %.3g)", t->hdf5_in_place);
        comma = ", ";
    }
    if (t->numpy > 0) {
        printf("%snumpy %.3g", comma, t->numpy);
        comma = ", ";
    }
    if (t->c > 0)
        printf("%sC %.3g", comma, t->c);
    printf(" |");
}

static void time_conversion(const Workload *w, Numpy lent, int rounds) {
    double m[PEERS];
    Run r = make_run(w, lent, RECORDS, 1);
    time_peers(&r, rounds, m);
    const Targets *t = &w->targets;
    double hc = ratio(m[HDF5], m[COPYING]), hp = ratio(m[HDF5], m[IN_PLACE]), nc = ratio(m[NUMPY], m[COPYING]), np = ratio(m[NUMPY], m[IN_PLACE]);
    double cc = ratio(m[COPYING], m[C]), cp = ratio(m[IN_PLACE], m[C_IN_PLACE]);
    Verdict v = {"", 0, 0};
    judge(&v, "HDF5 / copying", t->hdf5, hc, hc >= t->hdf5);
    judge(&v, "HDF5 / in place", t->hdf5_in_place, hp, hp >= t->hdf5_in_place);
    judge(&v, "numpy / copying", t->numpy, nc, nc >= t->numpy);
    judge(&v, "numpy / in place", t->numpy, np, np >= t->numpy);
    judge(&v, "copying / C", t->c, cc, cc <= t->c);
    judge(&v, "in place / C", w->plain_in_place ? t->c : 0, cp, cp <= t->c);
    printf("| %s | %d |", w->name, w->leaves);
    for (int p = 0; p < PEERS; p++)
        print_cell(m[p] / RECORDS);
    print_cell(hc), print_cell(hp), print_cell(nc), print_cell(np), print_cell(cc), print_cell(cp);
    print_targets(t);
    print_verdict(&v);
    printf(" %s |\n", w->other_bytes ? w->other_bytes : "");
    fflush(stdout);
    free_run(&r);
}

static void time_small_calls(const Workload *w, Numpy lent, int rounds) {
    static const size_t sizes[][2] = {{1, 512}, {16, 128}, {256, 16}};
    for (size_t i = 0; i < sizeof sizes / sizeof *sizes; i++) {
        double m[PEERS];
        Run r = make_run(w, lent, sizes[i][0], sizes[i][1]);
        time_peers(&r, rounds, m);
        printf("| %s | %zu |", w->name, r.records);
        for (int p = 0; p <= NUMPY; p++)
            print_cell(m[p] / 1000 / (double)r.calls);
        print_cell(ratio(m[HDF5], m[COPYING])), print_cell(ratio(m[HDF5], m[IN_PLACE])), print_cell(ratio(m[NUMPY], m[COPYING]));
        printf("\n");
        fflush(stdout);
        free_run(&r);
    }
}

// ---- the slowest legal calls: in seconds, of one call each

enum { SLOWEST_MOST = 3, SLOWEST_TRIED = 512, SLOWEST_FEW = 8, SLOWEST_TRIES = 5, SLOWEST_PATIENCE = 30 };

static void put_number(uint8_t *at, int number) {
    at[0] = (uint8_t)number;
    at[1] = (uint8_t)(number >> 8);
}

static void check_slowest(const Workload *w, size_t n, uint32_t got, const uint64_t *answer, const uint8_t *converted, const uint8_t *before) {
    size_t len = n * SLOWEST_LEAVES * 2;
    if (w->handling) {
        if (got != YIRVAGUL_STOP || answer[YIRVAGUL_ANSWER_RECORD] != n - 1 || answer[YIRVAGUL_ANSWER_AT] != 2 * SLOWEST_LEAVES - 2 ||
            answer[YIRVAGUL_ANSWER_KIND] != YIRVAGUL_NO_SYMBOL || answer[YIRVAGUL_ANSWER_MAGNITUDE] != SLOWEST_NONE)
            fail(w, "stopped elsewhere, or not at all");
        if (memcmp(converted, before, len))
            fail(w, "stopped and wrote");
    } else {
        if (got != YIRVAGUL_DONE || answer[YIRVAGUL_ANSWER_COUNT] != n * SLOWEST_LEAVES)
            fail(w, "has another count");
        for (size_t i = 0; i < len; i++)
            if (converted[i] != 255)
                fail(w, "has other bytes");
    }
}

// n records of this number, whose last leaf has no symbol.
static double slowest_call(const Workload *w, size_t n, int number, int place) {
    uint64_t answer[8];
    uint32_t got;
    size_t len = n * SLOWEST_LEAVES * 2, from = strlen(w->source.sheet), to = strlen(w->destination.sheet);
    const uint8_t *s = (const uint8_t *)w->source.sheet, *d = (const uint8_t *)w->destination.sheet;
    uint8_t *source = room(len), *work = room(len);
    uint32_t *table = (uint32_t *)room(4 * YIRVAGUL_TABLE_WORDS);
    for (size_t i = 0; i < len; i += 2)
        put_number(source + i, i < len - 2 ? number : SLOWEST_NONE);
    memcpy(work, source, len);
    double t = now_ns();
    if (place)
        got = yirvagul_convert_in_place(s, from, d, to, n, (uint32_t)w->handling, work, len, source, len, table, YIRVAGUL_TABLE_WORDS, answer);
    else
        got = yirvagul_convert_copying(s, from, d, to, n, (uint32_t)w->handling, source, len, work, len, table, YIRVAGUL_TABLE_WORDS, answer);
    t = now_ns() - t;
    check_slowest(w, n, got, answer, work, source);
    free(source), free(work), free(table);
    return t / 1e9;
}

// The number whose symbol is found last. Which one that is, the least of some tries of each shows.
static int found_last(const Workload *w) {
    double least[SLOWEST_SYMBOLS];
    int last = 0;
    for (int i = 0; i < SLOWEST_TRIES; i++)
        for (int k = 0; k < SLOWEST_SYMBOLS; k++) {
            double t = slowest_call(w, SLOWEST_FEW, SLOWEST_STEP * k, 0);
            if (i == 0 || t < least[k])
                least[k] = t;
        }
    for (int k = 1; k < SLOWEST_SYMBOLS; k++)
        if (least[k] > least[last])
            last = k;
    return SLOWEST_STEP * last;
}

// Where a few records show that it would take far too long, its time is worked out from theirs.
static void time_slowest(const Workload *w) {
    int met = 1, number = w->handling ? found_last(w) : SLOWEST_NONE;
    printf("| %s | %d |", w->name, number);
    for (int place = 0; place < 2; place++) {
        double about = slowest_call(w, SLOWEST_TRIED, number, place) * RECORDS / SLOWEST_TRIED, t = about;
        if (about > SLOWEST_PATIENCE)
            printf(" about %.0f, from %d records |", about, SLOWEST_TRIED);
        else
            printf(" %.2f |", t = slowest_call(w, RECORDS, number, place));
        met = met && t < SLOWEST_MOST;
    }
    printf(" %d |%s |\n", SLOWEST_MOST, met ? " met" : " NOT MET");
    fflush(stdout);
}

// ---- the report

// Over a report of no records, in ns.
static double report(Run *r) {
    static int64_t memory[YIRVAGUL_REPORT_WORDS];
    static uint8_t output[YIRVAGUL_REPORT_BYTES];
    uint64_t answer[8];
    const Side *s = &r->w->source, *d = &r->w->destination;
    size_t from = strlen(s->sheet), to = strlen(d->sheet), n = r->records;
    memset(memory, 0, sizeof memory);
    lay_source(r);
    double t = now_ns();
    if (yirvagul_report((const uint8_t *)s->sheet, from, (const uint8_t *)d->sheet, to, n, r->work, n * r->most, r->background, n * r->d, memory, YIRVAGUL_REPORT_WORDS, output, sizeof output,
                        r->table, YIRVAGUL_TABLE_WORDS, answer))
        fail(r->w, "the report refused");
    t = now_ns() - t;
    if (memory[YIRVAGUL_REPORT_WORDS - 1] || memory[YIRVAGUL_REPORT_LEAVES + YIRVAGUL_REPORT_LEAF_WORDS * r->w->leaves - 1] != (int64_t)n)
        fail(r->w, "the report has other samples than records");
    check(r, n * r->most, "the report's log differs");
    return t;
}

static void print_pair(const Workload *w, double conversion, double all) {
    double a = conversion / RECORDS, b = all / RECORDS, most = w->targets.c;
    printf("| %s | %.1f | %.2f | %.1f | %.2f | %.2f |", w->name, a, a / w->leaves, b, b / w->leaves, b / a);
    if (most > 0)
        printf(" %.3g | %s |\n", most, b / a <= most ? "met" : "NOT MET");
    else
        printf(" | |\n");
    fflush(stdout);
}

static void time_report(const Workload *w, int rounds) {
    static double p[ROUNDS_MOST], all[ROUNDS_MOST];
    Run r = make_run(w, NULL, RECORDS, 1);
    copying(&r);
    for (int i = 0; i < rounds; i++) {
        p[i] = in_place(&r);
        all[i] = report(&r);
    }
    print_pair(w, median(p, rounds), median(all, rounds));
    free_run(&r);
}

// ---- the comparison

// What becomes of a converted record before it is compared; each gives how many of its numbers are others then.

static size_t nothing(size_t record, uint8_t *bytes) {
    (void)record;
    (void)bytes;
    return 0;
}

static size_t first_byte(size_t record, uint8_t *bytes) {
    (void)record;
    bytes[0] ^= 1;
    return 1;
}

static size_t first_of_100(size_t record, uint8_t *bytes) { return record % 100 ? 0 : first_byte(record, bytes); }

// Of 8 members of 12 bits above 4, in 2 bytes with the lowest first.
static size_t pads(size_t record, uint8_t *bytes) {
    (void)record;
    for (int i = 0; i < 8; i++)
        bytes[2 * i] = (uint8_t)(bytes[2 * i] ^ (random_bits() & 15));
    return 0;
}

// The source's records with those of `second`, which have so many differences.
static double compare(const Run *r, const uint8_t *second, size_t differences) {
    static uint8_t list[YIRVAGUL_COMPARE_HEADER_BYTES + RECORDS * YIRVAGUL_COMPARE_LINE_BYTES];
    uint64_t answer[8];
    const Side *s = &r->w->source, *d = &r->w->destination;
    size_t from = strlen(s->sheet), to = strlen(d->sheet), n = r->records, lines = 0;
    double t = now_ns();
    if (yirvagul_compare((const uint8_t *)s->sheet, from, (const uint8_t *)d->sheet, to, n, r->source, n * r->s, second, n * r->d, list, sizeof list, r->table, YIRVAGUL_TABLE_WORDS, answer))
        fail(r->w, "the comparison refused");
    t = now_ns() - t;
    for (size_t i = 0; i < answer[YIRVAGUL_ANSWER_COUNT]; i++)
        lines += list[i] == '\n';
    if (lines != 1 + differences)
        fail(r->w, "the list has another number of differences");
    return t;
}

static void time_compare(const Workload *w, int rounds, size_t (*change)(size_t, uint8_t *)) {
    static double c[ROUNDS_MOST], all[ROUNDS_MOST];
    size_t differences = 0;
    Run r = make_run(w, NULL, RECORDS, 1);
    copying(&r);
    uint8_t *second = room(RECORDS * r.d);
    memcpy(second, r.expected, RECORDS * r.d);
    for (size_t i = 0; i < RECORDS; i++)
        differences += change(i, second + i * r.d);
    for (int i = 0; i < rounds; i++) {
        c[i] = copying(&r);
        all[i] = compare(&r, second, differences);
    }
    print_pair(w, median(c, rounds), median(all, rounds));
    free(second);
    free_run(&r);
}

// ---- all of it

static void print_head(const char *const *columns) {
    static int tables;
    int n = 0;
    if (tables++)
        printf("\n");
    for (; columns[n]; n++)
        printf("| %s ", columns[n]);
    printf("|\n");
    for (int i = 0; i < n; i++)
        printf("|---");
    printf("|\n");
    fflush(stdout);
}

// Fewer rounds where a record has many leaves.
static int rounds_of(const Workload *w, int rounds) { return w->leaves > WIDE ? (rounds + 2) / 3 : rounds; }

static void conversion_table(int rounds, const char *part, Numpy lent) {
    static const char *const columns[] = {"workload, ns a record", "leaves", "copying", "in place", "HDF5", "numpy", "C copying", "C in place",
                                          "HDF5 / copying", "HDF5 / in place", "numpy / copying", "numpy / in place", "copying / C", "in place / C",
                                          "targets", "met", "not compared", NULL};
    print_head(columns);
    for (size_t i = 0; i < conversions_count; i++)
        if (strstr(conversions[i].name, part))
            time_conversion(&conversions[i], lent, rounds_of(&conversions[i], rounds));
}

static void small_table(int rounds, const char *part, Numpy lent) {
    static const char *const columns[] = {"workload, µs a call", "records", "copying", "in place", "HDF5, datatypes ready", "numpy",
                                          "HDF5 / copying", "HDF5 / in place", "numpy / copying", NULL};
    print_head(columns);
    for (size_t i = 0; i < small_calls_count; i++)
        for (size_t j = 0; j < conversions_count; j++)
            if (!strcmp(conversions[j].name, small_calls[i]) && strstr(conversions[j].name, part))
                time_small_calls(&conversions[j], lent, rounds_of(&conversions[j], rounds));
}

static void slowest_table(const char *part) {
    static const char *const columns[] = {"workload, seconds", "number", "copying", "in place", "at most", "met", NULL};
    static Workload slowest[] = {{"slowest legal call, handling 0", SLOWEST_LEAVES, make_slowest, .handling = 0},
                                 {"slowest legal call, handling 1", SLOWEST_LEAVES, make_slowest, .handling = 1}};
    print_head(columns);
    for (size_t i = 0; i < sizeof slowest / sizeof *slowest; i++)
        if (strstr(slowest[i].name, part)) {
            slowest[i].make(&slowest[i]);
            time_slowest(&slowest[i]);
        }
}

static void report_table(int rounds, const char *part) {
    static const char *const columns[] = {"workload", "in place ns/record", "ns/leaf", "report ns/record", "ns/leaf", "report / in place", "at most", "met", NULL};
    print_head(columns);
    for (size_t i = 0; i < reports_count; i++)
        if (strstr(reports[i].name, part)) {
            reports[i].make(&reports[i]);
            time_report(&reports[i], rounds);
        }
}

static void compare_table(int rounds, const char *part) {
    static const char *const columns[] = {"workload", "copying ns/record", "ns/leaf", "compare ns/record", "ns/leaf", "compare / copying", "at most", "met", NULL};
    static size_t (*const change[])(size_t, uint8_t *) = {nothing, nothing, nothing, nothing, first_of_100, first_byte, pads};
    print_head(columns);
    for (size_t i = 0; i < compares_count; i++)
        if (strstr(compares[i].name, part)) {
            compares[i].make(&compares[i]);
            time_compare(&compares[i], rounds, change[i]);
        }
}

int bench(int rounds, const char *part, Numpy lent) {
    if (rounds < 1 || rounds > ROUNDS_MOST)
        rounds = ROUNDS;
    make_plain_tables();
    for (size_t i = 0; i < conversions_count; i++)
        conversions[i].make(&conversions[i]);
    conversion_table(rounds, part, lent);
    small_table(rounds, part, lent);
    slowest_table(part);
    report_table(rounds, part);
    compare_table(rounds, part);
    return 0;
}

int main(int argc, char **argv) { return bench(argc > 1 ? atoi(argv[1]) : ROUNDS, argc > 2 ? argv[2] : "", NULL); }
