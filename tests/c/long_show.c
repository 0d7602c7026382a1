/* A show of an hour in EVT3, without a header and behind one: cut at every byte, between the two time words of a loop too, resumed by the writer that
 * `prophesee_resume_words` or `prophesee_resume_raw` gives for what is left, and read back whole, by number and by time. Then the event that costs the
 * most time words. Prints what was counted; a difference ends it with status 1. */
#include "prophesee_raw.h"
#include <stdio.h>
#include <stdlib.h>
#include <string.h>

enum { LOOPS = 215, MOST = 4096, BYTES = 65536, RECORDS = 2048, SPACING = 64, PART = 6 };

#define HOUR INT64_C(3600000000)
#define LOOP INT64_C(16777216)

static uint16_t x[MOST], y[MOST], xs[MOST], ys[MOST];
static int64_t t[MOST], ts[MOST];
static uint8_t p[MOST], ps[MOST];
static uint8_t stream[BYTES], joined[BYTES];
static prophesee_record records[RECORDS];
static size_t events, cuts, between;

static void fail(const char *what, size_t cut)
{
    printf("%s differs at cut %zu\n", what, cut);
    exit(1);
}

static void add(int64_t time, uint16_t column, uint16_t row, uint8_t polarity)
{
    if (time < HOUR) {
        x[events] = column, y[events] = row, t[events] = time, p[events] = polarity;
        events++;
    }
}

/* Flashes at both ends of each loop and within it: single ones, a run that becomes a vector, and the times at which type 6 isn't due. */
static void make_show(void)
{
    static const int64_t at[] = {0, 1, 4096, 5000000, LOOP - 4097, LOOP - 4096, LOOP - 1};
    for (int k = 0; k < LOOPS; k++) {
        if (k % 7 == 3)
            continue; /* two loops at once */
        for (size_t i = 0; i < sizeof at / sizeof *at; i++) {
            if ((k + i) % 3 == 0)
                continue; /* so that FFF is held before some loops and not before others, and 000 isn't wanted after some */
            add(k * LOOP + at[i], (uint16_t)(k + i), (uint16_t)(k % 5), k & 1);
            for (uint16_t j = 1; i == 3 && j < 6; j++)
                add(k * LOOP + at[i], (uint16_t)(k + i + j * 3), (uint16_t)(k % 5), k & 1);
        }
    }
}

/* Appends the events from `from` on to `bytes` at `at`, 50 at a time; returns how many bytes there are then. */
static size_t append(prophesee_sink sink, size_t from, uint8_t *bytes, size_t at, size_t most)
{
    while (from < events) {
        size_t n = events - from < 50 ? events - from : 50;
        prophesee_appended a = prophesee_append(sink, 2048, 2048, x + from, n, y + from, n, t + from, n, p + from, n, bytes + at, most - at);
        if (a.refusal)
            fail("append", at);
        at += a.written;
        sink = a.sink;
        from += n;
    }
    return at;
}

static void same(const char *what, size_t cut, size_t count, size_t from, size_t n)
{
    if (count != n || memcmp(xs, x + from, n * sizeof *x) || memcmp(ys, y + from, n * sizeof *y) || memcmp(ts, t + from, n * sizeof *t) ||
        memcmp(ps, p + from, n))
        fail(what, cut);
}

static void check_read(const char *what, size_t cut, const uint8_t *bytes, size_t len, int header, size_t n)
{
    prophesee_options none = {0};
    prophesee_reading r = header ? prophesee_read_raw(bytes, len, none, xs, MOST, ys, MOST, ts, MOST, ps, MOST)
                                 : prophesee_decode_words(bytes, len, PROPHESEE_EVT3, none, xs, MOST, ys, MOST, ts, MOST, ps, MOST);
    if (r.refusal && (r.refusal != 1 || n)) /* 1: without a header there is no size where no event is whole */
        fail(what, cut);
    same(what, cut, r.count, 0, n);
}

/* The events around number `at`, by number and by time. */
static void check_slices(size_t cut, const uint8_t *bytes, size_t len, int header, size_t at)
{
    prophesee_open_options options = {.spacing = SPACING};
    prophesee_opening o = header ? prophesee_open(bytes, len, records, RECORDS, options)
                                 : prophesee_open_words(bytes, len, PROPHESEE_EVT3, records, RECORDS, options);
    size_t from = at < PART ? 0 : at - PART, to = at + PART < events ? at + PART : events;
    if (o.refusal || o.source.n_events != events)
        fail("index", cut);
    prophesee_slice s = prophesee_slice_index(bytes, len, o.source, records, RECORDS, from, to, xs, MOST, ys, MOST, ts, MOST, ps, MOST);
    if (s.refusal)
        fail("slice by number", cut);
    same("slice by number", cut, s.count, from, to - from);
    while (from && t[from - 1] == t[from])
        from--;
    while (to < events && t[to] == t[to - 1])
        to++;
    s = prophesee_slice_time(bytes, len, o.source, records, RECORDS, t[from], t[to - 1] + 1, xs, MOST, ys, MOST, ts, MOST, ps, MOST);
    if (s.refusal)
        fail("slice by time", cut);
    same("slice by time", cut, s.count, from, to - from);
}

static unsigned word(size_t at)
{
    return stream[at] | stream[at + 1] << 8;
}

static size_t events_of(unsigned w)
{
    return w >> 12 == 2 ? 1 : w >> 12 == 4 ? (size_t)__builtin_popcount(w & 4095) : 0;
}

static void check_show(int header)
{
    size_t len = append(prophesee_writer(PROPHESEE_EVT3, (uint8_t)header), 0, stream, 0, sizeof stream);
    size_t start = header ? prophesee_parse_header(stream, len, 0, 0, 0).data_offset : 0, whole = 0, loops = 0;
    for (size_t cut = start; cut <= len; cut++) {
        size_t kept = cut - (cut - start) % 2;
        if (kept == cut && cut > start) {
            whole += events_of(word(cut - 2));
            loops += cut > start + 2 && word(cut - 2) == 0x8000;
            between += word(cut - 2) == 0x8fff && cut < len && word(cut) == 0x8000;
        }
        prophesee_resumed r = header ? prophesee_resume_raw(stream, cut) : prophesee_resume_words(stream, cut, PROPHESEE_EVT3);
        if (r.refusal)
            fail("resume", cut);
        memcpy(joined, stream, kept);
        size_t end = append(r.sink, whole, joined, kept, sizeof joined);
        check_read("what is left", cut, stream, cut, header, whole);
        check_read("joined", cut, joined, end, header, events);
        check_slices(cut, joined, end, header, whole);
        cuts++;
    }
    printf("%s: %zu events, %zu bytes, %zu loops passed\n", header ? "behind a header" : "words", events, len, loops);
}

/* One event just before 2^34: the loops cost 2 words each, and 11 tells the bytes exactly. */
static void check_dearest(void)
{
    const uint16_t column = 5, row = 7;
    const int64_t last = (INT64_C(1) << 34) - 1;
    const uint8_t one = 1;
    prophesee_sink s = prophesee_writer(PROPHESEE_EVT3, 0);
    memset(joined, 0xcc, sizeof joined);
    prophesee_appended a = prophesee_append(s, 1, 1, &column, 1, &row, 1, &last, 1, &one, 1, joined, 3);
    size_t need = a.told;
    prophesee_appended b = prophesee_append(s, 1, 1, &column, 1, &row, 1, &last, 1, &one, 1, joined, need - 1);
    for (size_t i = 0; i < sizeof joined; i++)
        if (joined[i] != 0xcc)
            fail("a refused output", i);
    prophesee_appended c = prophesee_append(s, 1, 1, &column, 1, &row, 1, &last, 1, &one, 1, joined, need);
    printf("2^34 - 1: %u needs %zu bytes, one less gets %u, as many %u and %zu written\n", a.refusal, need, b.refusal, c.refusal, c.written);
    if (joined[need] != 0xcc || need > prophesee_most_bytes(1))
        fail("what stands behind", need);
}

int main(void)
{
    make_show();
    check_show(0);
    check_show(1);
    printf("%zu cuts, %zu of them between FFF and 000: exact\n", cuts, between);
    check_dearest();
    return 0;
}
