/* Calls every function of include/prophesee_raw.h and prints what it returns; tools/c_interface.sh
 * compares that with calls.out. */
#define _DEFAULT_SOURCE
#include "prophesee_raw.h"

#include <stdio.h>
#include <string.h>
#include <sys/mman.h>

#define ROOM 8
#define LONGEST 1073741824u
#define COLUMNS xs, ROOM, ys, ROOM, ts, ROOM, ps, ROOM
#define NO_COLUMNS NULL, 0, NULL, 0, NULL, 0, NULL, 0
#define TRIGGERS times, ROOM, ids, ROOM, values, ROOM
#define NO_TRIGGERS NULL, 0, NULL, 0, NULL, 0

static uint16_t xs[ROOM], ys[ROOM];
static int64_t ts[ROOM], times[ROOM];
static uint8_t ps[ROOM], ids[ROOM], values[ROOM];

static void clear(void)
{
    memset(xs, 0xee, sizeof xs);
    memset(ys, 0xee, sizeof ys);
    memset(ts, 0xee, sizeof ts);
    memset(ps, 0xee, sizeof ps);
    memset(times, 0xee, sizeof times);
    memset(ids, 0xee, sizeof ids);
    memset(values, 0xee, sizeof values);
}

/* Whether all bytes of a buffer from one on are as `clear` left them. */
static int untouched(const void *buffer, size_t from, size_t end)
{
    const uint8_t *bytes = buffer;
    for (size_t i = from; i < end; i++)
        if (bytes[i] != 0xee)
            return 0;
    return 1;
}

static const char *column(const void *buffer, size_t count, size_t size)
{
    return untouched(buffer, count * size, ROOM * size) ? "untouched" : "altered";
}

/* The events, and what stands behind them in each column. */
static void print_events(size_t count)
{
    for (size_t i = 0; i < count; i++)
        printf("  %lld %u %u %u\n", (long long)ts[i], xs[i], ys[i], ps[i]);
    printf("  behind: x %s, y %s, t %s, p %s\n", column(xs, count, sizeof *xs), column(ys, count, sizeof *ys), column(ts, count, sizeof *ts),
           column(ps, count, sizeof *ps));
    clear();
}

/* ---- numbers */

static void read_number(const char *what, const char *text, size_t len)
{
    prophesee_number n = prophesee_read_number((const uint8_t *)text, len);
    printf("read_number, %s: valid %u value %zu place %zu\n", what, n.valid, n.value, n.place);
}

#define NUMBER(text) read_number(#text, text, sizeof text - 1)

static void numbers(void)
{
    static char zeros[100000];
    memset(zeros, '0', sizeof zeros);
    read_number("nothing", NULL, 0);
    NUMBER("+");
    NUMBER("0");
    NUMBER("+007");
    NUMBER("12a");
    NUMBER("12a9x");
    NUMBER("++1");
    NUMBER("-1");
    NUMBER("1+");
    NUMBER(" 1");
    NUMBER("640 ");
    NUMBER("18446744073709551615");
    NUMBER("18446744073709551616");
    NUMBER("+18446744073709551616");
    NUMBER("184467440737095516150");
    NUMBER("99999999999999999999999999x");
    read_number("100000 zeros", zeros, sizeof zeros);
    zeros[99999] = 'x';
    read_number("99999 zeros and x", zeros, sizeof zeros);
    memcpy(zeros + 99979, "18446744073709551616x", 21);
    read_number("99979 zeros and 2^64", zeros, sizeof zeros);
}

/* ---- headers and reading */

/* 4097: columns 10, 11 and 13 of row 7. */
static const uint8_t evt3[] = {0x01, 0x80, 0x01, 0x60, 0x07, 0x00, 0x0a, 0x30, 0x0b, 0x40};
/* 100: column 5 of row 7, polarity 1. */
static const uint8_t evt2[] = {0x01, 0x00, 0x00, 0x80, 0x07, 0x28, 0x00, 0x19};
static const char header[] = "% format EVT3\n% geometry 64x48\n";
static uint8_t recording[sizeof header - 1 + sizeof evt3];

static void print_header(const char *what, prophesee_header h)
{
    printf("%s: refusal %u encoding %u from %zu sized %u %zux%zu\n", what, h.refusal, h.encoding, h.data_offset, h.sized, h.width, h.height);
}

static void headers(void)
{
    const uint8_t plain[] = "% evt 2\n", wide[] = "% format EVT3 \x80\n", zero[] = "% evt 2\n% geometry 0x5\n";
    print_header("parse_header", prophesee_parse_header(recording, sizeof recording, 0, 0, 0));
    print_header("parse_header, 12x8", prophesee_parse_header(recording, sizeof recording, 255, 12, 8));
    print_header("parse_header, no size", prophesee_parse_header(plain, sizeof plain - 1, 0, 1, 1));
    print_header("parse_header, a byte 80", prophesee_parse_header(wide, sizeof wide - 1, 0, 0, 0));
    print_header("parse_header, 0x5", prophesee_parse_header(zero, sizeof zero - 1, 0, 0, 0));
    print_header("parse_header, 0x5, 12x8", prophesee_parse_header(zero, sizeof zero - 1, 1, 12, 8));
    print_header("parse_header, empty", prophesee_parse_header(NULL, 0, 0, 0, 0));
}

static void print_reading(const char *what, prophesee_reading r)
{
    printf("%s: refusal %u told %zu encoding %u size %zux%zu count %zu\n", what, r.refusal, r.told, r.encoding, r.width, r.height, r.count);
    print_events(r.count);
}

static void reading(void)
{
    const prophesee_options none = {0}, zero = {.sized = 1, .width = 0, .height = 5}, sized = {.sized = 1, .width = 12, .height = 48};
    const prophesee_options two = {.sized = 255, .limited = 1, .width = 12, .height = 48, .max_events = 2};

    print_reading("read_raw", prophesee_read_raw(recording, sizeof recording, none, COLUMNS));
    print_reading("read_raw, 12x48, at most 2", prophesee_read_raw(recording, sizeof recording, two, COLUMNS));
    print_reading("read_raw, a column of 2", prophesee_read_raw(recording, sizeof recording, none, xs, ROOM, ys, ROOM, ts, 2, ps, ROOM));
    print_reading("read_raw, nothing", prophesee_read_raw(NULL, 0, none, NO_COLUMNS));
    print_reading("decode_words, 2", prophesee_decode_words(evt2, sizeof evt2, PROPHESEE_EVT2, none, COLUMNS));
    print_reading("decode_words, 3", prophesee_decode_words(evt3, sizeof evt3, PROPHESEE_EVT3, none, COLUMNS));
    print_reading("decode_words, 3, cut at byte 9", prophesee_decode_words(evt3, 9, PROPHESEE_EVT3, none, COLUMNS));
    print_reading("decode_words, 3, 0x5", prophesee_decode_words(evt3, sizeof evt3, PROPHESEE_EVT3, zero, COLUMNS));
    print_reading("decode_words, 7", prophesee_decode_words(evt3, sizeof evt3, 7, none, COLUMNS));
    print_reading("decode_words, 7, 0x5", prophesee_decode_words(evt3, sizeof evt3, 7, zero, COLUMNS));
    print_reading("decode_words, 0, nothing", prophesee_decode_words(NULL, 0, 0, none, NO_COLUMNS));
    print_reading("decode_words, 3, no places", prophesee_decode_words(evt3, sizeof evt3, PROPHESEE_EVT3, none, NO_COLUMNS));
    print_reading("decode_words, 3, 12x48, nothing", prophesee_decode_words(NULL, 0, PROPHESEE_EVT3, sized, NO_COLUMNS));
}

/* ---- reading with triggers */

/* 4097: input 3 rises; columns 10, 11 and 13 of row 7. 4101: it falls; column 5; input 15 rises. */
static const uint8_t pulses3[] = {0x01, 0x80, 0x01, 0x60, 0x01, 0xa3, 0x07, 0x00, 0x0a, 0x30, 0x0b, 0x40, 0x05, 0x60, 0x00, 0xa3, 0x05, 0x28, 0x01, 0xaf};
/* A trigger before the first time word. 100: input 31 rises; column 5 of row 7. 64, by the trigger's own low bits: it falls. */
static const uint8_t pulses2[] = {0x01, 0x00, 0x00, 0xa9, 0x01, 0x00, 0x00, 0x80, 0x01, 0x1f, 0x00, 0xa9, 0x07, 0x28, 0x00, 0x19, 0x00, 0x1f, 0x00, 0xa0};
static uint8_t pulsed[sizeof header - 1 + sizeof pulses3];

static void print_trigger_reading(const char *what, prophesee_trigger_reading r)
{
    printf("%s: refusal %u told %zu encoding %u size %zux%zu count %zu triggers %zu\n", what, r.refusal, r.told, r.encoding, r.width, r.height, r.count,
           r.triggers);
    for (size_t i = 0; i < r.triggers; i++)
        printf("  trigger %lld %u %u\n", (long long)times[i], ids[i], values[i]);
    printf("  behind: trigger t %s, id %s, value %s\n", column(times, r.triggers, sizeof *times), column(ids, r.triggers, sizeof *ids),
           column(values, r.triggers, sizeof *values));
    print_events(r.count);
}

#define RAW_TRIGGERS(options, ...) prophesee_read_raw_triggers(pulsed, sizeof pulsed, options, __VA_ARGS__)
#define WORDS_TRIGGERS(words, encoding, options, ...) prophesee_decode_words_triggers(words, sizeof words, encoding, options, __VA_ARGS__)

static void triggers(void)
{
    const prophesee_options none = {0};
    const uint8_t wide[] = "% format EVT3 \x80\n";

    print_trigger_reading("read_raw_triggers", RAW_TRIGGERS(none, COLUMNS, TRIGGERS));
    print_trigger_reading("read_raw_triggers, just enough", RAW_TRIGGERS(none, xs, 4, ys, 4, ts, 4, ps, 4, times, 3, ids, 3, values, 3));
    print_trigger_reading("read_raw_triggers, 2 trigger times", RAW_TRIGGERS(none, COLUMNS, times, 2, ids, ROOM, values, ROOM));
    print_trigger_reading("read_raw_triggers, 2 trigger ids", RAW_TRIGGERS(none, COLUMNS, times, ROOM, ids, 2, values, ROOM));
    print_trigger_reading("read_raw_triggers, 2 trigger values", RAW_TRIGGERS(none, COLUMNS, times, ROOM, ids, ROOM, values, 2));
    print_trigger_reading("read_raw_triggers, no trigger places", RAW_TRIGGERS(none, COLUMNS, NO_TRIGGERS));
    print_trigger_reading("read_raw_triggers, 3 rows and 2 trigger ids",
                          RAW_TRIGGERS(none, xs, ROOM, ys, 3, ts, ROOM, ps, ROOM, times, ROOM, ids, 2, values, ROOM));
    print_trigger_reading("read_raw_triggers, no places", RAW_TRIGGERS(none, NO_COLUMNS, NO_TRIGGERS));
    print_trigger_reading("read_raw_triggers, no trigger and no trigger places",
                          prophesee_read_raw_triggers(recording, sizeof recording, none, COLUMNS, NO_TRIGGERS));
    print_trigger_reading("read_raw_triggers, a byte 80", prophesee_read_raw_triggers(wide, sizeof wide - 1, none, COLUMNS, TRIGGERS));
    print_trigger_reading("read_raw_triggers, nothing", prophesee_read_raw_triggers(NULL, 0, none, NO_COLUMNS, NO_TRIGGERS));
    print_trigger_reading("decode_words_triggers, 2", WORDS_TRIGGERS(pulses2, PROPHESEE_EVT2, none, COLUMNS, TRIGGERS));
    print_trigger_reading("decode_words_triggers, 3", WORDS_TRIGGERS(pulses3, PROPHESEE_EVT3, none, COLUMNS, TRIGGERS));
    print_trigger_reading("decode_words_triggers, 3, cut at byte 19", prophesee_decode_words_triggers(pulses3, 19, PROPHESEE_EVT3, none, COLUMNS, TRIGGERS));
    print_trigger_reading("decode_words_triggers, 7", WORDS_TRIGGERS(pulses3, 7, none, COLUMNS, TRIGGERS));
    print_trigger_reading("decode_words_triggers, 7, no places", WORDS_TRIGGERS(pulses3, 7, none, NO_COLUMNS, NO_TRIGGERS));
    print_trigger_reading("decode_words_triggers, 0, nothing", prophesee_decode_words_triggers(NULL, 0, 0, none, NO_COLUMNS, NO_TRIGGERS));
    print_reading("read_raw, with triggers in it", prophesee_read_raw(pulsed, sizeof pulsed, none, COLUMNS));
}

/* Limits and sizes. `pulses3` has a trigger, three events in one word, a trigger, an event, a trigger. */
static void trigger_options(void)
{
    const prophesee_options none = {0}, zero = {.sized = 1, .width = 64}, sized = {.sized = 1, .width = 64, .height = 48};
    const prophesee_options narrow = {.sized = 1, .width = 6, .height = 48}, first = {.sized = 1, .limited = 1, .width = 6, .height = 48, .max_events = 1};
    for (size_t n = 0; n <= 5; n++) {
        char what[64];
        snprintf(what, sizeof what, "read_raw_triggers, at most %zu", n);
        print_trigger_reading(what, RAW_TRIGGERS(((prophesee_options){.limited = 1, .max_events = n}), COLUMNS, TRIGGERS));
    }
    print_trigger_reading("read_raw_triggers, at most 4, 1 trigger value",
                          RAW_TRIGGERS(((prophesee_options){.limited = 1, .max_events = 4}), COLUMNS, times, ROOM, ids, ROOM, values, 1));
    print_trigger_reading("read_raw_triggers, at most 0, no places", RAW_TRIGGERS(((prophesee_options){.limited = 1}), NO_COLUMNS, NO_TRIGGERS));
    print_trigger_reading("read_raw_triggers, 6x48", RAW_TRIGGERS(narrow, COLUMNS, TRIGGERS));
    print_trigger_reading("read_raw_triggers, 6x48, at most 1", RAW_TRIGGERS(first, COLUMNS, TRIGGERS));
    print_trigger_reading("read_raw_triggers, 64x0, no places", RAW_TRIGGERS(zero, NO_COLUMNS, NO_TRIGGERS));
    /* the time and the first trigger alone */
    print_trigger_reading("decode_words_triggers, a trigger alone", prophesee_decode_words_triggers(pulses3, 6, PROPHESEE_EVT3, none, COLUMNS, NO_TRIGGERS));
    print_trigger_reading("decode_words_triggers, a trigger alone, 64x48",
                          prophesee_decode_words_triggers(pulses3, 6, PROPHESEE_EVT3, sized, NO_COLUMNS, TRIGGERS));
    print_trigger_reading("decode_words_triggers, a trigger alone, 64x48, no places",
                          prophesee_decode_words_triggers(pulses3, 6, PROPHESEE_EVT3, sized, NO_COLUMNS, NO_TRIGGERS));
}

/* ---- indexes and slices */

static void print_source(prophesee_source s)
{
    printf("  source: encoding %u records %zu spacing %zu from %zu of %zu size %zux%zu events %zu\n", s.encoding, s.records, s.spacing, s.data_offset, s.len,
           s.width, s.height, s.n_events);
}

static prophesee_opening print_opening(const char *what, prophesee_opening o, const prophesee_record *records, size_t lent)
{
    printf("%s: refusal %u told %zu\n", what, o.refusal, o.told);
    print_source(o.source);
    for (size_t i = 0; i < o.source.records; i++) {
        prophesee_record r = records[i];
        printf("  at %llu: %llu before, time %llu; decoder %llu %llu %llu %llu %llu %llu %llu\n", (unsigned long long)r.byte_offset,
               (unsigned long long)r.event_index, (unsigned long long)r.time, (unsigned long long)r.initialised, (unsigned long long)r.time_base,
               (unsigned long long)r.decoder_time, (unsigned long long)r.high_loops, (unsigned long long)r.y, (unsigned long long)r.base_x,
               (unsigned long long)r.polarity);
    }
    printf("  behind: %s\n", untouched(records, o.source.records * sizeof *records, lent * sizeof *records) ? "untouched" : "altered");
    return o;
}

static void print_slice(const char *what, prophesee_slice s)
{
    printf("%s: refusal %u told %zu count %zu\n", what, s.refusal, s.told, s.count);
    print_events(s.count);
}

#define BY_NUMBER(s, lent, n, i0, i1) prophesee_slice_index(recording, sizeof recording, s, lent, n, i0, i1, COLUMNS)
#define BY_TIME(s, lent, n, t0, t1) prophesee_slice_time(recording, sizeof recording, s, lent, n, t0, t1, COLUMNS)

/* An index of which one number is another. */
static void altered(prophesee_source source, const prophesee_record *made)
{
    prophesee_record r[4];
    prophesee_source s = source;
    memcpy(r, made, sizeof r);

    s.encoding = PROPHESEE_EVT2;
    print_slice("slice_index, an index of EVT3 as EVT2", BY_NUMBER(s, r, 4, 0, 9));
    s.encoding = 7;
    print_slice("slice_index, encoding 7", BY_NUMBER(s, r, 4, 0, 9));
    print_slice("slice_time, encoding 7", BY_TIME(s, r, 4, 0, 5000));
    s = source;
    s.records = 5;
    print_slice("slice_index, fewer lent than told", BY_NUMBER(s, r, 4, 0, 9));
    print_slice("slice_time, fewer lent than told", BY_TIME(s, r, 4, 0, 5000));
    s.records = 0;
    print_slice("slice_index, no record told", BY_NUMBER(s, r, 4, 0, 9));
    s.records = 2;
    print_slice("slice_index, 2 records told", BY_NUMBER(s, r, 4, 0, 9));
    s = source;
    s.width = 0;
    s.encoding = 7;
    print_slice("slice_index, width 0 and encoding 7", BY_NUMBER(s, r, 4, 0, 9));
    s = source;
    s.spacing = 6;
    s.encoding = 7;
    print_slice("slice_index, spacing 6 and encoding 7", BY_NUMBER(s, r, 4, 0, 9));

    r[2].base_x = 65536;
    print_slice("slice_index, base column 65536", BY_NUMBER(source, r, 3, 0, 9));
    r[2].base_x = 65535;
    print_slice("slice_index, base column 65535", BY_NUMBER(source, r, 3, 0, 2));
    r[2] = made[2];
    r[2].y = 65543;
    print_slice("slice_index, row 65543", BY_NUMBER(source, r, 3, 0, 9));
    r[2].y = 2048;
    print_slice("slice_index, row 2048", BY_NUMBER(source, r, 3, 0, 9));
    r[2] = made[2];
    r[2].initialised = 2;
    print_slice("slice_index, initialised 2", BY_NUMBER(source, r, 3, 0, 9));
    r[2] = made[2];
    r[2].polarity = 2;
    print_slice("slice_time, polarity 2", BY_TIME(source, r, 3, 0, 5000));
    r[2] = made[2];
    r[2].time = 9223372036854775808u;
    print_slice("slice_time, time 2^63", BY_TIME(source, r, 3, 0, 5000));
}

static void slices(void)
{
    const prophesee_open_options four = {.spacing = 4}, six = {.spacing = 6};
    prophesee_record records[4];
    memset(records, 0xee, sizeof records);

    print_opening("open, spacing 6", prophesee_open(recording, sizeof recording, records, 4, six), records, 4);
    print_opening("open, 2 records", prophesee_open(recording, sizeof recording, records, 2, four), records, 4);
    print_opening("open, no records", prophesee_open(recording, sizeof recording, NULL, 0, four), records, 4);
    print_opening("open, nothing", prophesee_open(NULL, 0, NULL, 0, four), records, 4);
    prophesee_source s = print_opening("open", prophesee_open(recording, sizeof recording, records, 4, four), records, 4).source;

    print_slice("slice_index 1..9", BY_NUMBER(s, records, 4, 1, 9));
    print_slice("slice_index 1..9, 3 records", BY_NUMBER(s, records, 3, 1, 9));
    print_slice("slice_time 4097..4098", BY_TIME(s, records, 4, 4097, 4098));
    print_slice("slice_time -5..4097", BY_TIME(s, records, 4, -5, 4097));
    print_slice("slice_index, a column of 1", prophesee_slice_index(recording, sizeof recording, s, records, 3, 0, 9, xs, ROOM, ys, 1, ts, ROOM, ps, ROOM));
    print_slice("slice_index, no places", prophesee_slice_index(recording, sizeof recording, s, records, 3, 0, 0, NO_COLUMNS));
    print_slice("slice_time, no records", BY_TIME(s, NULL, 0, 0, 5000));
    print_slice("slice_index, nothing", prophesee_slice_index(NULL, 0, s, NULL, 0, 0, 0, NO_COLUMNS));
    altered(s, records);

    memset(records, 0xee, sizeof records);
    print_opening("open_words, 7", prophesee_open_words(evt2, sizeof evt2, 7, records, 4, six), records, 4);
    print_opening("open_words, 7, nothing", prophesee_open_words(NULL, 0, 7, NULL, 0, four), records, 4);
    print_opening("open_words, 3", prophesee_open_words(evt3, sizeof evt3, PROPHESEE_EVT3, records, 4, four), records, 4);
    memset(records, 0xee, sizeof records);
    s = print_opening("open_words, 2", prophesee_open_words(evt2, sizeof evt2, PROPHESEE_EVT2, records, 4, four), records, 4).source;
    print_slice("slice_index, EVT2", prophesee_slice_index(evt2, sizeof evt2, s, records, 2, 0, 1, COLUMNS));
    print_slice("slice_time, EVT2", prophesee_slice_time(evt2, sizeof evt2, s, records, 2, 100, 101, COLUMNS));
    records[1].y = 7;
    print_slice("slice_index, EVT2 with a row", prophesee_slice_index(evt2, sizeof evt2, s, records, 2, 0, 1, COLUMNS));
    records[1].y = 0;
    records[1].polarity = 1;
    print_slice("slice_index, EVT2 with a polarity", prophesee_slice_index(evt2, sizeof evt2, s, records, 2, 0, 1, COLUMNS));
}

/* ---- writing */

static uint8_t output[256];

static void print_sink(prophesee_sink s)
{
    printf("  sink: encoding %u events %zu header %u last %u %lld high %u %llu low %u %llu row %u %llu\n", s.encoding, s.n_events, s.header_written,
           s.has_last_t, (long long)s.last_t, s.has_time_high, (unsigned long long)s.time_high, s.has_time_low, (unsigned long long)s.time_low, s.has_y,
           (unsigned long long)s.y);
}

static prophesee_sink print_appended(const char *what, prophesee_appended a)
{
    printf("%s: refusal %u told %zu written %zu\n  bytes:", what, a.refusal, a.told, a.written);
    for (size_t i = 0; i < a.written; i++)
        if (output[i] >= 32 && output[i] < 127)
            printf(" %c", output[i]);
        else
            printf(" %02x", output[i]);
    printf("\n  behind: %s\n", untouched(output, a.written, sizeof output) ? "untouched" : "altered");
    memset(output, 0xee, sizeof output);
    print_sink(a.sink);
    return a.sink;
}

static const uint16_t cx[] = {10, 11, 13}, cy[] = {7, 7, 7}, far[] = {2048};
static const int64_t ct[] = {4097, 4097, 4097}, early[] = {4096}, late[] = {4098};
static const uint8_t cp[] = {0, 0, 0}, one[] = {1};

static prophesee_appended append(prophesee_sink s)
{
    return prophesee_append(s, 64, 48, cx, 1, cy, 1, late, 1, one, 1, output, sizeof output);
}

/* A writer of which one number is another. */
static void altered_writer(prophesee_sink s)
{
    prophesee_sink w = s;
    w.encoding = 7;
    print_appended("append, encoding 7", append(w));
    w = s;
    w.header_written = 2;
    print_appended("append, header_written 2", append(w));
    w = s;
    w.has_y = 2;
    print_appended("append, has_y 2", append(w));
    w = s;
    w.has_time_low = 0;
    print_appended("append, a low half that isn't sent", append(w));
    w = s;
    w.has_last_t = 0;
    print_appended("append, a last time that isn't there", append(w));
    w = s;
    w.y = 2048;
    print_appended("append, row 2048", append(w));
}

static void writing(void)
{
    memset(output, 0xee, sizeof output);
    prophesee_sink s = prophesee_writer(PROPHESEE_EVT3, 1);
    print_sink(s);
    print_appended("append, 3 bytes", prophesee_append(s, 64, 48, cx, 3, cy, 3, ct, 3, cp, 3, output, 3));
    print_appended("append, no bytes", prophesee_append(s, 64, 48, cx, 3, cy, 3, ct, 3, cp, 3, NULL, 0));
    s = print_appended("append", prophesee_append(s, 64, 48, cx, 3, cy, 3, ct, 3, cp, 3, output, sizeof output));
    print_appended("append, a time that falls", prophesee_append(s, 64, 48, cx, 1, cy, 1, early, 1, cp, 1, output, sizeof output));
    print_appended("append, x 2048", prophesee_append(s, 64, 48, far, 1, cy, 1, late, 1, cp, 1, output, sizeof output));
    print_appended("append, columns of 2 and 1", prophesee_append(s, 64, 48, cx, 2, cy, 1, late, 1, cp, 1, output, sizeof output));
    s = print_appended("append", append(s));
    altered_writer(s);
    s = prophesee_writer(PROPHESEE_EVT2, 0);
    print_sink(s);
    print_appended("append, EVT2", prophesee_append(s, 64, 48, cx, 1, cy, 1, early, 1, one, 1, output, sizeof output));
    print_appended("append, nothing", prophesee_append(s, 64, 48, NULL, 0, NULL, 0, NULL, 0, NULL, 0, NULL, 0));
    s = prophesee_writer(7, 255);
    print_sink(s);
    print_appended("append, a writer of 7", append(s));
}

/* ---- the header's end line: the next byte opens the body, whatever it is */

static prophesee_record indexed[ROOM];

/* The header, all events, the index and slices of the whole. */
static void read_all(const char *what, const uint8_t *bytes, size_t len)
{
    const prophesee_options none = {0};
    const prophesee_open_options spaced = {.spacing = 8};

    printf("%s\n", what);
    print_header("parse_header", prophesee_parse_header(bytes, len, 0, 0, 0));
    print_reading("read_raw", prophesee_read_raw(bytes, len, none, COLUMNS));
    print_trigger_reading("read_raw_triggers", prophesee_read_raw_triggers(bytes, len, none, COLUMNS, TRIGGERS));
    memset(indexed, 0xee, sizeof indexed);
    prophesee_opening o = print_opening("open", prophesee_open(bytes, len, indexed, ROOM, spaced), indexed, ROOM);
    if (o.refusal == 0) {
        print_slice("slice_index, from 1", prophesee_slice_index(bytes, len, o.source, indexed, ROOM, 1, SIZE_MAX, COLUMNS));
        print_slice("slice_time, below 155648", prophesee_slice_time(bytes, len, o.source, indexed, ROOM, 0, 155648, COLUMNS));
    }
}

static void read_behind(const char *what, const char *text, const uint8_t *words, size_t n)
{
    uint8_t bytes[128];
    size_t start = strlen(text);
    memcpy(bytes, text, start);
    memcpy(bytes + start, words, n);
    read_all(what, bytes, start + n);
}

/* 151552: column 5 of row 7, input 3 rises; 155648: columns 10, 11 and 13. The first byte is `%`. */
static const uint8_t percent3[] = {0x25, 0x80, 0x07, 0x00, 0x05, 0x28, 0x01, 0xa3, 0x26, 0x80, 0x0a, 0x30, 0x0b, 0x40};
/* 2404: column 5 of row 7. */
static const uint8_t percent2[] = {0x25, 0x00, 0x00, 0x80, 0x07, 0x28, 0x00, 0x19};

static void end_lines(void)
{
    read_behind("A recording that lost its opening", "% evt 3\n% end\n", percent3, sizeof percent3);
    read_behind("The same of EVT2", "% evt 2\n%%  END \r\n", percent2, sizeof percent2);
    read_behind("Lines behind the end line", "% evt 3\n% end\n% geometry 5x7 \n% format EVT2  \n", percent3, sizeof percent3);
    read_behind("A second end line", "% evt 3\n% geometry 64x48\n% end\n% end\n", percent3, sizeof percent3);
    read_behind("A byte 80 behind the end line", "% evt 3\n% end\n%\x80", evt3, sizeof evt3);
    read_behind("No end line", "% evt 3\n% end x\n", percent3, sizeof percent3);
    read_behind("The end line first", "% end\n% evt 3\n", percent3, sizeof percent3);
    read_behind("The end line last", "% evt 3\n% geometry 64x48\n%end", percent3, 0);
}

/* A written header is read back before a body that begins with `%` in EVT3, cut at any byte behind it and resumed by a writer without a header. */
static void written_and_cut(uint32_t encoding)
{
    const uint16_t x[] = {5, 10, 11, 13}, y[] = {7, 7, 7, 7};
    const int64_t t[] = {151552, 155648, 155648, 155648};
    const uint8_t p[] = {1, 0, 0, 0};
    const prophesee_options none = {0};
    uint8_t bytes[256], joined[256];

    prophesee_appended a = prophesee_append(prophesee_writer(encoding, 1), 64, 48, x, 4, y, 4, t, 4, p, 4, bytes, sizeof bytes);
    size_t start = prophesee_parse_header(bytes, a.written, 0, 0, 0).data_offset;
    printf("append, 151552: refusal %u written %zu, the body from %zu, its first byte %02x\n", a.refusal, a.written, start, bytes[start]);
    read_all("What was written", bytes, a.written);
    for (size_t cut = start; cut <= a.written; cut++) {
        prophesee_reading r = prophesee_read_raw(bytes, cut, none, COLUMNS);
        size_t left = 4 - r.count, whole = cut - (cut - start) % prophesee_word_size(encoding);
        memcpy(joined, bytes, whole);
        prophesee_appended b = prophesee_append(prophesee_writer(encoding, 0), 64, 48, x + r.count, left, y + r.count, left, t + r.count, left,
                                                p + r.count, left, joined + whole, sizeof joined - whole);
        prophesee_reading all = prophesee_read_raw(joined, whole + b.written, none, COLUMNS);
        int same = !memcmp(xs, x, sizeof x) && !memcmp(ys, y, sizeof y) && !memcmp(ts, t, sizeof t) && !memcmp(ps, p, sizeof p);
        printf("cut at %zu: refusal %u count %zu; joined: refusal %u, %u count %zu, %s\n", cut, r.refusal, r.count, b.refusal, all.refusal, all.count,
               same ? "as written" : "others");
        clear();
    }
}

/* ---- single words */

static void print_decoder(prophesee_decoder d)
{
    printf("  decoder: encoding %u initialised %u base %llu time %llu loops %llu row %u column %u polarity %u\n", d.encoding, d.initialised,
           (unsigned long long)d.time_base, (unsigned long long)d.time, (unsigned long long)d.high_loops, d.y, d.base_x, d.polarity);
}

static prophesee_vector print_decoded(const char *what, prophesee_decoded r)
{
    printf("%s: refusal %u, mask %x from column %u of row %u, time %lld, polarity %u\n", what, r.refusal, (unsigned)r.events.mask, r.events.x, r.events.y,
           (long long)r.events.t, r.events.p);
    print_decoder(r.decoder);
    return r.events;
}

static void print_all(prophesee_vector v)
{
    for (;;) {
        prophesee_next n = prophesee_next_event(v);
        printf("  next: some %u, %lld %u %u %u, mask %x left\n", n.some, (long long)n.event.t, n.event.x, n.event.y, n.event.p, (unsigned)n.rest.mask);
        if (!n.some)
            return;
        v = n.rest;
    }
}

static prophesee_decoder print_stepped(const char *what, prophesee_stepped s)
{
    printf("%s: refusal %u\n", what, s.refusal);
    print_decoder(s.decoder);
    return s.decoder;
}

static void words(void)
{
    prophesee_decoder fresh = prophesee_new_decoder(PROPHESEE_EVT3), d = fresh;
    print_decoder(fresh);
    for (size_t i = 0; i < sizeof evt3; i += 2) {
        prophesee_decoded r = prophesee_decode(d, evt3 + i, sizeof evt3 - i);
        print_all(print_decoded("decode, EVT3", r));
        d = r.decoder;
    }
    print_decoded("decode, one byte", prophesee_decode(d, evt3, 1));
    print_decoded("decode, nothing", prophesee_decode(d, NULL, 0));
    print_stepped("decoder_after", prophesee_decoder_after(fresh, evt3, sizeof evt3));
    print_stepped("decoder_after, cut at byte 9", prophesee_decoder_after(fresh, evt3, 9));
    print_stepped("decoder_after, nothing", prophesee_decoder_after(fresh, NULL, 0));

    prophesee_decoder x = d;
    x.initialised = 2;
    print_decoded("decode, initialised 2", prophesee_decode(x, evt3, sizeof evt3));
    print_stepped("decoder_after, initialised 2", prophesee_decoder_after(x, evt3, sizeof evt3));
    x = d;
    x.y = 2048;
    print_decoded("decode, row 2048", prophesee_decode(x, evt3, sizeof evt3));
    print_stepped("decoder_after, row 2048", prophesee_decoder_after(x, evt3, sizeof evt3));

    d = prophesee_new_decoder(PROPHESEE_EVT2);
    d = print_stepped("decoder_after, EVT2", prophesee_decoder_after(d, evt2, 4));
    print_all(print_decoded("decode, EVT2", prophesee_decode(d, evt2 + 4, 4)));
    d.base_x = 1;
    print_decoded("decode, EVT2 with a base column", prophesee_decode(d, evt2 + 4, 4));
    print_decoded("decode, a decoder of 7", prophesee_decode(prophesee_new_decoder(7), evt2, sizeof evt2));
    print_stepped("decoder_after, a decoder of 7", prophesee_decoder_after(prophesee_new_decoder(7), evt2, sizeof evt2));
    print_all((prophesee_vector){.t = 5, .mask = 0x80000001u, .x = 65534, .y = 3, .p = 1});
}

static void print_trigger(const char *what, prophesee_trigger g)
{
    printf("%s: refusal %u some %u, %lld %u %u\n", what, g.refusal, g.some, (long long)g.t, g.id, g.value);
}

static void word_triggers(void)
{
    const uint8_t *rise3 = pulses3 + 4, *event3 = pulses3 + 16, *rise2 = pulses2 + 8;
    prophesee_decoder fresh = prophesee_new_decoder(PROPHESEE_EVT3), d = prophesee_decoder_after(fresh, pulses3, 4).decoder, x = d;
    print_trigger("word_trigger, EVT3", prophesee_word_trigger(d, rise3, sizeof pulses3 - 4));
    print_trigger("word_trigger, EVT3, a word alone", prophesee_word_trigger(d, rise3, 2));
    print_trigger("word_trigger, EVT3, an event's word", prophesee_word_trigger(d, event3, 2));
    print_trigger("word_trigger, EVT3, before the first time", prophesee_word_trigger(fresh, rise3, 2));
    print_trigger("word_trigger, EVT3, one byte", prophesee_word_trigger(d, rise3, 1));
    print_trigger("word_trigger, EVT3, nothing", prophesee_word_trigger(d, NULL, 0));
    print_decoded("decode, EVT3, a trigger's word", prophesee_decode(d, rise3, 2));
    x.y = 2048;
    print_trigger("word_trigger, row 2048", prophesee_word_trigger(x, rise3, 2));
    print_trigger("word_trigger, row 2048, nothing", prophesee_word_trigger(x, NULL, 0));
    x = d;
    x.initialised = 2;
    print_trigger("word_trigger, initialised 2", prophesee_word_trigger(x, rise3, 2));
    x = d;
    x.polarity = 2;
    print_trigger("word_trigger, polarity 2, nothing", prophesee_word_trigger(x, NULL, 0));
    x = fresh;
    x.time = 1;
    print_trigger("word_trigger, unstarted with a time", prophesee_word_trigger(x, rise3, 2));

    d = prophesee_decoder_after(prophesee_new_decoder(PROPHESEE_EVT2), pulses2, 8).decoder;
    print_trigger("word_trigger, EVT2", prophesee_word_trigger(d, rise2, sizeof pulses2 - 8));
    print_trigger("word_trigger, EVT2, 3 bytes", prophesee_word_trigger(d, rise2, 3));
    print_trigger("word_trigger, EVT2, an event's word", prophesee_word_trigger(d, rise2 + 4, 4));
    print_decoded("decode, EVT2, a trigger's word", prophesee_decode(d, rise2, 4));
    d.base_x = 1;
    print_trigger("word_trigger, EVT2 with a base column", prophesee_word_trigger(d, rise2, 4));
    print_trigger("word_trigger, a decoder of 7", prophesee_word_trigger(prophesee_new_decoder(7), rise2, 4));
    print_trigger("word_trigger, a decoder of 7, nothing", prophesee_word_trigger(prophesee_new_decoder(7), NULL, 0));
}

/* ---- EVT2.1: words of 8 bytes, the upper half as in EVT2, the lower half a mask */

/* 4097: columns 10, 11 and 13 of row 7; 4100: a mask of no column; 4101: column 52 of row 9, polarity 1. */
static const uint8_t evt21[] = {0x00, 0x00, 0x00, 0x00, 0x40, 0x00, 0x00, 0x80, 0x00, 0x2c, 0x00, 0x00, 0x07, 0x00, 0x40, 0x00,
                                0x00, 0x00, 0x00, 0x00, 0x09, 0x00, 0x00, 0x11, 0x00, 0x00, 0x10, 0x00, 0x09, 0x00, 0x41, 0x11};
/* 4097: columns 2047 and 2078 of row 2047. */
static const uint8_t widest21[] = {0xff, 0xff, 0xff, 0xff, 0x40, 0x00, 0x00, 0x80, 0x01, 0x00, 0x00, 0x80, 0xff, 0xff, 0x7f, 0x10};
/* 4096: columns 0 to 31 of row 0. */
static const uint8_t full21[] = {0x00, 0x00, 0x00, 0x00, 0x40, 0x00, 0x00, 0x80, 0xff, 0xff, 0xff, 0xff, 0x00, 0x00, 0x00, 0x00};
static const char header21[] = "% format EVT21\n% geometry 64x48\n";

static void print_named(const char *what, const char *text)
{
    print_header(what, prophesee_parse_header((const uint8_t *)text, strlen(text), 0, 0, 0));
}

static void headers21(void)
{
    print_named("parse_header, format EVT21", header21);
    print_named("parse_header, format EVT21 and more", "% format EVT21;height=48;width=64\n");
    print_named("parse_header, evt 2.1", "% evt 2.1\n");
    print_named("parse_header, format EVT2 and evt 2.1", "% format EVT2\n% evt 2.1\n");
    print_named("parse_header, format EVT21 and evt 3", "% format EVT21\n% evt 3\n");
    print_named("parse_header, format EVT22", "% format EVT22\n");
}

#define WORDS21(words, options, ...) prophesee_decode_words(words, sizeof words, PROPHESEE_EVT21, options, __VA_ARGS__)

static void reading21(void)
{
    const prophesee_options none = {0}, zero = {.sized = 1, .width = 0, .height = 5}, first = {.limited = 1, .max_events = 8};
    const prophesee_options two = {.sized = 1, .limited = 1, .width = 12, .height = 48, .max_events = 2};

    read_behind("A recording of EVT2.1", header21, evt21, sizeof evt21);
    print_reading("decode_words, 21", WORDS21(evt21, none, COLUMNS));
    print_reading("decode_words, 21, 12x48, at most 2", WORDS21(evt21, two, COLUMNS));
    print_reading("decode_words, 21, cut at byte 31", prophesee_decode_words(evt21, 31, PROPHESEE_EVT21, none, COLUMNS));
    print_reading("decode_words, 21, cut at byte 15", prophesee_decode_words(evt21, 15, PROPHESEE_EVT21, none, COLUMNS));
    print_reading("decode_words, 21, a column of 3", WORDS21(evt21, none, xs, ROOM, ys, ROOM, ts, ROOM, ps, 3));
    print_reading("decode_words, 21, 0x5", WORDS21(evt21, zero, COLUMNS));
    print_reading("decode_words, 22", prophesee_decode_words(evt21, sizeof evt21, 22, none, COLUMNS));
    print_reading("decode_words, 21, the last columns", WORDS21(widest21, none, COLUMNS));
    print_reading("decode_words, 21, a full mask", WORDS21(full21, none, COLUMNS));
    print_reading("decode_words, 21, a full mask, at most 8", WORDS21(full21, first, COLUMNS));
}

/* A trigger before the first time word. 100: input 31 rises; columns 5 and 6 of row 7. 64, by the trigger's own low bits: it falls; a trigger has
 * no mask. */
static const uint8_t pulses21[] = {0x00, 0x00, 0x00, 0x00, 0x01, 0x00, 0x00, 0xa9, 0x00, 0x00, 0x00, 0x00, 0x01, 0x00, 0x00, 0x80,
                                   0x00, 0x00, 0x00, 0x00, 0x01, 0x1f, 0x00, 0xa9, 0x60, 0x00, 0x00, 0x00, 0x07, 0x00, 0x00, 0x19,
                                   0xff, 0xff, 0xff, 0xff, 0x00, 0x1f, 0x00, 0xa0};

static void triggers21(void)
{
    const prophesee_options none = {0}, first = {.limited = 1, .max_events = 1};
    print_trigger_reading("decode_words_triggers, 21", WORDS_TRIGGERS(pulses21, PROPHESEE_EVT21, none, COLUMNS, TRIGGERS));
    print_trigger_reading("decode_words_triggers, 21, at most 1", WORDS_TRIGGERS(pulses21, PROPHESEE_EVT21, first, COLUMNS, TRIGGERS));
    print_trigger_reading("decode_words_triggers, 21, cut at byte 39",
                          prophesee_decode_words_triggers(pulses21, 39, PROPHESEE_EVT21, none, COLUMNS, TRIGGERS));
    print_trigger_reading("decode_words_triggers, 21, 1 trigger id",
                          WORDS_TRIGGERS(pulses21, PROPHESEE_EVT21, none, COLUMNS, times, ROOM, ids, 1, values, ROOM));
    print_trigger_reading("decode_words_triggers, 21, no places", WORDS_TRIGGERS(pulses21, PROPHESEE_EVT21, none, NO_COLUMNS, NO_TRIGGERS));
    print_trigger_reading("decode_words_triggers, 22", WORDS_TRIGGERS(pulses21, 22, none, COLUMNS, TRIGGERS));
}

#define OPEN21(n, options) prophesee_open_words(evt21, sizeof evt21, PROPHESEE_EVT21, indexed, n, options)
#define BY_NUMBER21(s, i0, i1) prophesee_slice_index(evt21, sizeof evt21, s, indexed, ROOM, i0, i1, COLUMNS)
#define BY_TIME21(s, t0, t1) prophesee_slice_time(evt21, sizeof evt21, s, indexed, ROOM, t0, t1, COLUMNS)

static void slices21(void)
{
    const prophesee_open_options four = {.spacing = 4}, eight = {.spacing = 8}, twelve = {.spacing = 12};
    memset(indexed, 0xee, sizeof indexed);
    print_opening("open_words, 21, spacing 4", OPEN21(3, four), indexed, ROOM);
    print_opening("open_words, 21, spacing 12", OPEN21(ROOM, twelve), indexed, ROOM);
    print_opening("open_words, 21, 3 records", OPEN21(3, eight), indexed, ROOM);
    print_opening("open_words, 22", prophesee_open_words(evt21, sizeof evt21, 22, indexed, ROOM, four), indexed, ROOM);
    prophesee_source s = print_opening("open_words, 21", OPEN21(ROOM, eight), indexed, ROOM).source, other = s;
    print_slice("slice_index, EVT2.1, 2..9", BY_NUMBER21(s, 2, 9));
    print_slice("slice_time, EVT2.1, 4097..4098", BY_TIME21(s, 4097, 4098));
    print_slice("slice_time, EVT2.1, 4098..4102", BY_TIME21(s, 4098, 4102));
    other.spacing = 4;
    print_slice("slice_index, EVT2.1, spacing 4", BY_NUMBER21(other, 0, 9));
    other = s;
    other.encoding = 22;
    print_slice("slice_index, encoding 22", BY_NUMBER21(other, 0, 9));
    indexed[1].y = 7;
    print_slice("slice_index, EVT2.1 with a row", BY_NUMBER21(s, 0, 9));
    indexed[1].y = 0;
    indexed[1].base_x = 1;
    print_slice("slice_index, EVT2.1 with a base column", BY_NUMBER21(s, 0, 9));
    indexed[1].base_x = 0;
    indexed[1].time_base = 4097;
    print_slice("slice_time, EVT2.1, a coarse time of 4097", BY_TIME21(s, 0, 5000));
}

static void writing21(void)
{
    const uint16_t bx[] = {31, 32, 63, 63, 64}, by[] = {7, 7, 7, 7, 7};
    const int64_t bt[] = {4098, 4098, 4098, 4098, 4098}, last[] = {17179869183}, past[] = {17179869184};
    const uint8_t bp[] = {1, 1, 1, 1, 1};

    prophesee_sink s = prophesee_writer(PROPHESEE_EVT21, 1), w;
    print_sink(s);
    print_appended("append, EVT2.1, 3 bytes", prophesee_append(s, 64, 48, cx, 3, cy, 3, ct, 3, cp, 3, output, 3));
    s = print_appended("append, EVT2.1", prophesee_append(s, 64, 48, cx, 3, cy, 3, ct, 3, cp, 3, output, sizeof output));
    print_appended("append, EVT2.1, a time that falls", prophesee_append(s, 64, 48, cx, 1, cy, 1, early, 1, cp, 1, output, sizeof output));
    print_appended("append, EVT2.1, x 2048", prophesee_append(s, 64, 48, far, 1, cy, 1, late, 1, cp, 1, output, sizeof output));
    print_appended("append, EVT2.1, 2^34", prophesee_append(s, 64, 48, cx, 1, cy, 1, past, 1, cp, 1, output, sizeof output));
    print_appended("append, EVT2.1, 31 bytes for 4 words", prophesee_append(s, 64, 48, bx, 5, by, 5, bt, 5, bp, 5, output, 31));
    s = print_appended("append, EVT2.1, 4 words", prophesee_append(s, 64, 48, bx, 5, by, 5, bt, 5, bp, 5, output, 32));
    s = print_appended("append, EVT2.1, 2^34 - 1", prophesee_append(s, 64, 48, cx, 1, cy, 1, last, 1, one, 1, output, sizeof output));
    w = s;
    w.has_y = 1;
    print_appended("append, EVT2.1 with a row", prophesee_append(w, 64, 48, cx, 1, cy, 1, last, 1, one, 1, output, sizeof output));
    w = s;
    w.has_time_low = 1;
    print_appended("append, EVT2.1 with a low half", prophesee_append(w, 64, 48, cx, 1, cy, 1, last, 1, one, 1, output, sizeof output));
    w = prophesee_writer(22, 0);
    print_appended("append, a writer of 22", append(w));
}

static void words21(void)
{
    prophesee_decoder fresh = prophesee_new_decoder(PROPHESEE_EVT21), d = fresh, x;
    print_decoder(fresh);
    for (size_t i = 0; i < sizeof evt21; i += 8) {
        prophesee_decoded r = prophesee_decode(d, evt21 + i, sizeof evt21 - i);
        print_all(print_decoded("decode, EVT2.1", r));
        d = r.decoder;
    }
    print_decoded("decode, EVT2.1, 7 bytes", prophesee_decode(d, evt21, 7));
    print_decoded("decode, EVT2.1, before the first time", prophesee_decode(fresh, evt21 + 8, 8));
    print_stepped("decoder_after, EVT2.1", prophesee_decoder_after(fresh, evt21, sizeof evt21));
    print_stepped("decoder_after, EVT2.1, cut at byte 31", prophesee_decoder_after(fresh, evt21, 31));
    x = d;
    x.polarity = 1;
    print_decoded("decode, EVT2.1 with a polarity", prophesee_decode(x, evt21, 8));
    x = d;
    x.time = 4160;
    print_stepped("decoder_after, EVT2.1, time 4160", prophesee_decoder_after(x, evt21, 8));
    print_decoded("decode, a decoder of 22", prophesee_decode(prophesee_new_decoder(22), evt21, 8));

    d = prophesee_decoder_after(fresh, pulses21, 16).decoder;
    print_trigger("word_trigger, EVT2.1", prophesee_word_trigger(d, pulses21 + 16, sizeof pulses21 - 16));
    print_trigger("word_trigger, EVT2.1, 7 bytes", prophesee_word_trigger(d, pulses21 + 16, 7));
    print_trigger("word_trigger, EVT2.1, an event's word", prophesee_word_trigger(d, pulses21 + 24, 8));
    print_trigger("word_trigger, EVT2.1, a lower half", prophesee_word_trigger(d, pulses21 + 32, 8));
    print_trigger("word_trigger, EVT2.1, before the first time", prophesee_word_trigger(fresh, pulses21, 8));
    print_decoded("decode, EVT2.1, a trigger's word", prophesee_decode(d, pulses21 + 32, 8));
}

/* ---- refusal 4 comes before each other one: what is answered at 2^30 bytes, and at one more */

static void told(size_t n, const char *what, uint32_t refusal)
{
    printf("%zu bytes, %s: refusal %u\n", n, what, refusal);
}

/* The bytes begin with a time word and an event of EVT2. */
static void longest_events(const uint8_t *bytes, size_t n)
{
    const prophesee_options sized = {.sized = 1, .width = 64, .height = 48}, zero = {.sized = 1};
    const prophesee_open_options open = {.sized = 1, .width = 64, .height = 48, .spacing = 4194304}, none = {.sized = 1, .spacing = 4194304};
    const prophesee_open_options odd = {.sized = 1, .width = 64, .height = 48, .spacing = 2};
    const prophesee_source index = {.encoding = 2, .records = 1, .spacing = 4, .width = 64, .height = 48, .n_events = 1};
    const prophesee_source unknown = {.encoding = 7, .records = 1, .spacing = 4, .width = 64, .height = 48, .n_events = 1};
    const prophesee_source flat = {.encoding = 2, .records = 1, .spacing = 4, .n_events = 1};
    const prophesee_source close = {.encoding = 2, .records = 1, .spacing = 2, .width = 64, .height = 48, .n_events = 1};
    const prophesee_record first = {0};
    prophesee_record made;

    told(n, "decode_words, encoding 7", prophesee_decode_words(bytes, n, 7, zero, COLUMNS).refusal);
    told(n, "decode_words, size 0", prophesee_decode_words(bytes, n, 2, zero, COLUMNS).refusal);
    told(n, "decode_words, no places", prophesee_decode_words(bytes, n, 2, sized, NO_COLUMNS).refusal);
    told(n, "open_words, encoding 7", prophesee_open_words(bytes, n, 7, &made, 1, none).refusal);
    told(n, "open_words, size 0", prophesee_open_words(bytes, n, 2, &made, 1, none).refusal);
    told(n, "open_words, spacing 2", prophesee_open_words(bytes, n, 2, &made, 1, odd).refusal);
    told(n, "open_words, one record", prophesee_open_words(bytes, n, 2, &made, 1, open).refusal);
    told(n, "slice_index, size 0", prophesee_slice_index(bytes, n, flat, &first, 1, 0, 1, COLUMNS).refusal);
    told(n, "slice_index, spacing 2", prophesee_slice_index(bytes, n, close, &first, 1, 0, 1, COLUMNS).refusal);
    told(n, "slice_index, encoding 7", prophesee_slice_index(bytes, n, unknown, &first, 1, 0, 1, COLUMNS).refusal);
    told(n, "slice_index, no record", prophesee_slice_index(bytes, n, index, NULL, 0, 0, 1, COLUMNS).refusal);
    told(n, "slice_index, no places", prophesee_slice_index(bytes, n, index, &first, 1, 0, 1, NO_COLUMNS).refusal);
    told(n, "slice_time, size 0", prophesee_slice_time(bytes, n, flat, &first, 1, 0, 200, COLUMNS).refusal);
    told(n, "slice_time, spacing 2", prophesee_slice_time(bytes, n, close, &first, 1, 0, 200, COLUMNS).refusal);
    told(n, "slice_time, encoding 7", prophesee_slice_time(bytes, n, unknown, &first, 1, 0, 200, COLUMNS).refusal);
    told(n, "slice_time, no record", prophesee_slice_time(bytes, n, index, NULL, 0, 0, 200, COLUMNS).refusal);
    told(n, "slice_time, no places", prophesee_slice_time(bytes, n, index, &first, 1, 0, 200, NO_COLUMNS).refusal);
    told(n, "decoder_after", prophesee_decoder_after(prophesee_new_decoder(2), bytes, n).refusal);
    told(n, "decoder_after, encoding 7", prophesee_decoder_after(prophesee_new_decoder(7), bytes, n).refusal);
}

/* The first 2^30 bytes end with two triggers and an event of EVT2. */
static void longest_triggers(const uint8_t *bytes, size_t n)
{
    const prophesee_options none = {0}, sized = {.sized = 1, .width = 64, .height = 48}, zero = {.sized = 1};
    print_trigger_reading("decode_words_triggers, 2, zeros before", prophesee_decode_words_triggers(bytes, n, 2, none, COLUMNS, TRIGGERS));
    told(n, "decode_words_triggers, encoding 7", prophesee_decode_words_triggers(bytes, n, 7, zero, COLUMNS, TRIGGERS).refusal);
    told(n, "decode_words_triggers, size 0", prophesee_decode_words_triggers(bytes, n, 2, zero, COLUMNS, TRIGGERS).refusal);
    told(n, "decode_words_triggers, no places", prophesee_decode_words_triggers(bytes, n, 2, sized, NO_COLUMNS, NO_TRIGGERS).refusal);
    told(n, "decode_words_triggers, no trigger places", prophesee_decode_words_triggers(bytes, n, 2, sized, COLUMNS, NO_TRIGGERS).refusal);
}

static void longest(void)
{
    static prophesee_record records[256];
    const prophesee_options plain = {0}, sized = {.sized = 1, .width = 64, .height = 48};
    const prophesee_open_options open = {.spacing = 4194304};
    uint8_t *bytes = mmap(NULL, LONGEST + 1u, PROT_READ | PROT_WRITE, MAP_PRIVATE | MAP_ANONYMOUS | MAP_NORESERVE, -1, 0);
    if (bytes == MAP_FAILED) {
        perror("mmap");
        return;
    }
    for (size_t n = LONGEST; n <= LONGEST + 1u; n++) {
        memset(bytes, 0, sizeof evt2);
        print_reading("decode_words, 2, zeros", prophesee_decode_words(bytes, n, 2, sized, COLUMNS));
        print_reading("decode_words, 3, zeros", prophesee_decode_words(bytes, n, 3, sized, COLUMNS));
        print_reading("decode_words, 21, zeros", prophesee_decode_words(bytes, n, 21, sized, COLUMNS));
        told(n, "decode_words, no size, no event", prophesee_decode_words(bytes, n, 2, plain, COLUMNS).refusal);
        told(n, "open_words, no size, no event", prophesee_open_words(bytes, n, 2, records, 256, open).refusal);
        memcpy(bytes, evt2, sizeof evt2);
        longest_events(bytes, n);
        memset(bytes, 0, sizeof evt2);
        told(n, "decode_words_triggers, no size, no event", prophesee_decode_words_triggers(bytes, n, 2, plain, COLUMNS, TRIGGERS).refusal);
        memcpy(bytes + LONGEST - sizeof pulses2, pulses2, sizeof pulses2);
        longest_triggers(bytes, n);
        memset(bytes + LONGEST - sizeof pulses2, 0, sizeof pulses2);
        memcpy(bytes, "%\n", 2);
        told(n, "parse_header, no encoding", prophesee_parse_header(bytes, n, 0, 0, 0).refusal);
        told(n, "read_raw, no encoding", prophesee_read_raw(bytes, n, plain, COLUMNS).refusal);
        told(n, "read_raw_triggers, no encoding", prophesee_read_raw_triggers(bytes, n, plain, COLUMNS, TRIGGERS).refusal);
        told(n, "open, no encoding", prophesee_open(bytes, n, NULL, 0, open).refusal);
        bytes[1] = 0x80;
        told(n, "parse_header, a header byte 80", prophesee_parse_header(bytes, n, 0, 0, 0).refusal);
        told(n, "read_raw, a header byte 80", prophesee_read_raw(bytes, n, plain, COLUMNS).refusal);
        told(n, "read_raw_triggers, a header byte 80", prophesee_read_raw_triggers(bytes, n, plain, COLUMNS, TRIGGERS).refusal);
        told(n, "open, a header byte 80", prophesee_open(bytes, n, NULL, 0, open).refusal);
    }
    munmap(bytes, LONGEST + 1u);
    clear();
}

/* Refusal 4 of an append: one event over 2^28, and not at 2^28, where the output is too short (11). */
static void longest_append(void)
{
    const size_t most = 268435456, bytes = (most + 1) * sizeof(int64_t);
    void *zeros = mmap(NULL, bytes, PROT_READ, MAP_PRIVATE | MAP_ANONYMOUS | MAP_NORESERVE, -1, 0);
    if (zeros == MAP_FAILED) {
        perror("mmap");
        return;
    }
    const uint32_t encodings[] = {3, 21};
    for (size_t i = 0; i < 2; i++)
        for (size_t n = most; n <= most + 1; n++) {
            prophesee_appended a = prophesee_append(prophesee_writer(encodings[i], 0), 64, 48, zeros, n, zeros, n, zeros, n, zeros, n, output, 8);
            printf("append, %u, %zu events: refusal %u told %zu written %zu\n", encodings[i], n, a.refusal, a.told, a.written);
        }
    munmap(zeros, bytes);
}

static void bounds(void)
{
    for (uint32_t n = 0; n <= 14; n++)
        printf("refusal %u: %s\n", n, prophesee_refusal_text(n));
    printf("word sizes: %zu of EVT2, %zu of EVT2.1, %zu of EVT3\n", prophesee_word_size(2), prophesee_word_size(21), prophesee_word_size(3));
    printf("most events: %zu of EVT2, %zu of EVT2.1, %zu of EVT3\n", prophesee_most_events(2, 23), prophesee_most_events(21, 23),
           prophesee_most_events(3, 23));
    printf("most triggers: %zu of EVT2, %zu of EVT2.1, %zu of EVT3\n", prophesee_most_triggers(2, 23), prophesee_most_triggers(21, 23),
           prophesee_most_triggers(3, 23));
    printf("most records: %zu, %zu, %zu, %zu\n", prophesee_most_records(0, 4), prophesee_most_records(1, 4),
           prophesee_most_records(4, 4), prophesee_most_records(5, 4));
    printf("most bytes: %zu, with a header %zu\n", prophesee_most_bytes(3), prophesee_most_bytes_with_header(3));
}

/* ---- resuming */

static void print_resumed(const char *what, prophesee_resumed r)
{
    printf("%s: refusal %u\n", what, r.refusal);
    print_sink(r.sink);
}

static void resuming_decoders(void)
{
    prophesee_decoder d = prophesee_new_decoder(PROPHESEE_EVT3);
    print_resumed("resume, not started", prophesee_resume(d));
    d.initialised = 1, d.high_loops = 2, d.time_base = 2 * 16777216 + 4096, d.time = d.time_base + 5;
    print_resumed("resume, loop 2", prophesee_resume(d));
    d.time = d.time_base + 4096;
    print_resumed("resume, a time past its half", prophesee_resume(d));
    d.high_loops = 1024, d.time_base = d.time = (uint64_t)1 << 34;
    print_resumed("resume, 2^34", prophesee_resume(d));
    d.encoding = PROPHESEE_EVT2, d.high_loops = 0, d.time_base = ((uint64_t)1 << 34) - 64, d.time = d.time_base + 63;
    print_resumed("resume, EVT2, the last half", prophesee_resume(d));
    d.encoding = 7;
    print_resumed("resume, encoding 7", prophesee_resume(d));
    d.encoding = PROPHESEE_EVT3, d.initialised = 2;
    print_resumed("resume, initialised 2", prophesee_resume(d));
}

/* 8FFF 8000 and a broken word: what is left of a stream that passed a loop. Its events begin at 2^24. */
static void resuming_words(void)
{
    static const uint8_t left[] = {0xff, 0x8f, 0x00, 0x80, 0x07};
    static const int64_t below[] = {16777215}, at[] = {16777216};
    prophesee_resumed r = prophesee_resume_words(left, sizeof left, PROPHESEE_EVT3);
    print_resumed("resume_words", r);
    print_appended("append, below the coarse time", prophesee_append(r.sink, 64, 48, cx, 1, cy, 1, below, 1, one, 1, output, sizeof output));
    print_appended("append, at it", prophesee_append(r.sink, 64, 48, cx, 1, cy, 1, at, 1, one, 1, output, sizeof output));
    print_resumed("resume_words, FFF alone", prophesee_resume_words(left, 3, PROPHESEE_EVT3));
    print_resumed("resume_words, nothing", prophesee_resume_words(NULL, 0, PROPHESEE_EVT21));
    print_resumed("resume_words, encoding 7", prophesee_resume_words(left, sizeof left, 7));
}

static void resuming_recordings(void)
{
    static const uint8_t wide[] = "% format EVT3\n% geometry 0x0\n", high[] = {'%', 0x80}, none[] = "% format other\n";
    print_resumed("resume_raw", prophesee_resume_raw(recording, sizeof recording));
    print_resumed("resume_raw, a size of 0 by 0", prophesee_resume_raw(wide, sizeof wide - 1));
    print_resumed("resume_raw, a byte 80", prophesee_resume_raw(high, sizeof high));
    print_resumed("resume_raw, no encoding", prophesee_resume_raw(none, sizeof none - 1));
    prophesee_stepped s = prophesee_decoder_after_raw(recording, sizeof recording);
    printf("decoder_after_raw: refusal %u\n", s.refusal);
    print_decoder(s.decoder);
    s = prophesee_decoder_after_raw(none, sizeof none - 1);
    printf("decoder_after_raw, no encoding: refusal %u\n", s.refusal);
    print_decoder(s.decoder);
}

int main(void)
{
    memcpy(recording, header, sizeof header - 1);
    memcpy(recording + sizeof header - 1, evt3, sizeof evt3);
    memcpy(pulsed, header, sizeof header - 1);
    memcpy(pulsed + sizeof header - 1, pulses3, sizeof pulses3);
    clear();
    printf("version %u, %u\n", prophesee_version(), PROPHESEE_RAW_VERSION);
    bounds();
    numbers();
    headers();
    reading();
    triggers();
    trigger_options();
    slices();
    writing();
    end_lines();
    written_and_cut(PROPHESEE_EVT3);
    words();
    word_triggers();
    headers21();
    reading21();
    triggers21();
    slices21();
    writing21();
    written_and_cut(PROPHESEE_EVT21);
    words21();
    resuming_decoders();
    resuming_words();
    resuming_recordings();
    longest();
    longest_append();
    return 0;
}
