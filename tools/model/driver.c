/* Makes the calls that it is told on standard input and tells what they gave on standard output, for
 * tools/model/compare.py. Both are in batches: the number of bytes that follow, in 32 bits, then these bytes. A batch
 * in is requests, each a `struct request`, the bytes of the recording or text, and what else the call is given: of a
 * slice its source and records, of an append its writer and columns. A batch out is an answer for each, its length in 32 bits and
 * then its numbers without padding, in the order of the `put` below. A column is told in full, as long as it was lent.
 * tools/model/calls.py has the same layouts. The encodings are numbers here like any others. */
#define _DEFAULT_SOURCE
#include "prophesee_raw.h"

#include <stdio.h>
#include <stdlib.h>
#include <string.h>
#include <sys/mman.h>
#include <unistd.h>

enum {
    PARSE_HEADER,
    READ_RAW,
    DECODE_WORDS,
    READ_RAW_TRIGGERS,
    DECODE_WORDS_TRIGGERS,
    DECODE,
    DECODER_AFTER,
    WORD_TRIGGER,
    OPEN_SLICE_INDEX,
    OPEN_SLICE_TIME,
    OPEN_WORDS_SLICE_INDEX,
    OPEN_WORDS_SLICE_TIME,
    SLICE_INDEX,
    SLICE_TIME,
    APPEND,
    WRITER,
    NEW_DECODER,
    RESUME,
    RESUME_WORDS,
    RESUME_RAW,
    DECODER_AFTER_RAW,
    READ_NUMBER
};

#define COLUMNS 7
#define CANARY 64
#define MARK 0xa5
#define ARENA (1 << 24)
#define RECORDING (1 << 20)
#define LONGEST ((size_t)1 << 30)
#define SECONDS_A_BATCH 300

struct request {
    uint64_t width, height, max_events; /* of an opening: the spacing in place of max_events */
    uint64_t zeros; /* bytes 0 behind those given */
    prophesee_decoder decoder; /* of a slice: its ends in place of the first two numbers */
    /* places lent: x, y, t, p, trigger time, id, value; of an index the fifth is records, 10 places each; of an append the
     * first four are what it appends, and the sixth is its output; of a number the sixth is its text */
    uint32_t rooms[COLUMNS];
    uint32_t encoding;
    uint32_t given; /* bytes of the recording that follow */
    uint32_t more; /* bytes behind these */
    uint8_t call, sized, limited; /* of a fresh writer: whether it sends a header in place of `sized` */
    uint8_t fill; /* every byte of a column beforehand; an odd one lends NULL for what is empty */
};
_Static_assert(sizeof(struct request) == 120, "as calls.py packs it");

static const size_t sizes[COLUMNS] = {2, 2, 8, 1, 8, 1, 1};

static void stop(const char *why)
{
    fprintf(stderr, "driver: %s\n", why);
    exit(2);
}

/* ---- the batch out */

static uint8_t *out;
static size_t out_len, out_room;

static void put(const void *from, size_t n)
{
    if (out_len + n > out_room) {
        out_room = 2 * (out_len + n);
        out = realloc(out, out_room);
        if (!out)
            stop("no memory");
    }
    if (n)
        memcpy(out + out_len, from, n);
    out_len += n;
}

#define PUT(value) put(&(value), sizeof(value))

/* ---- lent memory */

static uint8_t *recording_end; /* a page that can't be touched follows */
static uint8_t *seen_end; /* likewise */
static uint8_t *long_recording; /* all 0, longer than any that is read */
static const uint8_t *recording;
static size_t recording_len;
static _Alignas(8) uint8_t arena[ARENA]; /* each column between canaries */
static uint8_t *columns[COLUMNS];
static void *lent_columns[COLUMNS];

static void *mapped(size_t n)
{
    void *at = mmap(NULL, n, PROT_READ | PROT_WRITE, MAP_PRIVATE | MAP_ANONYMOUS | MAP_NORESERVE, -1, 0);
    if (at == MAP_FAILED)
        stop("no memory");
    return at;
}

/* The end of as many bytes as a recording has at most. */
static uint8_t *mapped_before_page(void)
{
    uint8_t *end = (uint8_t *)mapped(RECORDING + 4096) + RECORDING;
    if (mprotect(end, 4096, PROT_NONE))
        stop("no page that can't be touched");
    return end;
}

static void map_memory(void)
{
    recording_end = mapped_before_page();
    seen_end = mapped_before_page();
    long_recording = mapped(LONGEST + RECORDING);
}

static void lend_recording(const struct request *r, const uint8_t *given)
{
    if (r->given > RECORDING - CANARY || r->given + r->zeros > LONGEST + RECORDING)
        stop("a recording too long");
    uint8_t *at = r->zeros ? long_recording : recording_end - r->given;
    memset(recording_end - r->given - CANARY, MARK, CANARY);
    memcpy(at, given, r->given);
    recording = at;
    recording_len = r->given + r->zeros;
    if (recording_len == 0 && r->fill % 2)
        recording = NULL;
}

static int recording_altered(const struct request *r, const uint8_t *given)
{
    uint8_t *at = r->zeros ? long_recording : recording_end - r->given;
    int altered = memcmp(at, given, r->given) != 0;
    if (r->zeros)
        memset(at, 0, r->given);
    for (int i = 1; i <= CANARY; i++)
        altered |= (recording_end - r->given)[-i] != MARK;
    return altered;
}

static size_t column_bytes(const struct request *r, int i)
{
    return r->rooms[i] * sizes[i];
}

static void lend_columns(const struct request *r)
{
    size_t at = CANARY, end = 0;
    for (int i = 0; i < COLUMNS; i++) {
        end = at + (column_bytes(r, i) + 7) / 8 * 8 + CANARY;
        if (end > ARENA)
            stop("columns too long");
        columns[i] = arena + at;
        lent_columns[i] = r->rooms[i] == 0 && r->fill % 2 ? NULL : columns[i];
        at = end;
    }
    memset(arena, MARK, end);
    for (int i = 0; i < COLUMNS; i++)
        memset(columns[i], r->fill, column_bytes(r, i));
}

/* Whether a byte between the columns changed. */
static int canaries_altered(const struct request *r)
{
    int altered = 0;
    const uint8_t *at = arena;
    for (int i = 0; i < COLUMNS; i++) {
        while (at < columns[i])
            altered |= *at++ != MARK;
        at += column_bytes(r, i);
    }
    for (int i = 0; i < CANARY; i++)
        altered |= at[i] != MARK;
    return altered;
}

/* What a column holds before the call, in place of the fill. */
static const uint8_t *given_column(const struct request *r, int i, const uint8_t *from)
{
    memcpy(columns[i], from, column_bytes(r, i));
    return from + column_bytes(r, i);
}

/* ---- the calls */

#define LENT(i) lent_columns[i], r->rooms[i]
#define EVENT_COLUMNS LENT(0), LENT(1), LENT(2), LENT(3)
#define TRIGGER_COLUMNS LENT(4), LENT(5), LENT(6)

static void put_header(const struct request *r)
{
    prophesee_header h = prophesee_parse_header(recording, recording_len, r->sized, r->width, r->height);
    PUT(h.refusal), PUT(h.encoding), PUT(h.data_offset), PUT(h.width), PUT(h.height), PUT(h.sized);
}

static void put_reading(const struct request *r, prophesee_options options)
{
    size_t no_triggers = 0;
    prophesee_reading a = r->call == READ_RAW ? prophesee_read_raw(recording, recording_len, options, EVENT_COLUMNS)
                                              : prophesee_decode_words(recording, recording_len, r->encoding, options, EVENT_COLUMNS);
    PUT(a.refusal), PUT(a.encoding), PUT(a.told), PUT(a.width), PUT(a.height), PUT(a.count), PUT(no_triggers);
}

static void put_trigger_reading(const struct request *r, prophesee_options options)
{
    prophesee_trigger_reading a =
        r->call == READ_RAW_TRIGGERS
            ? prophesee_read_raw_triggers(recording, recording_len, options, EVENT_COLUMNS, TRIGGER_COLUMNS)
            : prophesee_decode_words_triggers(recording, recording_len, r->encoding, options, EVENT_COLUMNS, TRIGGER_COLUMNS);
    PUT(a.refusal), PUT(a.encoding), PUT(a.told), PUT(a.width), PUT(a.height), PUT(a.count), PUT(a.triggers);
}

static void put_trigger(const struct request *r)
{
    prophesee_trigger a = prophesee_word_trigger(r->decoder, recording, recording_len);
    PUT(a.refusal), PUT(a.some), PUT(a.t), PUT(a.id), PUT(a.value);
}

static void put_decoder(prophesee_decoder d)
{
    PUT(d.time_base), PUT(d.time), PUT(d.high_loops), PUT(d.encoding), PUT(d.y), PUT(d.base_x), PUT(d.initialised), PUT(d.polarity);
}

/* The decoder after the first word, and the word's events one by one. */
static void put_decoded(const struct request *r)
{
    prophesee_decoded a = prophesee_decode(r->decoder, recording, recording_len);
    PUT(a.refusal), put_decoder(a.decoder);
    for (prophesee_next n = prophesee_next_event(a.events); n.some; n = prophesee_next_event(n.rest))
        PUT(n.event.x), PUT(n.event.y), PUT(n.event.t), PUT(n.event.p);
}

static void put_decoder_after(const struct request *r)
{
    prophesee_stepped a = prophesee_decoder_after(r->decoder, recording, recording_len);
    PUT(a.refusal), put_decoder(a.decoder);
}

static void put_decoder_after_raw(void)
{
    prophesee_stepped a = prophesee_decoder_after_raw(recording, recording_len);
    PUT(a.refusal), put_decoder(a.decoder);
}

static prophesee_slice slice(const struct request *r, prophesee_source source, int by_time)
{
    const prophesee_record *records = lent_columns[4];
    size_t lent = r->rooms[4] / 10;
    uint64_t from = r->decoder.time_base, to = r->decoder.time;
    return by_time ? prophesee_slice_time(recording, recording_len, source, records, lent, from, to, EVENT_COLUMNS)
                   : prophesee_slice_index(recording, recording_len, source, records, lent, from, to, EVENT_COLUMNS);
}

static void put_slice(prophesee_slice a)
{
    PUT(a.refusal), PUT(a.told), PUT(a.count);
}

/* The index of a recording or of words, and a slice of it if there is one. */
static void put_opening(const struct request *r, int words, int by_time)
{
    prophesee_open_options options = {r->width, r->height, r->max_events, r->sized};
    prophesee_record *records = lent_columns[4];
    size_t lent = r->rooms[4] / 10;
    prophesee_opening o = words ? prophesee_open_words(recording, recording_len, r->encoding, records, lent, options)
                                : prophesee_open(recording, recording_len, records, lent, options);
    prophesee_slice none = {0};
    PUT(o.refusal), PUT(o.told), PUT(o.source.records), PUT(o.source.spacing), PUT(o.source.data_offset), PUT(o.source.len);
    PUT(o.source.width), PUT(o.source.height), PUT(o.source.n_events), PUT(o.source.encoding);
    put_slice(o.refusal == 0 ? slice(r, o.source, by_time) : none);
}

/* A slice of an index that is given, its numbers any. */
static void put_given_slice(const struct request *r, const uint8_t *more, int by_time)
{
    prophesee_source source;
    memcpy(&source, more, sizeof source);
    given_column(r, 4, more + sizeof source);
    put_slice(slice(r, source, by_time));
}

static void put_sink(prophesee_sink s)
{
    PUT(s.n_events), PUT(s.last_t), PUT(s.time_high), PUT(s.time_low), PUT(s.y), PUT(s.encoding);
    PUT(s.header_written), PUT(s.has_last_t), PUT(s.has_time_high), PUT(s.has_time_low), PUT(s.has_y);
}

static void put_appended(const struct request *r, const uint8_t *more)
{
    prophesee_sink sink;
    memcpy(&sink, more, sizeof sink);
    more += sizeof sink;
    for (int i = 0; i < 4; i++)
        more = given_column(r, i, more);
    prophesee_appended a = prophesee_append(sink, r->width, r->height, EVENT_COLUMNS, LENT(5));
    PUT(a.refusal), PUT(a.told), PUT(a.written), put_sink(a.sink);
}

static void put_resumed(prophesee_resumed a)
{
    PUT(a.refusal), put_sink(a.sink);
}

static prophesee_number put_number(const uint8_t *text, size_t len)
{
    prophesee_number a = prophesee_read_number(text, len);
    PUT(a.value), PUT(a.place), PUT(a.valid);
    return a;
}

/* The text before a page that can't be touched, between marks, and in heap memory of just its length, where valgrind
 * sees what is read behind it (with bytes 0 behind it: as it stands); at last with a page that can't be touched behind
 * its place, and told as long as before: no byte there may be read. */
static void put_numbers(const struct request *r)
{
    prophesee_number a = put_number(recording, recording_len);
    size_t seen = a.valid || a.place >= recording_len ? recording_len : a.place + 1;
    uint8_t *copy = malloc(r->given);
    if (seen > RECORDING || r->rooms[5] != r->given || (r->given && !copy))
        stop("no room for a text");
    if (recording_len) {
        memcpy(columns[5], recording, r->given);
        memcpy(copy, recording, r->given);
        memcpy(seen_end - seen, recording, seen);
    }
    put_number(r->zeros ? recording : lent_columns[5], recording_len);
    put_number(r->zeros ? recording : copy, recording_len);
    put_number(seen_end - seen, recording_len);
    free(copy);
}

static void call(const struct request *r, const uint8_t *more)
{
    prophesee_options options = {r->width, r->height, r->max_events, r->sized, r->limited};
    switch (r->call) {
    case PARSE_HEADER: put_header(r); break;
    case READ_RAW:
    case DECODE_WORDS: put_reading(r, options); break;
    case READ_RAW_TRIGGERS:
    case DECODE_WORDS_TRIGGERS: put_trigger_reading(r, options); break;
    case WORD_TRIGGER: put_trigger(r); break;
    case DECODE: put_decoded(r); break;
    case DECODER_AFTER: put_decoder_after(r); break;
    case OPEN_SLICE_INDEX:
    case OPEN_SLICE_TIME: put_opening(r, 0, r->call == OPEN_SLICE_TIME); break;
    case OPEN_WORDS_SLICE_INDEX:
    case OPEN_WORDS_SLICE_TIME: put_opening(r, 1, r->call == OPEN_WORDS_SLICE_TIME); break;
    case SLICE_INDEX:
    case SLICE_TIME: put_given_slice(r, more, r->call == SLICE_TIME); break;
    case APPEND: put_appended(r, more); break;
    case WRITER: put_sink(prophesee_writer(r->encoding, r->sized)); break;
    case NEW_DECODER: put_decoder(prophesee_new_decoder(r->encoding)); break;
    case RESUME: put_resumed(prophesee_resume(r->decoder)); break;
    case RESUME_WORDS: put_resumed(prophesee_resume_words(recording, recording_len, r->encoding)); break;
    case RESUME_RAW: put_resumed(prophesee_resume_raw(recording, recording_len)); break;
    case DECODER_AFTER_RAW: put_decoder_after_raw(); break;
    case READ_NUMBER: put_numbers(r); break;
    default: stop("no such call");
    }
}

static void answer(const struct request *r, const uint8_t *given)
{
    uint32_t length = 0;
    size_t start = out_len;
    PUT(length);
    lend_recording(r, given);
    lend_columns(r);
    call(r, given + r->given);
    uint8_t altered = recording_altered(r, given) | canaries_altered(r);
    PUT(altered);
    for (int i = 0; i < COLUMNS; i++)
        put(columns[i], column_bytes(r, i));
    length = out_len - start - sizeof length;
    memcpy(out + start, &length, sizeof length);
}

static uint8_t *read_batch(uint32_t *n)
{
    if (fread(n, sizeof *n, 1, stdin) != 1)
        return NULL;
    uint8_t *batch = malloc(*n + 1);
    if (!batch || fread(batch, 1, *n, stdin) != *n)
        stop("a batch that isn't whole");
    return batch;
}

int main(void)
{
    uint32_t n;
    map_memory();
    for (uint8_t *batch; (batch = read_batch(&n)); free(batch)) {
        out_len = 0;
        alarm(SECONDS_A_BATCH); /* a call that doesn't return ends the driver, which compare.py tells */
        for (size_t at = 0; at < n;) {
            struct request r;
            memcpy(&r, batch + at, sizeof r);
            answer(&r, batch + at + sizeof r);
            at += sizeof r + r.given + r.more;
        }
        uint32_t told = out_len;
        if (fwrite(&told, sizeof told, 1, stdout) != 1 || fwrite(out, 1, out_len, stdout) != out_len || fflush(stdout))
            stop("nobody reads the answers");
    }
    return 0;
}
