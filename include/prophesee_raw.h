/* Prophesee RAW recordings (EVT2, EVT2.1 and EVT3): numbers, reading, triggers, indexes, slices, writing, single words.
 *
 * `rt lib` in crates/prophesee_raw_c proves the library and writes out/libprophesee_raw_c.a there
 * (x86-64-v2 Linux). Every function is proved to return and to write exactly what its contract says
 * (crates/prophesee_raw_c/src cites it, the specs of the crates c_values, c_decoder, c_triggers, c_index,
 * c_writer and c_resume define it), whatever numbers it is given.
 *
 * There is no global state and no memory is kept: all that a later call needs is in the values that
 * an earlier one returned and in the buffers of the caller. Calls on different buffers may run at the
 * same time.
 *
 * Outside of every contract lie: a pointer that isn't valid for its length or isn't aligned to its
 * type (NULL is valid for length 0), a buffer of 2^63 bytes or more, a buffer that is written and
 * overlaps another of the same call, and a buffer that another thread writes meanwhile.
 *
 * Units. Each `.._len` counts elements of its buffer: bytes of a recording or an output, events or
 * triggers of a column, records of an index. `told` is in the unit of the buffer that was too short.
 * Times are in microseconds. The four columns of an event are x (column of the sensor, from 0), y (row,
 * from 0), t (time) and p (polarity, 0 or 1); the shortest of the four lent columns counts. The three
 * columns of a trigger are t (time), id (of the trigger input) and value (0 or 1); the shortest of these
 * three counts for triggers.
 *
 * `refusal` is 0 for an acceptance, else a number of docs/RULES.md (PROPHESEE_.. below). A refusal
 * alters no buffer. An acceptance alters no place of a buffer behind what it hands over. Numbers of an
 * answer that don't apply are 0. An option's flag is true if it isn't 0.
 */
#ifndef PROPHESEE_RAW_H
#define PROPHESEE_RAW_H

#include <stddef.h>
#include <stdint.h>

#ifdef __cplusplus
extern "C" {
#define PROPHESEE_ASSERT(what) static_assert(what, #what)
#else
#define PROPHESEE_ASSERT(what) _Static_assert(what, #what)
#endif

/* This is version 1. It is raised whenever a struct or a function that is there changes; one that is
 * added leaves it as it is. `prophesee_version` tells the archive's. */
#define PROPHESEE_RAW_VERSION 1

uint32_t prophesee_version(void);

/* ---- encodings and refusals */

#define PROPHESEE_EVT2 2u
#define PROPHESEE_EVT21 21u
#define PROPHESEE_EVT3 3u

#define PROPHESEE_ACCEPTED 0u
#define PROPHESEE_INVALID_SENSOR_SIZE 1u
#define PROPHESEE_UNKNOWN_ENCODING 2u
#define PROPHESEE_HEADER_NOT_ASCII 3u
#define PROPHESEE_TOO_LONG 4u
#define PROPHESEE_COLUMNS_TOO_SHORT 5u
#define PROPHESEE_TIME_ORDER 6u
#define PROPHESEE_EVENT_OUT_OF_RANGE 7u
#define PROPHESEE_INVALID_SPACING 8u
#define PROPHESEE_TOO_FEW_RECORDS 9u
#define PROPHESEE_STATE_OUT_OF_RANGE 10u
#define PROPHESEE_OUTPUT_TOO_SHORT 11u
#define PROPHESEE_COLUMN_LENGTHS 12u
#define PROPHESEE_TRIGGER_COLUMNS_TOO_SHORT 13u

static inline const char *prophesee_refusal_text(uint32_t refusal)
{
    switch (refusal) {
    case PROPHESEE_ACCEPTED: return "accepted";
    case PROPHESEE_INVALID_SENSOR_SIZE: return "width or height 0, or no size and no event";
    case PROPHESEE_UNKNOWN_ENCODING: return "no known encoding";
    case PROPHESEE_HEADER_NOT_ASCII: return "a header byte above 127";
    case PROPHESEE_TOO_LONG: return "over 2^30 bytes read, or over 2^28 events in one append";
    case PROPHESEE_COLUMNS_TOO_SHORT: return "more events than the shortest column holds";
    case PROPHESEE_TIME_ORDER: return "a time below the one before";
    case PROPHESEE_EVENT_OUT_OF_RANGE: return "an event that its encoding cannot say";
    case PROPHESEE_INVALID_SPACING: return "a spacing that is no multiple of 4 (EVT2.1: of 8) from 4 to 4194304";
    case PROPHESEE_TOO_FEW_RECORDS: return "more checkpoints than lent records";
    case PROPHESEE_STATE_OUT_OF_RANGE: return "an index, a writer or a decoder out of range";
    case PROPHESEE_OUTPUT_TOO_SHORT: return "an output shorter than the bytes to write";
    case PROPHESEE_COLUMN_LENGTHS: return "appended columns that differ in length";
    case PROPHESEE_TRIGGER_COLUMNS_TOO_SHORT: return "more triggers than their shortest column holds";
    default: return "no refusal of this version";
    }
}

/* ---- how long buffers must be, so that 5, 9, 11 and 13 never come */

/* The bytes of a word. */
static inline size_t prophesee_word_size(uint32_t encoding)
{
    switch (encoding) {
    case PROPHESEE_EVT2: return 4;
    case PROPHESEE_EVT21: return 8;
    default: return 2;
    }
}

/* The most events of `bytes` bytes of words: a word of EVT2 holds one, one of EVT2.1 up to 32, one of
 * EVT3 up to 12. */
static inline size_t prophesee_most_events(uint32_t encoding, size_t bytes)
{
    switch (encoding) {
    case PROPHESEE_EVT2: return bytes / 4;
    case PROPHESEE_EVT21: return bytes / 8 * 32;
    default: return bytes / 2 * 12;
    }
}

/* The most triggers of `bytes` bytes of words: a word holds at most one. */
static inline size_t prophesee_most_triggers(uint32_t encoding, size_t bytes)
{
    return bytes / prophesee_word_size(encoding);
}

/* The records of an index over `bytes` bytes at a spacing (not 0). For a body shorter than `bytes`: at
 * least as many. */
static inline size_t prophesee_most_records(size_t bytes, size_t spacing)
{
    return bytes == 0 ? 1 : (bytes - 1) / spacing + 1;
}

/* The most bytes of an append of `events` events by a writer whose header isn't due, and of one whose
 * header is, in any encoding: 16 for an event of EVT2.1, no more than 8 for one of EVT2 and EVT3, and in
 * EVT3 4 for each loop that is passed, of which there are at most 1,023. */
static inline size_t prophesee_most_bytes(size_t events)
{
    return events * 16 + 4 * 1023;
}

static inline size_t prophesee_most_bytes_with_header(size_t events)
{
    return prophesee_most_bytes(events) + 96;
}

/* ---- numbers */

/* A decimal number, as the halves of a header's `geometry` are once blanks are trimmed: a `+` or none, then
 * one or more digits, with a value below 2^64. `valid` 1: the text is one. 0: it is none, and `place` is
 * that of the first byte that can't belong, or of the digit with which the value passes 2^64 - 1, or the
 * length where the text ends without a digit. What stands before the place begins some number, and with
 * the byte there none; bytes behind it aren't read. */
typedef struct {
    size_t value;  /* of a number */
    size_t place;  /* counted from the text's first byte */
    uint8_t valid; /* 1 or 0 */
} prophesee_number;

prophesee_number prophesee_read_number(const uint8_t *text, size_t text_len);

/* ---- reading */

/* The header of a recording: its first lines that begin with `%`, through a line `% end` if there is
 * one. 4, 3, 2, 1 for a zero size; the first that applies. `sized` 0: no size is given (the header may
 * tell one), else it is width x height and overrides the header's. */
typedef struct {
    uint32_t refusal;
    uint32_t encoding;
    size_t data_offset; /* where the body begins */
    size_t width;       /* where a size is known */
    size_t height;
    uint8_t sized;      /* 1 where a size is known, else 0 */
} prophesee_header;

prophesee_header prophesee_parse_header(
    const uint8_t *recording, size_t recording_len, uint8_t sized, size_t width, size_t height);

/* `sized` as above. `limited` 0: all events, else the first `max_events`. All zeros: neither. */
typedef struct {
    size_t width;
    size_t height;
    size_t max_events;
    uint8_t sized;
    uint8_t limited;
} prophesee_options;

/* `count` is how many events stand at the front of the columns. Without a size, width and height are
 * the largest column and row read, plus 1 each. */
typedef struct {
    uint32_t refusal;
    uint32_t encoding;
    size_t told;
    size_t width;
    size_t height;
    size_t count;
} prophesee_reading;

/* A recording, with its header: 4, 3, 2, 1 for a zero size, 1 for no event, 5. */
prophesee_reading prophesee_read_raw(
    const uint8_t *recording, size_t recording_len, prophesee_options options,
    uint16_t *xs, size_t xs_len, uint16_t *ys, size_t ys_len,
    int64_t *ts, size_t ts_len, uint8_t *ps, size_t ps_len);

/* Words without a header, of an encoding that the caller names: 4, 2 for an unknown one, 1 for a zero
 * size, 1 for no event, 5. */
prophesee_reading prophesee_decode_words(
    const uint8_t *words, size_t words_len, uint32_t encoding, prophesee_options options,
    uint16_t *xs, size_t xs_len, uint16_t *ys, size_t ys_len,
    int64_t *ts, size_t ts_len, uint8_t *ps, size_t ps_len);

/* ---- reading with triggers
 *
 * Triggers are pulses on the camera's trigger input. They come beside the events, in the order of their
 * words, and change nothing about them: the same events are read as without triggers, and a trigger
 * takes no event's number. One before the first time word is dropped. A size drops none: a trigger lies
 * nowhere on the sensor. A limit ends the triggers too: where `max_events` events or more are kept, only
 * triggers of words before the one that holds the last event handed over are given, with a limit of 0
 * none; where fewer are kept, all. Slices give none, and an index doesn't hold them. */

/* `count` is how many events stand at the front of their four columns, `triggers` how many triggers at
 * the front of their three. `told` is in events for a 5, in triggers for a 13. The others are as without
 * triggers. */
typedef struct {
    uint32_t refusal;
    uint32_t encoding;
    size_t told;
    size_t width;
    size_t height;
    size_t count;
    size_t triggers;
} prophesee_trigger_reading;

/* A recording, with its header: 4, 3, 2, 1 for a zero size, 1 for no event (triggers alone give no size),
 * 5, 13. A refusal leaves all seven columns alone. */
prophesee_trigger_reading prophesee_read_raw_triggers(
    const uint8_t *recording, size_t recording_len, prophesee_options options,
    uint16_t *xs, size_t xs_len, uint16_t *ys, size_t ys_len,
    int64_t *ts, size_t ts_len, uint8_t *ps, size_t ps_len,
    int64_t *trigger_ts, size_t trigger_ts_len, uint8_t *trigger_ids, size_t trigger_ids_len,
    uint8_t *trigger_values, size_t trigger_values_len);

/* Words without a header, of an encoding that the caller names: 4, 2 for an unknown one, 1 for a zero
 * size, 1 for no event, 5, 13. */
prophesee_trigger_reading prophesee_decode_words_triggers(
    const uint8_t *words, size_t words_len, uint32_t encoding, prophesee_options options,
    uint16_t *xs, size_t xs_len, uint16_t *ys, size_t ys_len,
    int64_t *ts, size_t ts_len, uint8_t *ps, size_t ps_len,
    int64_t *trigger_ts, size_t trigger_ts_len, uint8_t *trigger_ids, size_t trigger_ids_len,
    uint8_t *trigger_values, size_t trigger_values_len);

/* ---- indexes */

/* `sized` as above; a checkpoint at every `spacing` bytes of the body: a multiple of 4 (EVT2.1: of 8) from
 * 4 to 4,194,304. */
typedef struct {
    size_t width;
    size_t height;
    size_t spacing;
    uint8_t sized;
} prophesee_open_options;

/* An index but for its records: they stand at the front of the records lent to opening. */
typedef struct {
    size_t records; /* how many */
    size_t spacing;
    size_t data_offset;
    size_t len;     /* of the recording */
    size_t width;
    size_t height;
    size_t n_events;
    uint32_t encoding;
} prophesee_source;

typedef struct {
    prophesee_source source;
    size_t told;
    uint32_t refusal;
} prophesee_opening;

/* A record: where it stands, the events counted before it, their greatest time, and the decoder there.
 * `initialised` and `polarity` are 0 or 1. In EVT2 and EVT2.1 `y`, `base_x` and `polarity` are 0. */
typedef struct {
    uint64_t byte_offset;
    uint64_t event_index;
    uint64_t time;
    uint64_t initialised;
    uint64_t time_base;
    uint64_t decoder_time;
    uint64_t high_loops;
    uint64_t y;
    uint64_t base_x;
    uint64_t polarity;
} prophesee_record;

/* Makes the index of a recording: 4, 3, 2, 1 for a zero size, 8, 9, 1 for no event. */
prophesee_opening prophesee_open(
    const uint8_t *recording, size_t recording_len,
    prophesee_record *records, size_t records_len, prophesee_open_options options);

/* Words without a header: 4, 2 for an unknown encoding, 1 for a zero size, 8, 9, 1 for no event. */
prophesee_opening prophesee_open_words(
    const uint8_t *words, size_t words_len, uint32_t encoding,
    prophesee_record *records, size_t records_len, prophesee_open_options options);

/* ---- slices: 4, 1, 8, 10, 5. The records are the index's, as opening left them; records behind
 * `source.records` aren't looked at. 10: an index that opening could not have made, such as one of an
 * unknown encoding, with fewer records lent than `source.records`, a flag above 1, a row above 2047 or
 * a base column above 65,535 (docs/RULES.md, T-3 and T-5). */

typedef struct {
    size_t told;
    size_t count;
    uint32_t refusal;
} prophesee_slice;

/* The events from number i0 to before i1, both clamped to the total. */
prophesee_slice prophesee_slice_index(
    const uint8_t *recording, size_t recording_len, prophesee_source source,
    const prophesee_record *records, size_t records_len, size_t i0, size_t i1,
    uint16_t *xs, size_t xs_len, uint16_t *ys, size_t ys_len,
    int64_t *ts, size_t ts_len, uint8_t *ps, size_t ps_len);

/* The events with t0 <= t < t1. Where a recording's times step back: those of them that are read from
 * the last record whose time is below t0, up to the first word that brings the time to t1 or more. */
prophesee_slice prophesee_slice_time(
    const uint8_t *recording, size_t recording_len, prophesee_source source,
    const prophesee_record *records, size_t records_len, int64_t t0, int64_t t1,
    uint16_t *xs, size_t xs_len, uint16_t *ys, size_t ys_len,
    int64_t *ts, size_t ts_len, uint8_t *ps, size_t ps_len);

/* ---- writing */

/* A writer. The last time, the halves of the time and the row that were sent are 0 where their flag
 * `has_..` is 0. Each flag is 0 or 1. `time_high` is the time divided by 64, in EVT3 by 4,096, with its
 * loops; a resumed writer holds it without a last time. 10 for a writer out of range (docs/RULES.md, T-4
 * and T-5). */
typedef struct {
    size_t n_events;
    int64_t last_t;
    uint64_t time_high;
    uint64_t time_low;
    uint64_t y;
    uint32_t encoding;
    uint8_t header_written;
    uint8_t has_last_t;
    uint8_t has_time_high;
    uint8_t has_time_low;
    uint8_t has_y;
} prophesee_sink;

/* A fresh writer; `header` is a flag: it sends a header before its first words. A writer of an unknown
 * encoding accepts nothing (10). */
prophesee_sink prophesee_writer(uint32_t encoding, uint8_t header);

/* `sink` is the writer for the next append: refused, the one that was given, unaltered. `written` is
 * how many bytes stand at the front of the output. */
typedef struct {
    prophesee_sink sink;
    size_t told;
    size_t written;
    uint32_t refusal;
} prophesee_appended;

/* Appends events: 10, 12, 4, 6, 7, 11. Width and height are those that a header due tells: with a size
 * that covers all events a recording that breaks off behind its header is read whole up to there, with
 * no size given, and goes on with the words of the writer that is resumed from what is left. */
prophesee_appended prophesee_append(
    prophesee_sink sink, size_t width, size_t height,
    const uint16_t *xs, size_t xs_len, const uint16_t *ys, size_t ys_len,
    const int64_t *ts, size_t ts_len, const uint8_t *ps, size_t ps_len,
    uint8_t *output, size_t output_len);

/* A writer that goes on behind what is left of a stream, by the decoder after its whole words: it holds
 * the coarse time, with its loops, has sent no low half and no row, has no last time and a count of 0, and
 * sends no header. Where no word has told a time it is a fresh writer that sends no header. A broken last
 * word has to go before its words follow. Until it has a last time, an event below the coarse time gets 6;
 * one before the last event that is left may be accepted, so append just those that are missing. Refused,
 * `sink` is a fresh writer of that encoding that sends no header, also of an unknown one. 10 here: a coarse
 * time of 2^34 or more. `prophesee_resume` takes a decoder that the caller has. */
typedef struct {
    prophesee_sink sink;
    uint32_t refusal;
} prophesee_resumed;

/* Words without a header, of an encoding that the caller names: 4, 2 for an unknown one, 10. */
prophesee_resumed prophesee_resume_words(const uint8_t *words, size_t words_len, uint32_t encoding);

/* A recording, with its header: 4, 3, 2, 10; after 4, 3 or 2 `sink` is of EVT2. No size is asked for. */
prophesee_resumed prophesee_resume_raw(const uint8_t *recording, size_t recording_len);

/* ---- single words */

/* A decoder. `initialised` and `polarity` are 0 or 1. In EVT2 and EVT2.1 `y`, `base_x` and `polarity` are 0. */
typedef struct {
    uint64_t time_base;
    uint64_t time;
    uint64_t high_loops;
    uint32_t encoding;
    uint16_t y;
    uint16_t base_x;
    uint8_t initialised;
    uint8_t polarity;
} prophesee_decoder;

/* The events of a word: bit i of `mask` stands for one at column x + i (at most 65,535), the lowest
 * bit first. */
typedef struct {
    int64_t t;
    uint32_t mask;
    uint16_t x;
    uint16_t y;
    uint8_t p;
} prophesee_vector;

typedef struct {
    prophesee_decoder decoder;
    prophesee_vector events;
    uint32_t refusal;
} prophesee_decoded;

typedef struct {
    prophesee_decoder decoder;
    uint32_t refusal;
} prophesee_stepped;

typedef struct {
    int64_t t;
    uint16_t x;
    uint16_t y;
    uint8_t p;
} prophesee_event;

/* `some` 1: `event` is the vector's first event, and `rest` the vector without it. 0: it has none. */
typedef struct {
    prophesee_vector rest;
    prophesee_event event;
    uint8_t some;
} prophesee_next;

/* A fresh decoder. One of an unknown encoding decodes nothing (10). */
prophesee_decoder prophesee_new_decoder(uint32_t encoding);

/* The first word of `bytes`: the decoder after it and its events; bytes behind it aren't read, and fewer
 * bytes than a word do nothing. A decoder out of range (docs/RULES.md, T-2 and T-5) gets 10 and is
 * returned as it was. */
prophesee_decoded prophesee_decode(prophesee_decoder decoder, const uint8_t *bytes, size_t bytes_len);

prophesee_next prophesee_next_event(prophesee_vector events);

/* The decoder after all whole words of `words`: 4, 10; refused, the one that was given. */
prophesee_stepped prophesee_decoder_after(prophesee_decoder decoder, const uint8_t *words, size_t words_len);

/* The decoder after all whole words of a recording's body, from a fresh one of the header's encoding: 4, 3,
 * 2; refused, a fresh one of EVT2. No size is asked for. */
prophesee_stepped prophesee_decoder_after_raw(const uint8_t *recording, size_t recording_len);

/* The writer that goes on behind the words of a decoder (`prophesee_resumed`): 10 for a decoder out of range
 * too, which may be one of an unknown encoding. */
prophesee_resumed prophesee_resume(prophesee_decoder decoder);

/* `some` 1: the trigger of a word. 0: the word has none. */
typedef struct {
    int64_t t;
    uint32_t refusal;
    uint8_t id;    /* up to 31 in EVT2 and EVT2.1, up to 15 in EVT3 */
    uint8_t value; /* 0 or 1 */
    uint8_t some;
} prophesee_trigger;

/* The trigger of the first word of `bytes`, by the decoder before that word, which it doesn't step
 * (`prophesee_decode` does); bytes behind the word aren't read, and fewer bytes than a word have none. 10
 * as for `prophesee_decode`. */
prophesee_trigger prophesee_word_trigger(prophesee_decoder decoder, const uint8_t *bytes, size_t bytes_len);

/* ---- what this file takes for granted */

PROPHESEE_ASSERT(sizeof(size_t) == 8);
PROPHESEE_ASSERT(sizeof(prophesee_number) == 24 && offsetof(prophesee_number, valid) == 16);
PROPHESEE_ASSERT(sizeof(prophesee_header) == 40 && offsetof(prophesee_header, sized) == 32);
PROPHESEE_ASSERT(sizeof(prophesee_options) == 32 && offsetof(prophesee_options, limited) == 25);
PROPHESEE_ASSERT(sizeof(prophesee_reading) == 40 && offsetof(prophesee_reading, count) == 32);
PROPHESEE_ASSERT(sizeof(prophesee_trigger_reading) == 48 && offsetof(prophesee_trigger_reading, triggers) == 40);
PROPHESEE_ASSERT(sizeof(prophesee_open_options) == 32 && offsetof(prophesee_open_options, sized) == 24);
PROPHESEE_ASSERT(sizeof(prophesee_source) == 64 && offsetof(prophesee_source, encoding) == 56);
PROPHESEE_ASSERT(sizeof(prophesee_opening) == 80 && offsetof(prophesee_opening, refusal) == 72);
PROPHESEE_ASSERT(sizeof(prophesee_record) == 80 && offsetof(prophesee_record, polarity) == 72);
PROPHESEE_ASSERT(sizeof(prophesee_slice) == 24 && offsetof(prophesee_slice, refusal) == 16);
PROPHESEE_ASSERT(sizeof(prophesee_sink) == 56 && offsetof(prophesee_sink, has_y) == 48);
PROPHESEE_ASSERT(sizeof(prophesee_appended) == 80 && offsetof(prophesee_appended, refusal) == 72);
PROPHESEE_ASSERT(sizeof(prophesee_resumed) == 64 && offsetof(prophesee_resumed, refusal) == 56);
PROPHESEE_ASSERT(sizeof(prophesee_decoder) == 40 && offsetof(prophesee_decoder, polarity) == 33);
PROPHESEE_ASSERT(sizeof(prophesee_vector) == 24 && offsetof(prophesee_vector, p) == 16);
PROPHESEE_ASSERT(sizeof(prophesee_decoded) == 72 && offsetof(prophesee_decoded, refusal) == 64);
PROPHESEE_ASSERT(sizeof(prophesee_stepped) == 48 && offsetof(prophesee_stepped, refusal) == 40);
PROPHESEE_ASSERT(sizeof(prophesee_event) == 16 && offsetof(prophesee_event, p) == 12);
PROPHESEE_ASSERT(sizeof(prophesee_next) == 48 && offsetof(prophesee_next, some) == 40);
PROPHESEE_ASSERT(sizeof(prophesee_trigger) == 16 && offsetof(prophesee_trigger, some) == 14);

#undef PROPHESEE_ASSERT

#ifdef __cplusplus
}
#endif

#endif
