"""The model's answers to the cases of docs/VECTORS.md, as text."""
import header
import index
import reading
import words
import writer
from number import read_number
from refusal import Refused


def bytes_of(text):
    """HEX, `-` for none, or HEX*K*N: the last K bytes come again and again until there are N."""
    start, _, repeated = text.partition('*')
    data = b'' if start == '-' else bytes.fromhex(start)
    if repeated:
        back, length = map(int, repeated.split('*'))
        data = (data + data[-back:] * (length // back + 1))[:length]
    return data


def size_of(text):
    return None if text == '-' else tuple(map(int, text.split('x')))


def limit_of(text):
    return None if text == '-' else int(text)


def rooms_of(text):
    rooms = tuple(map(int, text.split(',')))
    return rooms * 4 if len(rooms) == 1 else rooms


def encoded(text):
    """The encoding and the rest of `ENCODING:REST`."""
    encoding, rest = text.split(':')
    return int(encoding), rest


def fields_of(state):
    """The numbers of a decoder, in the order of `words.Decoder.fields`."""
    encoding, rest = encoded(state)
    numbers = list(map(int, rest.split(',')))
    started, coarse, time = numbers[:3]
    row, base, polarity = numbers[3:6] if encoding == 3 else (0, 0, 0)
    return coarse, time, numbers[-1], encoding, row, base, started, polarity


def state_text(fields):
    coarse, time, loops, encoding, row, base, started, polarity = fields
    place = f'{row},{base},{polarity},' if encoding == 3 else ''
    return f'{encoding}:{started},{coarse},{time},{place}{loops}'


def events_text(events):
    return ''.join(f' {t},{x},{y},{p}' for x, y, t, p in events)


def steps(state, text, only_first):
    """A step for each whole word, or one over all the bytes; each wants the decoder in range."""
    fields, data, events = fields_of(state), bytes_of(text), []
    size = words.DECODERS[fields[3]].SIZE
    for at in [0] if only_first else range(0, len(data) - size + 1, size):
        decoder, here, _ = words.first_word(fields, data[at:])
        fields = decoder.fields()
        events += here
    return f'{state_text(fields)} {len(events)} :{events_text(events)}'


def header_of(h):
    return f'EVT{h.encoding} {h.body} ' + ('-' if h.size is None else '%dx%d' % h.size)


def header_text(size, data):
    return header_of(header.parse_header(bytes_of(data), size_of(size)))


def reading_text(r):
    return f'EVT{r.encoding} {r.width} {r.height} {len(r.events)} :{events_text(r.events)}'


def source_text(source, records):
    parts = [f'{source.encoding}:' + ','.join(map(str, source[1:])), f'{len(records)} :']
    return ' '.join(parts + [f'{r.offset}/{r.events}/{r.time}/{state_text(r.decoder)}' for r in records])


def source_of(text):
    encoding, rest = encoded(text)
    return index.Source(encoding, *map(int, rest.split(',')))


def records_of(text):
    parts = [] if text == '-' else [r.split('/') for r in text.split('+')]
    return [index.Record(int(offset), int(events), int(time), fields_of(state)) for offset, events, time, state in parts]


def slice_text(source, records, room, query, data):
    """One query's answer."""
    kind, start, end = query.split(':')
    call = index.slice_index if kind == 'n' else index.slice_time
    return told(lambda: slice_events(call(data, source, records, int(start), int(end), room)))


def slice_events(events):
    return f'ok {len(events)} :{events_text(events)}'


def slices(source, records, room, queries, data):
    source, records, room, data = source_of(source), records_of(records), rooms_of(room), bytes_of(data)
    return 'ok | ' + ' | '.join(slice_text(source, records, room, query, data) for query in queries.split(';'))


# ---- the writer

def sink_of(text):
    """`21:sent,count,last,high,low,row`, or a fresh writer: `21n` without a header, `21h` with one."""
    if ':' not in text:
        return writer.fresh(int(text[:-1]), text[-1] == 'h')
    encoding, rest = encoded(text)
    sent, count, *held = [None if n == '-' else int(n) for n in rest.split(',')]
    return writer.Sink(encoding, sent, count, *held)


def sink_text(sink):
    return f'{sink.encoding}:' + ','.join('-' if n is None else str(n) for n in sink[1:])


def column_of(text):
    return tuple(map(int, text.split(','))) if text else ()


def appends(sink, *texts):
    """Each append gets the writer that the last one returned; a refused one returns it as it was."""
    sink, parts = sink_of(sink), ['ok']
    for text in texts:
        size, room, *columns = text.split(':')
        try:
            out, sink = writer.append(sink, size_of(size), tuple(map(column_of, columns)), int(room))
            parts.append(f'{out.hex() or "-"} {sink_text(sink)}')
        except Refused as refused:
            parts.append(f'{refusal_text(refused)} {sink_text(sink)}')
    return ' | '.join(parts)


def resumed_text(answer):
    """The writer that is told, behind the refusal if there is one."""
    number, sink = answer
    return (f'refused {number} ' if number else 'ok ') + sink_text(sink)


def resume(state):
    return resumed_text(writer.resumed(lambda: writer.resume(fields_of(state)), encoded(state)[0]))


def resume_words(encoding, text):
    return resumed_text(writer.resumed(lambda: writer.resume_words(int(encoding), bytes_of(text)), int(encoding)))


def resume_raw(text):
    data = bytes_of(text)
    return resumed_text(writer.resumed(lambda: writer.resume_raw(data), writer.encoding_left(data)))


def after_raw(text):
    """Refused, a fresh decoder of EVT2 is told."""
    try:
        return 'ok ' + state_text(words.decoder_after_raw(bytes_of(text)).fields())
    except Refused as refused:
        return f'{refusal_text(refused)} {state_text(words.DECODERS[2]().fields())}'


def number_text(number):
    return f'value {number.value}' if number.place is None else f'place {number.place}'


def lengths(text):
    writer.check_lengths(list(map(int, text.split(','))))
    return 'ok'


def refusal_text(refused):
    return f'refused {refused.number}' + (f' {refused.told}' if refused.number in (5, 9, 11, 13) else '')


def told(answered):
    try:
        return answered()
    except Refused as refused:
        return refusal_text(refused)


COMMANDS = {
    'step': lambda state, data: 'ok ' + steps(state, data, False),
    'word': lambda state, data: 'ok ' + steps(state, data, True),
    'hdr': lambda size, data: 'ok ' + header_text(size, data),
    'read': lambda size, limit, room, data: 'ok ' + reading_text(
        reading.read_raw(bytes_of(data), size_of(size), limit_of(limit), rooms_of(room))),
    'words': lambda encoding, size, limit, room, data: 'ok ' + reading_text(
        reading.decode_words(bytes_of(data), int(encoding), size_of(size), limit_of(limit), rooms_of(room))),
    'open': lambda size, spacing, room, data: 'ok ' + source_text(*index.open_raw(bytes_of(data), size_of(size), int(spacing), int(room))),
    'openw': lambda encoding, size, spacing, room, data: 'ok ' + source_text(
        *index.open_words(bytes_of(data), int(encoding), size_of(size), int(spacing), int(room))),
    'slice': slices,
    'write': appends,
    'lengths': lengths,
    'resume': resume,
    'resumew': resume_words,
    'resumer': resume_raw,
    'after': after_raw,
    'number': lambda text: number_text(read_number(bytes_of(text))),
}
WITH_HEADER = 'hdr', 'read', 'open', 'resumer', 'after'


def answer(words_of_case):
    """The model's answer to a case, given as the text behind its name."""
    command, *arguments = words_of_case.split()
    return told(lambda: COMMANDS[command](*arguments))
