/* The six kinds of record. Refusals are looked for in rising order: kind,
 * moment and form here, the others inside the session's steps. */
#include "records.h"

static void cut_literals(const uint8_t *bytes, uint32_t count, struct parts *parts)
{
    parts->count = count;
    for (uint32_t place = 0; place < count; place++)
        parts->literals[place] = (int32_t)get_4(bytes + 4 * place);
}

static bool cut_derive(const uint8_t *payload, uint32_t length, struct parts *parts)
{
    if (length < 4)
        return false;
    /* Compared by division: the number of literals may be anything. */
    uint32_t count = get_4(payload);
    if (count > (length - 4) / 4)
        return false;
    uint32_t left = length - 4 - 4 * count;
    if (left % 8 != 0)
        return false;
    cut_literals(payload + 4, count, parts);
    parts->hint_count = left / 8;
    const uint8_t *bytes = payload + 4 + 4 * count;
    for (uint32_t place = 0; place < parts->hint_count; place++, bytes += 8) {
        parts->hints[place].family = (uint16_t)get_2(bytes);
        parts->hints[place].first = (uint16_t)get_2(bytes + 2);
        parts->hints[place].second = get_4(bytes + 4);
    }
    return true;
}

bool cut_payload(uint32_t kind, const uint8_t *payload, uint32_t length, struct parts *parts)
{
    switch (kind) {
    case KIND_OPEN:
    case KIND_CORE:
        if (length != 4)
            return false;
        parts->number = get_4(payload);
        return true;
    case KIND_RULE:
        if (length % 4 != 0)
            return false;
        cut_literals(payload, length / 4, parts);
        return true;
    case KIND_WISH:
        if (length < 4 || length % 4 != 0)
            return false;
        parts->number = get_4(payload);
        cut_literals(payload + 4, length / 4 - 1, parts);
        return true;
    case KIND_DERIVE:
        return cut_derive(payload, length, parts);
    default:
        return kind == KIND_JUDGE;
    }
}

bool arrangement_has_form(uint32_t variables, const uint8_t *payload, uint32_t length)
{
    if (length != (variables + 7) / 8)
        return false;
    return variables % 8 == 0 || payload[length - 1] >> (variables % 8) == 0;
}

struct answer answer_record(struct session *session, const uint8_t *bytes, uint32_t length)
{
    struct parts parts;
    uint32_t kind = get_2(bytes);
    const uint8_t *payload = bytes + 2;
    uint32_t payload_length = length - 2;

    if (kind < KIND_OPEN || kind > KIND_JUDGE)
        return refuse(BAD_KIND);
    if ((kind == KIND_OPEN) == session->opened)
        return refuse(BAD_MOMENT);
    if (!cut_payload(kind, payload, payload_length, &parts))
        return refuse(BAD_FORM);
    switch (kind) {
    case KIND_OPEN:
        return session_open(session, parts.number);
    case KIND_RULE:
        return session_rule(session, parts.literals, parts.count);
    case KIND_WISH:
        return session_wish(session, parts.number, parts.literals, parts.count);
    case KIND_DERIVE:
        return session_derive(session, parts.literals, parts.count,
                              parts.hints, parts.hint_count);
    case KIND_CORE:
        return session_core(session, parts.number);
    default:
        if (!arrangement_has_form(session->variables, payload, payload_length))
            return refuse(BAD_FORM);
        return session_judge(session, payload);
    }
}

size_t line_text(char *start, const struct answered *answered)
{
    char *room = start;
    room += put_digits(room, answered->place);
    *room++ = ' ';
    room += put_digits(room, answered->kind);
    *room++ = ' ';
    room += put_digits(room, answered->answer.number);
    *room++ = ' ';
    room += put_digits(room, answered->answer.first);
    *room++ = ' ';
    room += put_digits(room, answered->answer.second);
    return (size_t)(room - start);
}

static void tell_line(struct sink *sink, const struct answered *answered)
{
    char *room = sink_room(sink, LINE_BYTES);
    size_t length = line_text(room, answered);
    room[length] = '\n';
    sink->used += length + 1;
}

void run_records(struct source *source, struct sink *sink)
{
    tell_records(source, sink, tell_line);
}
