/* Records: from the bytes of one record to the session's step and its
 * answer, and from an answer to the printed line. Framing is done by the
 * source; what arrives here has a length of 2 to 4,096. */
#ifndef RECORDS_H
#define RECORDS_H

#include <stdint.h>

#include "session.h"
#include "stream.h"

enum kind {
    KIND_OPEN = 1,
    KIND_RULE = 2,
    KIND_WISH = 3,
    KIND_DERIVE = 4,
    KIND_CORE = 5,
    KIND_JUDGE = 6
};

/* A payload cut into its parts; which parts count depends on the kind. */
enum {
    PAYLOAD_LITERALS = PAYLOAD_GREATEST / 4,
    PAYLOAD_HINTS = PAYLOAD_GREATEST / 8
};
struct parts {
    uint32_t number; /* open: n; wish: weight; core: derived number */
    uint32_t count;
    uint32_t hint_count;
    int32_t literals[PAYLOAD_LITERALS];
    struct hint hints[PAYLOAD_HINTS];
};

/* False when the payload does not have the form of its kind. The form of
 * kind 6 depends on the session's n and is looked at separately. */
bool cut_payload(uint32_t kind, const uint8_t *payload, uint32_t length, struct parts *parts);
bool arrangement_has_form(uint32_t variables, const uint8_t *payload, uint32_t length);

/* Answers a framed record, `bytes` from its kind on. */
struct answer answer_record(struct session *session, const uint8_t *bytes, uint32_t length);

/* A record and its answer. With 10 there is no record: its bytes, as far as
 * they are there, are the source's rest. */
struct answered {
    uint64_t place; /* from 1 */
    uint32_t kind;
    uint32_t length;
    const uint8_t *record;
    struct answer answer;
    const struct session *session; /* as it is behind the answer */
    struct source *source;
};

/* The most bytes a line can take, and the writing of one without its end;
 * returns how many bytes were written. */
enum { LINE_BYTES = 80 };
size_t line_text(char *start, const struct answered *answered);

/* Writes what is to be said of an answered record. */
typedef void teller(struct sink *sink, const struct answered *answered);

/* Answers the records of a source, from a fresh session to the source's end
 * or a broken frame, and has each told. It stands here in full so that a plain
 * run, whose speed is measured, is compiled with its own way of telling. */
static inline void tell_records(struct source *source, struct sink *sink, teller *tell)
{
    static struct session session;
    struct answered now = { .session = &session, .source = source };
    enum frame frame;

    session_clear(&session);
    while ((frame = source_next(source, &now.record, &now.length)) == FRAME_RECORD) {
        now.place++;
        now.kind = get_2(now.record);
        now.answer = answer_record(&session, now.record, now.length);
        tell(sink, &now);
    }
    if (frame == FRAME_BROKEN) {
        now.place++;
        now.kind = 0;
        now.answer = refuse(BAD_FRAME);
        tell(sink, &now);
    }
}

/* The same, told by the answer lines alone. */
void run_records(struct source *source, struct sink *sink);

#endif
