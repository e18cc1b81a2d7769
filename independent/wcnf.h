/* The older WCNF text: from a sheet's bytes to records, or to a refusal and
 * the position of the fault. */
#ifndef WCNF_H
#define WCNF_H

#include <stddef.h>
#include <stdint.h>

#include "sizes.h"

struct sheet_answer {
    uint32_t number;
    size_t position;
    size_t length;
};

/* More than the records of any sheet can take: no clause of k literals grows
 * to more than 10 + 4k bytes out of the 4 + 2k it needs at least. */
enum { SHEET_RECORD_ROOM = 4 * TEXT_GREATEST };

/* Fills the room with the records and zeros behind them; on refusal with
 * zeros only. */
struct sheet_answer read_sheet(const uint8_t *text, size_t length,
                               uint8_t *room, size_t room_length);

#endif
