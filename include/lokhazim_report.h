/*
 * Lokhazim: grants from the linker's audit report. The report shows each quota as a line of six
 * words: eight lower-case hexadecimal digits each, single spaces between them, and a line feed
 * behind the last. The first word is the grant, the others are zero.
 *
 * A text of such lines, at most one for each quota, becomes the grants that lokhazim_heap_open
 * takes, and grants become such a text:
 *
 *     struct lokhazim_grants grants;
 *     uint32_t line;
 *     if (lokhazim_report_import(text, length, &grants, &line)) { ... line `line` is bad ... }
 *
 * The functions keep no pointer and take any bytes. Text and grants don't overlap.
 */
#ifndef LOKHAZIM_REPORT_H
#define LOKHAZIM_REPORT_H

#include "lokhazim.h"

/* The length of a line with its line feed, and of a text with a line for each quota. */
#define LOKHAZIM_REPORT_LINE 54
#define LOKHAZIM_REPORT_LENGTH 1728

/* The library's own structs and functions. */
struct lokhazim_import_reply {
    struct lokhazim_grants grants;
    uint32_t refusal;
    uint32_t line;
};
struct lokhazim_export_reply {
    uint32_t refusal;
    size_t length;
};

LOKHAZIM_ASSERT(LOKHAZIM_REPORT_LENGTH == LOKHAZIM_QUOTAS * LOKHAZIM_REPORT_LINE,
                "a report has a line for each quota");
LOKHAZIM_LAYOUT(lokhazim_import_reply, 136, line, 132);
LOKHAZIM_LAYOUT(lokhazim_export_reply, 2 * sizeof(size_t), length, sizeof(size_t));

LOKHAZIM_API struct lokhazim_import_reply lokhazim_raw_report_import(const uint8_t *text,
    size_t length);
LOKHAZIM_API struct lokhazim_export_reply lokhazim_raw_report_export(uint8_t *text, size_t length,
    struct lokhazim_grants grants);

/* Reads the lines of a text into *grants, for the quotas from 0 on; quotas without a line get 0.
 * Where it is refused, *grants stays, and *line, if it is not null, becomes the number of the first
 * bad line, from 1, else 0. Refusals 100, 31, 32, 33, of the first bad line. */
LOKHAZIM_CALL lokhazim_report_import(const char *text, size_t length,
    struct lokhazim_grants *grants, uint32_t *line)
{
    const int usable = text && grants;
    struct lokhazim_import_reply reply = { { { 0 } }, LOKHAZIM_BAD_POINTER, 0 };
    if (usable) {
        reply = lokhazim_raw_report_import((const uint8_t *)text, length);
    }
    if (usable && reply.refusal == LOKHAZIM_ACCEPTED) {
        *grants = reply.grants;
    }
    if (line) {
        *line = reply.line;
    }
    return (enum lokhazim_refusal)reply.refusal;
}

/* Writes *grants as LOKHAZIM_REPORT_LENGTH characters to the front of a text; bytes behind them
 * stay. No zero byte is added. Where it is refused, nothing is written. Refusals 100, 34. */
LOKHAZIM_CALL lokhazim_report_export(char *text, size_t length,
    const struct lokhazim_grants *grants)
{
    struct lokhazim_export_reply reply = { LOKHAZIM_BAD_POINTER, 0 };
    if (text && grants) {
        reply = lokhazim_raw_report_export((uint8_t *)text, length, *grants);
    }
    return (enum lokhazim_refusal)reply.refusal;
}

#endif
