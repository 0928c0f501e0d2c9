/* The functions of lokhazim_report.h, over those of the proved module (port/core.h). Only arguments and answers are handed on. */
#include "core.h"
#include "lokhazim_report.h"

void lokhazim_core_raw_report_import(struct lokhazim_import_reply *, const uint8_t *, uint64_t);
struct lokhazim_import_reply lokhazim_raw_report_import(const uint8_t *text, size_t length)
{
    struct lokhazim_import_reply reply;
    lokhazim_core_raw_report_import(&reply, text, length);
    return reply;
}

void lokhazim_core_raw_report_export(struct core_written *, const uint8_t *, uint64_t, const struct lokhazim_grants *);
struct lokhazim_export_reply lokhazim_raw_report_export(uint8_t *text, size_t length, struct lokhazim_grants grants)
{
    struct core_written core;
    lokhazim_core_raw_report_export(&core, text, length, &grants);
    const struct lokhazim_export_reply reply = { core.refusal, (size_t)core.length };
    return reply;
}
