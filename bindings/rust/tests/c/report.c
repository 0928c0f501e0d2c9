/*
 * The audit report from C: grants go out and come back, a bad line is named and leaves the grants alone, and null
 * pointers are taken where the header says so.
 */
#include "check.h"
#include "lokhazim_report.h"

#include <string.h>

static const char two[] =
    "00001000 00000000 00000000 00000000 00000000 00000000\n"
    "ffffffff 00000000 00000000 00000000 00000000 00000000\n";

static char text[LOKHAZIM_REPORT_LENGTH + 1];

/* Two lines are two grants, and the quotas without a line get 0. */
static void read_two(void)
{
    struct lokhazim_grants grants;
    uint32_t line = 7;
    memset(&grants, 255, sizeof grants);
    CHECK(lokhazim_report_import(two, strlen(two), &grants, &line) == LOKHAZIM_ACCEPTED);
    CHECK(line == 0);
    CHECK(grants.values[0] == 4096);
    CHECK(grants.values[1] == UINT32_MAX);
    for (int i = 2; i < LOKHAZIM_QUOTAS; i++) {
        CHECK(grants.values[i] == 0);
    }
}

/* Every grant goes to its own line and back. */
static void out_and_back(void)
{
    struct lokhazim_grants grants;
    struct lokhazim_grants back;
    for (uint32_t i = 0; i < LOKHAZIM_QUOTAS; i++) {
        grants.values[i] = (i + 1) * UINT32_C(0x9E3779B1);
    }
    memset(text, '~', sizeof text);
    CHECK(lokhazim_report_export(text, sizeof text, &grants) == LOKHAZIM_ACCEPTED);
    CHECK(text[LOKHAZIM_REPORT_LENGTH] == '~');
    CHECK(text[LOKHAZIM_REPORT_LENGTH - 1] == '\n');
    CHECK(lokhazim_report_import(text, LOKHAZIM_REPORT_LENGTH, &back, NULL) == LOKHAZIM_ACCEPTED);
    CHECK(memcmp(&grants, &back, sizeof grants) == 0);
}

/* A bad line is named, and the grants stay. */
static void bad_lines(void)
{
    struct lokhazim_grants grants;
    struct lokhazim_grants before;
    uint32_t line;
    char bad[sizeof two];
    memset(&grants, 7, sizeof grants);
    before = grants;
    memcpy(bad, two, sizeof two);
    bad[LOKHAZIM_REPORT_LINE] = 'F';
    CHECK(lokhazim_report_import(bad, strlen(bad), &grants, &line) == LOKHAZIM_REPORT_CHARACTER);
    CHECK(line == 2);
    memcpy(bad, two, sizeof two);
    bad[52] = '1';
    CHECK(lokhazim_report_import(bad, strlen(bad), &grants, &line) == LOKHAZIM_REPORT_RESERVED);
    CHECK(line == 1);
    CHECK(lokhazim_report_import(text, sizeof text, &grants, &line) == LOKHAZIM_REPORT_TOO_MANY);
    CHECK(line == LOKHAZIM_QUOTAS + 1);
    CHECK(lokhazim_report_import(two, strlen(two) - 1, &grants, NULL) == LOKHAZIM_REPORT_CHARACTER);
    CHECK(memcmp(&grants, &before, sizeof grants) == 0);
}

/* Without room nothing is written. */
static void no_room(void)
{
    struct lokhazim_grants grants = { { 1 } };
    memset(text, '~', sizeof text);
    CHECK(lokhazim_report_export(text, LOKHAZIM_REPORT_LENGTH - 1, &grants) == LOKHAZIM_REPORT_ROOM);
    for (size_t i = 0; i < sizeof text; i++) {
        CHECK(text[i] == '~');
    }
}

int main(void)
{
    read_two();
    out_and_back();
    bad_lines();
    no_room();
    return EXIT_SUCCESS;
}
