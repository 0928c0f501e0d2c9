/* Whether two accounts are the same, field by field. */
#ifndef LOKHAZIM_TESTS_SAME_H
#define LOKHAZIM_TESTS_SAME_H

#include "lokhazim.h"

static int same(const struct lokhazim_accounts *a, const struct lokhazim_accounts *b)
{
    int equal = a->last_serial == b->last_serial && a->kind == b->kind && a->edition == b->edition;
    for (int i = 0; i < LOKHAZIM_QUOTAS; i++) {
        equal &= a->quotas[i].grant == b->quotas[i].grant;
        equal &= a->quotas[i].remainder == b->quotas[i].remainder;
        equal &= a->quotas[i].permissions == b->quotas[i].permissions;
    }
    for (int i = 0; i < LOKHAZIM_HOLDS; i++) {
        equal &= a->holds[i].serial == b->holds[i].serial;
        equal &= a->holds[i].quota == b->holds[i].quota;
        equal &= a->holds[i].count == b->holds[i].count;
    }
    return equal;
}

#endif
