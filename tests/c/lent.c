/* Memory that is lent to a call: see lent.h. */
#include "lent.h"
#include "host.h"
#include <string.h>

enum { GUARDS = LENT_GUARDS, GUARD = 0x5C };

void lent_open(struct lent *lent, size_t most) {
    lent->end = host_memory(GUARDS + most + GUARDS) + GUARDS + most + GUARDS;
    lent->at = NULL;
    lent->size = 0;
}

void *lend(struct lent *lent, size_t size, size_t below, int null) {
    lent->size = size;
    lent->at = size == 0 && null ? NULL : lent->end - below - size;
    if (lent->at != NULL) {
        memset(lent->at - GUARDS, GUARD, GUARDS);
        memset(lent->at + size, GUARD, below);
    }
    return lent->at;
}

static int all_guards(const uint8_t *from, const uint8_t *to) {
    while (from < to) {
        if (*from++ != GUARD) {
            return 0;
        }
    }
    return 1;
}

int lent_untouched(const struct lent *lent) {
    return lent->at == NULL ||
           (all_guards(lent->at - GUARDS, lent->at) && all_guards(lent->at + lent->size, lent->end));
}
