#include "reports.h"

#include <stdio.h>

#include "refusals.h"
#include "status.h"
#include "store.h"

int say_reports(kamordast_scanned r, const char *refused_for) {
    if (r.refused) return refuse(refused_for, r.refused);
    for (uint32_t i = 0; i < r.reports; i++) printf("offset %u label %u\n", (unsigned)number32(room, 6 * (size_t)i), (unsigned)number16(room, 6 * (size_t)i + 4));
    printf("taken %u state %u reports %u hops %u\n", (unsigned)r.taken, (unsigned)r.state, (unsigned)r.reports, (unsigned)r.hops);
    return DONE;
}
