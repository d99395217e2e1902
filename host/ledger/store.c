#define _XOPEN_SOURCE 700
#include "store.h"

#include <inttypes.h>
#include <stdio.h>
#include <string.h>

void holders_write(const struct holder *holders, char text[HOLDERS])
{
    size_t at = 0;
    for (size_t i = 0; i < DESKS; i++)
        at += (size_t)snprintf(text + at, HOLDERS - at, "%s %" PRId64 " %" PRIu64 "\n", holders[i].who[0] ? holders[i].who : "-", holders[i].since,
                               holders[i].visit);
}

void holders_read(struct holder *holders, const char *text)
{
    memset(holders, 0, DESKS * sizeof *holders);
    for (size_t i = 0; i < DESKS && text; i++) {
        struct holder *holder = &holders[i];
        if (sscanf(text, "%95s %" SCNd64 " %" SCNu64, holder->who, &holder->since, &holder->visit) != 3 || !strcmp(holder->who, "-"))
            *holder = (struct holder){.since = 0};
        text = strchr(text, '\n');
        text = text ? text + 1 : NULL;
    }
}

void take_sheet(uint8_t *sheet, const void *bytes, size_t size)
{
    memset(sheet, 0, HERNGANOW_SHEET);
    if (bytes && size == HERNGANOW_SHEET)
        memcpy(sheet, bytes, size);
}
