/* The mission's part of cfs/watch_app.c, over the rows of rows.h. */
#ifndef WATCH_MISSION_H
#define WATCH_MISSION_H

#include "rows.h"

enum { WATCH_DEPTH = 4, WATCH_WAKEUP_MID = 0x1880, WATCH_COLUMNS = COLUMNS };
enum { WATCH_OPEN_EID = 1, WATCH_ROW_EID, WATCH_FALSE_EID, WATCH_MORE_EID };

void WATCH_AppMain(void);

static inline bool WATCH_Sample(int64_t *row) { return sample_row(row); }

int main(void) {
    WATCH_AppMain();
    return 0;
}

#endif
