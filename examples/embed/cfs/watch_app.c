/* An application of NASA's core Flight System (cFE 7): it opens a monitor at start, passes it a row at each wake-up, and sends
 * an event for each stretch of time in which a requirement is false, or a contract invalid. The mission defines the other
 * names that begin with WATCH_. */
#include "cfe.h"

#include "grant_program.h" /* by embed/constant grant_program grant.bin */
#include "r2u2.h"
#include "r2u2_port.h"
#include "watch_mission.h"

enum { MEMORY = 4096, MOST_EVENTS = 4 };

static _Alignas(16) uint8_t Memory[MEMORY];
static struct r2u2 Monitor;
static CFE_SB_PipeId_t WakeupPipe;

static CFE_Status_t WATCH_Init(void) {
    struct r2u2_fault Fault = {0};
    CFE_Status_t Status = CFE_EVS_Register(NULL, 0, CFE_EVS_EventFilter_BINARY);
    if (Status == CFE_SUCCESS) Status = CFE_SB_CreatePipe(&WakeupPipe, WATCH_DEPTH, "WATCH_PIPE");
    if (Status == CFE_SUCCESS) Status = CFE_SB_Subscribe(CFE_SB_ValueToMsgId(WATCH_WAKEUP_MID), WakeupPipe);
    if (Status != CFE_SUCCESS) return Status;
    r2u2_arena(Memory, sizeof Memory);
    if (r2u2_open(&Monitor, grant_program, sizeof grant_program, &Fault) == R2U2_DONE) return CFE_SUCCESS;
    CFE_EVS_SendEvent(WATCH_OPEN_EID, CFE_EVS_EventType_CRITICAL, "no monitor: %s", Fault.text);
    return CFE_STATUS_EXTERNAL_RESOURCE_FAIL;
}

/* Sends at most MOST_EVENTS events a row, and counts the others in one more. */
static void WATCH_Report(void) {
    struct r2u2_report Report = {0};
    unsigned Left = 0, Sent = 0;
    while (r2u2_next(&Monitor, R2U2_RUNS, &Report) == R2U2_DONE) {
        if (Report.word != R2U2_FALSE && Report.word != R2U2_INVALID) continue;
        if (Sent++ < MOST_EVENTS)
            CFE_EVS_SendEvent(WATCH_FALSE_EID, CFE_EVS_EventType_ERROR, "requirement %u false up to row %lu",
                              (unsigned)Report.output, (unsigned long)Report.time);
        else
            Left++;
    }
    if (Left > 0) CFE_EVS_SendEvent(WATCH_MORE_EID, CFE_EVS_EventType_ERROR, "%u further events", Left);
}

/* Passes a row at each wake-up. If it doesn't fit, passes the last row that did, so that rows stay in step with wake-ups; none
 * before the first. A column `stale` of the specification would be set to 1 in LastGood. */
static void WATCH_Tick(void) {
    static int64_t LastGood[WATCH_COLUMNS];
    static bool HasGood;
    int64_t Row[WATCH_COLUMNS];
    struct r2u2_row_fault Why = {0};
    /* The last value of each signal, taken together; false before each signal has one. */
    if (!WATCH_Sample(Row)) return;
    uint32_t Code = r2u2_row(&Monitor, Row, WATCH_COLUMNS, &Why);
    if (Code == R2U2_DONE) {
        CFE_PSP_MemCpy(LastGood, Row, sizeof Row);
        HasGood = true;
    } else {
        CFE_EVS_SendEvent(WATCH_ROW_EID, CFE_EVS_EventType_ERROR, "row not taken: code %u, column %u", (unsigned)Code,
                          (unsigned)Why.column);
        if (Code == R2U2_NOT_A_ROW && HasGood) r2u2_row(&Monitor, LastGood, WATCH_COLUMNS, &Why);
    }
    WATCH_Report();
}

void WATCH_AppMain(void) {
    uint32 RunStatus = WATCH_Init() == CFE_SUCCESS ? CFE_ES_RunStatus_APP_RUN : CFE_ES_RunStatus_APP_ERROR;
    while (CFE_ES_RunLoop(&RunStatus)) {
        CFE_SB_Buffer_t *Wakeup = NULL;
        if (CFE_SB_ReceiveBuffer(&Wakeup, WakeupPipe, CFE_SB_PEND_FOREVER) == CFE_SUCCESS)
            WATCH_Tick();
        else
            RunStatus = CFE_ES_RunStatus_APP_ERROR;
    }
    r2u2_close(&Monitor);
    CFE_ES_ExitApp(RunStatus);
}
