/* Stand-ins for the calls of the core Flight System that cfs/watch_app.c makes: they print events, and wake the
 * application once for each row of rows.h, and once before. */
#ifndef CFE_H
#define CFE_H

#include <stdarg.h>
#include <stdbool.h>
#include <stddef.h>
#include <stdint.h>
#include <stdio.h>
#include <string.h>

typedef uint32_t uint32;
typedef int32_t CFE_Status_t;
typedef struct { uint32_t id; } CFE_SB_PipeId_t;
typedef struct { uint32_t id; } CFE_SB_MsgId_t;
typedef struct { uint8_t bytes[8]; } CFE_SB_Buffer_t;

#define CFE_SUCCESS 0
#define CFE_STATUS_EXTERNAL_RESOURCE_FAIL (-1)
#define CFE_SB_PEND_FOREVER (-1)
#define CFE_PSP_MemCpy(to, from, size) memcpy(to, from, size)

enum { CFE_EVS_EventFilter_BINARY, CFE_EVS_EventType_ERROR, CFE_EVS_EventType_CRITICAL };
enum { CFE_ES_RunStatus_APP_RUN = 1, CFE_ES_RunStatus_APP_ERROR = 3 };

static unsigned wakeups;

static inline CFE_Status_t CFE_EVS_Register(const void *filters, uint16_t count, uint16_t scheme) {
    (void)filters, (void)count, (void)scheme;
    return CFE_SUCCESS;
}

static inline CFE_Status_t CFE_SB_CreatePipe(CFE_SB_PipeId_t *pipe, uint16_t depth, const char *name) {
    (void)depth, (void)name;
    pipe->id = 1;
    return CFE_SUCCESS;
}

static inline CFE_SB_MsgId_t CFE_SB_ValueToMsgId(uint32_t value) { return (CFE_SB_MsgId_t){value}; }

static inline CFE_Status_t CFE_SB_Subscribe(CFE_SB_MsgId_t message, CFE_SB_PipeId_t pipe) {
    (void)message, (void)pipe;
    return CFE_SUCCESS;
}

static inline CFE_Status_t CFE_SB_ReceiveBuffer(CFE_SB_Buffer_t **buffer, CFE_SB_PipeId_t pipe, int32_t wait) {
    static CFE_SB_Buffer_t message;
    (void)pipe, (void)wait;
    *buffer = &message;
    wakeups++;
    return CFE_SUCCESS;
}

static inline CFE_Status_t CFE_EVS_SendEvent(uint16_t id, uint16_t kind, const char *form, ...) {
    va_list arguments;
    printf("event %u, kind %u: ", id, kind);
    va_start(arguments, form);
    vprintf(form, arguments);
    va_end(arguments);
    puts("");
    return CFE_SUCCESS;
}

static inline bool CFE_ES_RunLoop(uint32 *status) { return *status == CFE_ES_RunStatus_APP_RUN && wakeups < 8; }

static inline void CFE_ES_ExitApp(uint32 status) { printf("exit %u\n", status); }

#endif
