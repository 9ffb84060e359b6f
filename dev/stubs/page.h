/* What statements on a page use without declaring it. */
#ifndef PAGE_H
#define PAGE_H

#include "r2u2.h"
#include "r2u2_port.h"

extern const uint8_t program[];
extern const size_t program_count;
void report_fault(const char *text);

#endif
