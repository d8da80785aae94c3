/* By which entry a benchmark makes its calls: monitor_trap or, compiled with QUICK, monitor_quick. */
#ifndef ENTRY_H
#define ENTRY_H

#include "elvomike/quick.h"

#ifdef QUICK
#define MAKE_CALL monitor_quick
#else
#define MAKE_CALL monitor_trap
#endif

#endif
