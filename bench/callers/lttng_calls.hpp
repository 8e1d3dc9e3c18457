// The events of lttng_calls, as LTTng's headers read them: several times.
#undef LTTNG_UST_TRACEPOINT_PROVIDER
#define LTTNG_UST_TRACEPOINT_PROVIDER callers
#undef LTTNG_UST_TRACEPOINT_INCLUDE
#define LTTNG_UST_TRACEPOINT_INCLUDE "./lttng_calls.hpp"

#if !defined(LTTNG_CALLS_HPP) || defined(LTTNG_UST_TRACEPOINT_HEADER_MULTI_READ)
#define LTTNG_CALLS_HPP
#include <lttng/tracepoint.h>

LTTNG_UST_TRACEPOINT_EVENT(callers, disk, LTTNG_UST_TP_ARGS(unsigned, number, unsigned long, place),
                           LTTNG_UST_TP_FIELDS(lttng_ust_field_integer(unsigned, number, number)
                                                   lttng_ust_field_integer_hex(unsigned long, place, place)))
LTTNG_UST_TRACEPOINT_EVENT(callers, queue, LTTNG_UST_TP_ARGS(const char *, name, int, percent),
                           LTTNG_UST_TP_FIELDS(lttng_ust_field_string(name, name)
                                                   lttng_ust_field_integer(int, percent, percent)))
LTTNG_UST_TRACEPOINT_EVENT(callers, request, LTTNG_UST_TP_ARGS(unsigned long long, number, int, micros),
                           LTTNG_UST_TP_FIELDS(lttng_ust_field_integer(unsigned long long, number, number)
                                                   lttng_ust_field_integer(int, micros, micros)))
LTTNG_UST_TRACEPOINT_EVENT(callers, state, LTTNG_UST_TP_ARGS(char, state),
                           LTTNG_UST_TP_FIELDS(lttng_ust_field_integer(char, state, state)))
#endif

#include <lttng/tracepoint-event.h>
