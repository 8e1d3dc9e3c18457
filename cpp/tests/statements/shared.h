// Statements where they may stand in a header.
#pragma once

#include <nanolog.hpp>
#include <string>

#define LOG_INFO(...) NANO_LOG(NOTICE, __VA_ARGS__)
#define LOG_AT(severity, ...) NANO_LOG(nano::severity, __VA_ARGS__)

inline void in_header(int number) { NANO_LOG(NOTICE, "inline function %d", number); }

template <class Number>
void in_template(Number number) {
    NANO_LOG(DEBUG, "template %d of %d", static_cast<int>(number), static_cast<int>(sizeof number));
}

constexpr int in_constexpr(int number) {
    if (number < 0) LOG_INFO("constexpr function %d", number);
    return number;
}
static_assert(in_constexpr(2) == 2);

struct Member {
    int first = (NANO_LOG(ERROR, "member initialiser"), 3);
    int second;
    explicit Member(int number) : second((LOG_INFO("initialiser list %d", number), number)) {}
    virtual ~Member() { NANO_LOG(NOTICE, "virtual destructor"); }
};

void of_other(int number);
void of_archive(int number);
extern "C" void of_library(int number);
