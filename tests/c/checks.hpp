// Checks of tests in C++, in addition to those of checks.h: of calls that return a povundiri::Status.
#pragma once

#include "checks.h"
#include "povundiri.hpp"

inline void check_returned(int line, const char* call, povundiri::Status wanted, povundiri::Status came) {
    check_status(line, call, static_cast<std::uint32_t>(wanted), static_cast<std::uint32_t>(came));
}

#define RETURNS(status, call) check_returned(__LINE__, #call, povundiri::Status::status, (call))
#undef DONE
#define DONE(call) RETURNS(Done, call)
