// How calls of povundiri.hpp that throw end. The library has this compiled with exceptions; a program without them compiles this file
// into itself, without them too.

#include <cstdio>
#include <cstdlib>

#include "povundiri_names.hpp"
#include "povundiri_status.hpp"

namespace povundiri {

void raise(std::error_code fault, const std::string& asked) {
#if defined(__cpp_exceptions)
    if (fault.category() == category()) throw Fault(static_cast<Status>(fault.value()), asked);
    throw std::system_error(fault, asked);
#else
    std::fprintf(stderr, "povundiri: %s: %s\n", asked.c_str(), fault.message().c_str());
    std::abort();
#endif
}

void raise(const BadName& fault) {
#if defined(__cpp_exceptions)
    throw fault;
#else
    std::fprintf(stderr, "povundiri: %s\n", fault.what());
    std::abort();
#endif
}

}  // namespace povundiri
