// What the calls of povundiri.hpp return and throw: statuses, which are error codes too.
#ifndef POVUNDIRI_STATUS_HPP
#define POVUNDIRI_STATUS_HPP

#include <cstdint>
#include <new>
#include <string>
#include <system_error>
#include <type_traits>

#include "povundiri.h"

namespace povundiri {

// What a call did, or why it did nothing: the statuses of povundiri.h, which says what each means.
enum class Status : std::uint32_t {
    Done = POVUNDIRI_DONE,
    Null = POVUNDIRI_NULL,
    BadRoom = POVUNDIRI_BAD_ROOM,
    Empty = POVUNDIRI_EMPTY,
    NotEmpty = POVUNDIRI_NOT_EMPTY,
    OtherKind = POVUNDIRI_OTHER_KIND,
    OtherSegment = POVUNDIRI_OTHER_SEGMENT,
    Short = POVUNDIRI_SHORT,
    Unknown = POVUNDIRI_UNKNOWN,  // the histogram is of another recorder, or of none
    NoCursor = POVUNDIRI_NO_CURSOR,
    BadKind = POVUNDIRI_BAD_KIND,
    InUse = POVUNDIRI_IN_USE,
    ListEnds = POVUNDIRI_LIST_ENDS,
    NoMemory = POVUNDIRI_NO_MEMORY,
    Elsewhere = POVUNDIRI_ELSEWHERE,
    Busy = POVUNDIRI_BUSY,
    System = POVUNDIRI_SYSTEM,  // of these classes Recording::maintain alone returns it: 'open' returns the system's fault itself
    TooManyKeys = POVUNDIRI_TOO_MANY_KEYS,
    BadPrefix = POVUNDIRI_BAD_PREFIX,
    TooMany = POVUNDIRI_TOO_MANY,
    BadTotals = POVUNDIRI_BAD_TOTALS,
    Fell = POVUNDIRI_FELL,
    CostsMore = POVUNDIRI_COSTS_MORE,
    NotOwner = POVUNDIRI_NOT_OWNER,
    FolderInUse = POVUNDIRI_FOLDER_IN_USE,
    NoRecording = POVUNDIRI_NO_RECORDING,
    BadOptions = POVUNDIRI_BAD_OPTIONS,
    Forked = 99,                // of these classes alone: the segment or recorder is of a process from which this one was forked
    BadUnit = 98,               // of these classes alone: a name says another unit than that of its metric of times

    RefusedBadName = POVUNDIRI_REFUSED_BAD_NAME,
    RefusedBadSpec = POVUNDIRI_REFUSED_BAD_SPEC,
    RefusedZeroCount = POVUNDIRI_REFUSED_ZERO_COUNT,
    RefusedNoUnits = POVUNDIRI_REFUSED_NO_UNITS,
    RefusedTooMany = POVUNDIRI_REFUSED_TOO_MANY,
    RefusedNoMemory = POVUNDIRI_REFUSED_NO_MEMORY,
    RefusedTooLarge = POVUNDIRI_REFUSED_TOO_LARGE,
    RefusedCorrupt = POVUNDIRI_REFUSED_CORRUPT,
    RefusedFull = POVUNDIRI_REFUSED_FULL,
    RefusedOtherSpec = POVUNDIRI_REFUSED_OTHER_SPEC,

    OpenBadShape = POVUNDIRI_OPEN_BAD_SHAPE,
    OpenBadCursors = POVUNDIRI_OPEN_BAD_CURSORS,
    OpenNoMemory = POVUNDIRI_OPEN_NO_MEMORY,

    AdoptBadImage = POVUNDIRI_ADOPT_BAD_IMAGE,
    AdoptOldVersion = POVUNDIRI_ADOPT_OLD_VERSION,
    AdoptCorrupt = POVUNDIRI_ADOPT_CORRUPT,
    AdoptDamaged = POVUNDIRI_ADOPT_DAMAGED,
    AdoptNoUnits = POVUNDIRI_ADOPT_NO_UNITS,
    AdoptBadCursors = POVUNDIRI_ADOPT_BAD_CURSORS,
    AdoptNoMemory = POVUNDIRI_ADOPT_NO_MEMORY,

    SpecBadMin = POVUNDIRI_SPEC_BAD_MIN,
    SpecBadMax = POVUNDIRI_SPEC_BAD_MAX,
    SpecTooFew = POVUNDIRI_SPEC_TOO_FEW,
    SpecTooMany = POVUNDIRI_SPEC_TOO_MANY,
    SpecBadRange = POVUNDIRI_SPEC_BAD_RANGE,
    SpecEmpty = POVUNDIRI_SPEC_EMPTY,

    ImageTooShort = POVUNDIRI_IMAGE_TOO_SHORT,
    ImageBadCookie = POVUNDIRI_IMAGE_BAD_COOKIE,
    ImageBadVersion = POVUNDIRI_IMAGE_BAD_VERSION,
    ImageBadPage = POVUNDIRI_IMAGE_BAD_PAGE,
    ImageBadSize = POVUNDIRI_IMAGE_BAD_SIZE,
    ImageNotReady = POVUNDIRI_IMAGE_NOT_READY,
    ImageDeleted = POVUNDIRI_IMAGE_DELETED,
    ImageBadFree = POVUNDIRI_IMAGE_BAD_FREE,
    ImageBadQueue = POVUNDIRI_IMAGE_BAD_QUEUE,
    ImageNoMemory = POVUNDIRI_IMAGE_NO_MEMORY
};

// The name of a status, which no other has; of any number. 'persist_report explain' says what it means.
inline const char* text(Status status) noexcept {
    if (status == Status::Forked) return "Forked";
    return status == Status::BadUnit ? "BadUnit" : povundiri_status_text(static_cast<std::uint32_t>(status));
}

// The category of statuses as error codes.
class Category final : public std::error_category {
public:
    const char* name() const noexcept override { return "povundiri"; }
    std::string message(int status) const override { return text(static_cast<Status>(status)); }

    // Each status that says 'out of memory' is std::errc::not_enough_memory.
    std::error_condition default_error_condition(int status) const noexcept override {
        switch (static_cast<Status>(status)) {
            case Status::NoMemory:
            case Status::RefusedNoMemory:
            case Status::OpenNoMemory:
            case Status::AdoptNoMemory:
            case Status::ImageNoMemory:
                return std::errc::not_enough_memory;
            default:
                return {status, *this};
        }
    }
};

inline const std::error_category& category() noexcept {
    // Never destroyed: threads may ask for it after the end of main.
    alignas(Category) static unsigned char place[sizeof(Category)];
    static const Category* const made = ::new (place) Category;
    return *made;
}

inline std::error_code make_error_code(Status status) noexcept { return {static_cast<int>(status), category()}; }

}  // namespace povundiri

template <>
struct std::is_error_code_enum<povundiri::Status> : std::true_type {};

namespace povundiri {

// A call that was not done. 'what' names the call, what was asked, and the status: 'hist "latency": OtherSpec'.
class Fault : public std::system_error {
public:
    Fault(Status status, const std::string& asked) : std::system_error(make_error_code(status), asked) {}

    Status status() const noexcept { return static_cast<Status>(code().value()); }
};

// Ends a call that throws, with its fault and what was asked. That of the library throws a Fault, or a std::system_error for a fault of the
// system; if povundiri_raise.cpp is compiled without exceptions, it reports this on the error stream and calls std::abort.
[[noreturn]] void raise(std::error_code fault, const std::string& asked);

}  // namespace povundiri

#endif
