// Looks at segments, texts of images, and sums of images, for C++17 and later, over povundiri.h and povundiri_file.h.
//
//     const std::vector<std::uint64_t> image = povundiri::look_file("latency.seg");     // others may record into it meanwhile
//     const std::string text = povundiri::report(image);
//
// povundiri.hpp includes it; a program that records nothing may include it alone. 'try_' calls return a Status, or an error code. All
// others throw, as those of povundiri.hpp do. Besides, calls that fill a vector or a string may throw std::bad_alloc.
//
// Of what povundiri.h needs from its caller, these calls need pointers and process, and those of a sum turns. A sum keeps handles.
#ifndef POVUNDIRI_IMAGES_HPP
#define POVUNDIRI_IMAGES_HPP

#include <cstddef>
#include <cstdint>
#include <cstdlib>
#include <memory>
#include <string>
#include <string_view>
#include <system_error>
#include <utility>
#include <vector>

#include "povundiri.h"
#include "povundiri_file.h"
#include "povundiri_status.hpp"
#include "povundiri_values.hpp"

namespace povundiri {

// ---- Looks ----

// An image of a segment of version 2 that others record into meanwhile: of its words, as in a mapping (povundiri_look), or in a file
// (povundiri_file_look), whose fault may be the system's, in the generic category.
[[nodiscard]] inline Status try_look(Span<const std::uint64_t> words, std::vector<std::uint64_t>& image) {
    return detail::filled(image, [&](std::uint64_t* data, std::size_t size, std::size_t* needed) {
        return povundiri_look(words.data(), words.size(), data, size, needed);
    });
}

inline std::vector<std::uint64_t> look(Span<const std::uint64_t> words) {
    std::vector<std::uint64_t> image;
    detail::need(try_look(words, image), "look, words", words.size());
    return image;
}

[[nodiscard]] inline std::error_code try_look_file(const char* path, std::vector<std::uint64_t>& image) {
    std::uint64_t* words = nullptr;
    std::size_t length = 0;
    int fault = 0;
    const std::uint32_t status = povundiri_file_look(path, &words, &length, &fault);
    const std::unique_ptr<std::uint64_t, void (*)(void*)> owned(words, std::free);
    if (status == POVUNDIRI_SYSTEM) return {fault, std::generic_category()};
    image.assign(words, words + length);
    return static_cast<Status>(status);
}

inline std::vector<std::uint64_t> look_file(const char* path) {
    std::vector<std::uint64_t> image;
    const std::error_code fault = try_look_file(path, image);
    if (fault) raise(fault, std::string("look_file \"").append(path != nullptr ? path : "").append("\""));
    return image;
}

// ---- Readers ----

// The report of an image as CSV. It is made once if it is no longer than this, else twice.
inline constexpr std::size_t kUsualReport = 16'384;

[[nodiscard]] inline Status try_report(Span<const std::uint64_t> words, std::string& text) {
    text.resize(kUsualReport);
    return detail::filled(text, [&](char* data, std::size_t size, std::size_t* needed) {
        return povundiri_report(words.data(), words.size(), data, size, needed);
    });
}

inline std::string report(Span<const std::uint64_t> words) {
    std::string text;
    detail::need(try_report(words, text), "report, words", words.size());
    return text;
}

// The same for an image with at most 'most_keys' keys; for one with more, TooManyKeys. For words that are not trusted: a report without a
// bound may take gigabytes (povundiri_report_bounded).
[[nodiscard]] inline Status try_report(Span<const std::uint64_t> words, std::string& text, std::uint64_t most_keys) {
    text.resize(kUsualReport);
    return detail::filled(text, [&](char* data, std::size_t size, std::size_t* needed) {
        return povundiri_report_bounded(words.data(), words.size(), data, size, needed, most_keys);
    });
}

inline std::string report(Span<const std::uint64_t> words, std::uint64_t most_keys) {
    std::string text;
    detail::need(try_report(words, text, most_keys), "report, most keys", most_keys);
    return text;
}

// The metrics of an image in the Prometheus text format, whose names begin with 'prefix' (povundiri_export).
[[nodiscard]] inline Status try_export_text(Span<const std::uint64_t> words, std::string& text, const char* prefix = nullptr) {
    text.resize(kUsualReport);
    return detail::filled(text, [&](char* data, std::size_t size, std::size_t* needed) {
        return povundiri_export(words.data(), words.size(), prefix, data, size, needed);
    });
}

inline std::string export_text(Span<const std::uint64_t> words, const char* prefix = nullptr) {
    std::string text;
    detail::need(try_export_text(words, text, prefix), "export_text, words", words.size());
    return text;
}

// The text of an image for people, with 'width' cells in a line, 80 if it is 0 (povundiri_show).
[[nodiscard]] inline Status try_show_text(Span<const std::uint64_t> words, std::string& text, std::uint16_t width = 0) {
    text.resize(kUsualReport);
    return detail::filled(text, [&](char* data, std::size_t size, std::size_t* needed) {
        return povundiri_show(words.data(), words.size(), width, data, size, needed);
    });
}

inline std::string show_text(Span<const std::uint64_t> words, std::uint16_t width = 0) {
    std::string text;
    detail::need(try_show_text(words, text, width), "show_text, words", words.size());
    return text;
}

// ---- Sums ----

// The sum of any number of images, each added under a number (povundiri_sums_new). It begins as the sum of no images, and one that was moved
// from is that again. It is used by one thread at a time. A call that is not done leaves the sum as it was.
class Sums {
public:
    Sums() noexcept = default;
    Sums(Sums&& other) noexcept : handle_(std::exchange(other.handle_, povundiri_handle{})) {}
    Sums& operator=(Sums&& other) noexcept {
        if (this != &other) {
            reset();
            handle_ = std::exchange(other.handle_, povundiri_handle{});
        }
        return *this;
    }
    ~Sums() { reset(); }

    // Begins again, with no images.
    void reset() noexcept { povundiri_sums_drop(&handle_); }

    // Adds an image (povundiri_sums_add): the words of one, or of a look.
    void add(std::uint64_t number, Span<const std::uint64_t> words) { detail::need(try_add(number, words), "add, image", number); }
    [[nodiscard]] Status try_add(std::uint64_t number, Span<const std::uint64_t> words) noexcept {
        return with([&] { return povundiri_sums_add(&handle_, number, words.data(), words.size()); });
    }

    // Adds what 'totals' or 'persist_report report --totals' wrote (povundiri_sums_add_totals). 'line', if there is one, is the number of a
    // line that is wrong, or 0.
    void add_totals(std::string_view text) {
        std::size_t line = 0;
        const Status status = try_add_totals(text, &line);
        detail::need(status, "add_totals, line", line);
    }
    [[nodiscard]] Status try_add_totals(std::string_view text, std::size_t* line = nullptr) noexcept {
        return with([&] { return povundiri_sums_add_totals(&handle_, text.data(), text.size(), line); });
    }

    // Adds another sum, which stays as it is, and may be the same.
    void append(Sums& other) { detail::need(try_append(other), "append"); }
    [[nodiscard]] Status try_append(Sums& other) noexcept {
        return with([&] { return other.with([&] { return povundiri_sums_append(&handle_, &other.handle_); }); });
    }

    // Its report as CSV (povundiri_sums_report), the whole of it as a text to add again (povundiri_sums_totals), its metrics in the
    // Prometheus text format (povundiri_sums_export), and its text for people (povundiri_sums_show).
    std::string report() {
        std::string text;
        detail::need(try_report(text), "report");
        return text;
    }
    std::string totals() {
        std::string text;
        detail::need(try_totals(text), "totals");
        return text;
    }
    std::string export_text(const char* prefix = nullptr) {
        std::string text;
        detail::need(try_export_text(text, prefix), "export_text");
        return text;
    }
    std::string show_text(std::uint16_t width = 0) {
        std::string text;
        detail::need(try_show_text(text, width), "show_text, width", width);
        return text;
    }
    [[nodiscard]] Status try_report(std::string& text) {
        return filled(text, [&](char* data, std::size_t size, std::size_t* needed) { return povundiri_sums_report(&handle_, data, size, needed); });
    }
    [[nodiscard]] Status try_totals(std::string& text) {
        return filled(text, [&](char* data, std::size_t size, std::size_t* needed) { return povundiri_sums_totals(&handle_, data, size, needed); });
    }
    [[nodiscard]] Status try_export_text(std::string& text, const char* prefix = nullptr) {
        return filled(text, [&](char* data, std::size_t size, std::size_t* needed) {
            return povundiri_sums_export(&handle_, prefix, data, size, needed);
        });
    }
    [[nodiscard]] Status try_show_text(std::string& text, std::uint16_t width = 0) {
        return filled(text, [&](char* data, std::size_t size, std::size_t* needed) {
            return povundiri_sums_show(&handle_, width, data, size, needed);
        });
    }

private:
    // The sum of no images is made at the first call that needs it.
    template <typename Call>
    Status with(const Call& call) noexcept {
        if (!handle_.held) {
            const auto status = static_cast<Status>(povundiri_sums_new(&handle_));
            if (status != Status::Done) return status;
        }
        return static_cast<Status>(call());
    }

    template <typename Call>
    Status filled(std::string& text, const Call& call) {
        text.resize(kUsualReport);
        const Status made = with([] { return POVUNDIRI_DONE; });
        return made != Status::Done ? made : detail::filled(text, call);
    }

    povundiri_handle handle_{};
};

}  // namespace povundiri

#endif
