// Names of histograms with labels, for C++17 and later:
//
//     povundiri::name("http.latency", {{"route", "a"}, {"method", "GET"}})           // http.latency{method=GET;route=a}
//
// docs/FORMAT.md says which names there are, and docs/COMMANDS.md how an export writes their labels.
#ifndef POVUNDIRI_NAMES_HPP
#define POVUNDIRI_NAMES_HPP

#include <algorithm>
#include <array>
#include <cstddef>
#include <string>
#include <string_view>
#include <vector>

#include "povundiri_status.hpp"
#include "povundiri_values.hpp"

namespace povundiri {

// A label of a name.
struct Label {
    std::string_view key, value;
};

// What no name can have: the first byte that may not stand where it does, and its position in the name, from 0. 'what' has the whole name.
class BadName : public Fault {
public:
    // The byte of a name that ends before what it has to have.
    static constexpr int kEnd = -1;

    BadName(const std::string& call, std::string_view asked, std::size_t position, int byte)
        : Fault(Status::RefusedBadName, said(call, asked, position, byte)), position_(position), byte_(byte) {}

    std::size_t position() const noexcept { return position_; }
    int byte() const noexcept { return byte_; }

private:
    static std::string said(const std::string& call, std::string_view asked, std::size_t position, int byte) {
        std::string text = std::string(call).append(" \"").append(asked).append("\": at ").append(std::to_string(position));
        if (byte == kEnd) return text.append(" is its end");
        return text.append(" is byte ").append(std::to_string(byte));
    }

    std::size_t position_;
    int byte_;
};

// Ends a call that throws, with its fault, as the other 'raise' does.
[[noreturn]] void raise(const BadName& fault);

// ---- Details: no part of the interface ----

namespace detail {

// The value of the labels that a family has no metric for, and what the base of a counter's name ends with.
inline constexpr std::string_view kOther = "_other", kTotal = "_total";
// The keys that an export itself has.
inline constexpr std::string_view kKeptKeys[] = {"le", "name", "value", "kind", "histogram"};

inline int byte_at(std::string_view text, std::size_t at) noexcept {
    return at < text.size() ? static_cast<unsigned char>(text[at]) : BadName::kEnd;
}

// A name that is written byte by byte, and the first byte that it cannot have.
class NameWriter {
public:
    static constexpr std::size_t kMost = 128;

    std::string_view text() const noexcept { return {text_.data(), size_}; }
    bool is_name() const noexcept { return is_good_; }
    std::size_t position() const noexcept { return size_; }
    int byte() const noexcept { return byte_; }

    void put_base(std::string_view base, bool has_labels) noexcept {
        if (base.empty()) refuse(has_labels ? '{' : BadName::kEnd);
        for (const char byte : base) put(byte, byte != '{' && !(size_ == 0 && byte == '!'));
    }
    // Labels come by ascending keys.
    void put_label(const Label& label, std::string_view key_before, bool is_first, bool is_last) noexcept {
        put(is_first ? '{' : ';', true);
        const bool is_taken = (!is_first && label.key == key_before) ||
                              std::find(std::begin(kKeptKeys), std::end(kKeptKeys), label.key) != std::end(kKeptKeys);
        if (label.key.empty()) refuse('=');
        for (std::size_t at = 0; at < label.key.size(); ++at) put(label.key[at], !is_taken && is_key_byte(label.key, at));
        put('=', true);
        put_value(label.value, is_last);
    }
    void put_value(std::string_view value, bool is_last) noexcept {
        if (value.empty()) refuse(is_last ? '}' : ';');
        for (const char byte : value) put(byte, byte != ';');
        if (is_last) put('}', true);
    }
    // What is known to be right, but for its length.
    void put_known(std::string_view text) noexcept {
        if (!is_good_) return;
        const std::size_t copied = text.copy(text_.data() + size_, kMost - size_);
        size_ += copied;
        if (copied < text.size()) refuse(static_cast<unsigned char>(text[copied]));
    }

private:
    static bool is_key_byte(std::string_view key, std::size_t at) noexcept {
        const char byte = key[at];
        if (byte == '_') return at == 0 || key[at - 1] != '_';
        if (byte >= '0' && byte <= '9') return at > 0;
        return (byte >= 'a' && byte <= 'z') || (byte >= 'A' && byte <= 'Z');
    }

    // Notes the first byte that may not stand here, and then nothing more.
    void refuse(int byte) noexcept {
        if (is_good_) byte_ = byte;
        is_good_ = false;
    }
    void put(char byte, bool is_allowed) noexcept {
        if (!is_good_) return;
        const auto code = static_cast<unsigned char>(byte);
        if (!is_allowed || size_ == kMost || code <= ' ' || code > '~' || byte == ',' || byte == '"') return refuse(code);
        text_[size_++] = byte;
    }

    std::array<char, kMost> text_{};
    std::size_t size_ = 0;
    int byte_ = BadName::kEnd;
    bool is_good_ = true;
};

// A name of a base and labels by ascending keys, and the text that was asked for, whether that is a name or not.
inline NameWriter written(std::string_view base, Span<const Label> ascending) noexcept {
    NameWriter writer;
    writer.put_base(base, !ascending.empty());
    for (std::size_t at = 0; at < ascending.size(); ++at) {
        writer.put_label(ascending[at], at > 0 ? ascending[at - 1].key : std::string_view(), at == 0, at + 1 == ascending.size());
    }
    return writer;
}
inline std::string asked(std::string_view base, Span<const Label> ascending) {
    std::string text(base);
    for (const Label& label : ascending) {
        text.append(&label == ascending.begin() ? "{" : ";").append(label.key).append("=").append(label.value);
    }
    return ascending.empty() ? text : text.append("}");
}

// A counter's name, without its labels, ends with "_total".
inline bool is_total(std::string_view name) noexcept {
    const std::string_view base = name.substr(0, name.find('{'));
    return base.size() >= kTotal.size() && base.substr(base.size() - kTotal.size()) == kTotal;
}
inline void need_total(std::string_view name) {
    const std::size_t ends = std::min(name.find('{'), name.size());
    if (!is_total(name)) raise(BadName("counter", name, ends, byte_at(name, ends)));
}

}  // namespace detail

// ---- Names ----

// The name of a histogram with these labels, in any order: an export has them in braces, by ascending keys. Without labels it is the base.
// BadName is thrown for what no name can have: a base that is empty or has '{'; a key that is not a letter or '_', and then such and
// digits, that has "__", that an export has itself (le, name, value, kind, histogram), or that comes twice; a value that is empty or has
// ';'; a space, a comma, a quotation mark, what is not ASCII; more than 128 bytes. 'position' is that in the name with its labels.
inline std::string name(std::string_view base, Span<const Label> labels) {
    std::vector<Label> ascending(labels.begin(), labels.end());
    std::sort(ascending.begin(), ascending.end(), [](const Label& one, const Label& other) { return one.key < other.key; });
    const detail::NameWriter writer = detail::written(base, ascending);
    if (!writer.is_name()) raise(BadName("name", detail::asked(base, ascending), writer.position(), writer.byte()));
    return std::string(writer.text());
}

}  // namespace povundiri

#endif
