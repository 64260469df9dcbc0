// The text of one line.
#pragma once

#include <cstddef>
#include <source_location>
#include <string>
#include <string_view>
#include <vector>

namespace arc_trace {

/// The place in the program where an operation stands.
using At = std::source_location;

namespace detail {

// What a handle or a cell goes by: its number, in the recording in which it was made. Recording 0 is none.
struct Name {
    unsigned recording = 0;
    unsigned number = 0;
    explicit operator bool() const { return recording != 0; }
};

// What a field of a new value holds, as the line says it.
struct FirstSlot {
    enum class Kind { nothing, handle, me, foreign_me } kind = Kind::nothing;
    Name name;
};

// The bytes of one UTF-8 character at the front of a text, or 0 where there is none.
inline std::size_t character(std::string_view text) {
    auto byte = [&](std::size_t i) { return i < text.size() ? static_cast<unsigned char>(text[i]) : 0u; };
    auto follow = [&](std::size_t from, std::size_t to) {
        for (std::size_t i = from; i < to; i++)
            if (byte(i) < 0x80 || byte(i) > 0xbf) return false;
        return true;
    };
    const unsigned first = byte(0), second = byte(1);
    if (first < 0x80) return 1;
    if (first >= 0xc2 && first <= 0xdf) return follow(1, 2) ? 2 : 0;
    if (first == 0xe0 && second < 0xa0) return 0;  // a longer form than is needed
    if (first == 0xed && second > 0x9f) return 0;  // a half of a pair of UTF-16
    if (first >= 0xe0 && first <= 0xef) return follow(1, 3) ? 3 : 0;
    if (first == 0xf0 && second < 0x90) return 0;
    if (first == 0xf4 && second > 0x8f) return 0;
    if (first >= 0xf0 && first <= 0xf4) return follow(1, 4) ? 4 : 0;
    return 0;
}

// A path as the inside of a JSON text: any bytes give a line that can be read.
inline std::string escaped(std::string_view path) {
    constexpr std::string_view digits = "0123456789abcdef";
    std::string text;
    while (!path.empty()) {
        const std::size_t length = character(path);
        const auto byte = static_cast<unsigned char>(path[0]);
        if (length == 0)
            text += "\\ufffd";
        else if (byte == '"' || byte == '\\')
            (text += '\\') += path[0];
        else if (byte < 0x20)
            ((text += "\\u00") += digits[byte >> 4]) += digits[byte & 15];
        else
            text += path.substr(0, length);
        path.remove_prefix(length == 0 ? 1 : length);
    }
    return text;
}

// Where a line says that its operation stands. The line of an end has the place where the handle was made, since a destructor
// isn't told where it is called.
struct Place {
    const char* member;
    At at;
};

// The members of a line, as they are put together.
class Line {
  public:
    explicit Line(unsigned recording) : recording_(recording) {}

    void name(const char* member, Name name) {
        note(name);
        number(member, name.number);
    }
    void number(const char* member, std::size_t number) {
        key(member);
        members_ += std::to_string(number);
    }
    // What the program was answered. The reader of a trace ignores it.
    void answer(std::string_view answer) {
        key("answer");
        ((members_ += '"') += answer) += '"';
    }
    void fields(const std::vector<FirstSlot>& fields) {
        key("fields");
        members_ += '[';
        for (std::size_t i = 0; i < fields.size(); i++) {
            if (i > 0) members_ += ',';
            switch (fields[i].kind) {
                case FirstSlot::Kind::handle:
                    note(fields[i].name);
                    members_ += std::to_string(fields[i].name.number);
                    break;
                case FirstSlot::Kind::me:
                    members_ += "\"me\"";
                    break;
                default:
                    members_ += "null";
            }
        }
        members_ += ']';
    }
    // The operation makes a handle, or a cell.
    void makes(const char* member) { makes_ = member; }
    void makes_cell() { makes_ = cell; }

    static constexpr const char* cell = "c";

  private:
    friend class Recorder;
    void note(Name name) { (name.recording == recording_ ? is_known_ : is_foreign_) = true; }
    void key(const char* member) { ((members_ += ",\"") += member) += "\":"; }

    unsigned recording_;
    std::string members_;
    const char* makes_ = nullptr;
    bool is_known_ = false;
    bool is_foreign_ = false;
};

}  // namespace detail

}  // namespace arc_trace
