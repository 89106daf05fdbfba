// jeihpal.hpp: the hubs, views, screens and recordings of jeihpal.h as C++17 objects.
//
// An object closes its word when it ends. It can be moved, and a screen can be copied. A refused call throws
// jeihpal::error, or std::bad_alloc if there was no memory. Texts and bytes may be empty, and their pointers null.
// jeihpal.h says what each call does, and on which threads.
#ifndef JEIHPAL_HPP
#define JEIHPAL_HPP

#include "jeihpal.h"

#include <algorithm>
#include <cstdint>
#include <new>
#include <optional>
#include <stdexcept>
#include <string>
#include <string_view>
#include <utility>
#include <vector>

namespace jeihpal {

// A refused call.
class error : public std::runtime_error {
public:
    explicit error(int32_t code) : std::runtime_error(text_of(code)), code_(code) {}

    // One of enum jeihpal_code.
    int32_t code() const noexcept { return code_; }

    static const char *text_of(int32_t code) noexcept {
        switch (code) {
        case JEIHPAL_CLOSED: return "jeihpal: the object was moved away";
        case JEIHPAL_OTHER_KIND: return "jeihpal: an object of another kind";
        case JEIHPAL_BAD_SIZE: return "jeihpal: a size without rows or columns";
        case JEIHPAL_MEMORY: return "jeihpal: out of memory";
        case JEIHPAL_FAILED: return "jeihpal: an earlier call found no memory";
        case JEIHPAL_UNKNOWN_CLIENT: return "jeihpal: the client has ended, or never was";
        case JEIHPAL_NOT_OWED: return "jeihpal: fewer bytes are owed";
        case JEIHPAL_NO_CELL: return "jeihpal: the place is outside the screen";
        case JEIHPAL_NO_HEADER: return "jeihpal: the recording has no header";
        case JEIHPAL_COMPRESSED: return "jeihpal: the recording is a compressed file";
        case JEIHPAL_NO_EVENT: return "jeihpal: the recording has fewer events";
        case JEIHPAL_TOO_LARGE: return "jeihpal: the size has more cells than is allowed";
        default: return "jeihpal: a refused call";
        }
    }

private:
    int32_t code_;
};

// Returns the result of a call, and throws if it is a refusal.
inline int32_t checked(int32_t code) {
    if (code == JEIHPAL_MEMORY) throw std::bad_alloc();
    if (code < 0) throw error(code);
    return code;
}

// A limit of cells that no size exceeds.
inline constexpr size_t any_size = SIZE_MAX;

// A row of a screen: its cells, and whether its text continues in the next row.
struct row {
    std::vector<jeihpal_cell> cells;
    bool wrapped = false;
};

// A cell's text.
inline std::string_view text(const jeihpal_cell &cell) {
    return std::string_view(reinterpret_cast<const char *>(cell.text), cell.length);
}

namespace detail {

// The library takes no null pointer.
inline const uint8_t *bytes_of(std::string_view bytes) noexcept {
    static const uint8_t none = 0;
    return bytes.data() ? reinterpret_cast<const uint8_t *>(bytes.data()) : &none;
}

// The whole text that a call copies. The call is passed the room for it, and how much there is.
template <class Call> std::string whole(Call call) {
    std::string room(1024, '\0');
    for (;;) {
        size_t length = 0;
        checked(call(reinterpret_cast<uint8_t *>(&room[0]), room.size(), &length));
        bool fits = length <= room.size();
        room.resize(length);
        if (fits) return room;
    }
}

// A word, which is closed when this object ends.
template <class Word, void (*Close)(Word *)> class owned {
public:
    owned() noexcept : word_() {}
    owned(owned &&other) noexcept : word_(other.word_) { other.word_ = Word(); }
    owned &operator=(owned &&other) noexcept {
        std::swap(word_, other.word_);
        return *this;
    }
    ~owned() { Close(&word_); }

    // The word, for the calls of jeihpal.h. It isn't const, since calls that only read take a pointer to it as well.
    Word *word() const noexcept { return &word_; }

private:
    mutable Word word_;
};

// The calls that all kinds have.
template <class Word, void (*Close)(Word *), int32_t (*Look)(Word *, jeihpal_look *),
          int32_t (*Cell)(Word *, uint16_t, uint16_t, jeihpal_cell *),
          int32_t (*Cells)(Word *, uint16_t, jeihpal_cell *, size_t, size_t *, uint8_t *),
          int32_t (*RowText)(Word *, uint16_t, uint8_t *, size_t, size_t *)>
class object : public owned<Word, Close> {
public:
    jeihpal_look look() const {
        jeihpal_look look;
        checked(Look(this->word(), &look));
        return look;
    }

    // `nullopt` outside of the screen.
    std::optional<jeihpal_cell> cell(uint16_t row, uint16_t col) const {
        jeihpal_cell cell;
        int32_t code = Cell(this->word(), row, col, &cell);
        if (code == JEIHPAL_NO_CELL) return std::nullopt;
        checked(code);
        return cell;
    }

    // Throws outside of the screen.
    jeihpal::row row(uint16_t number) const {
        jeihpal::row row;
        row.cells.resize(look().cols);
        size_t count = 0;
        uint8_t wrapped = 0;
        checked(Cells(this->word(), number, row.cells.data(), row.cells.size(), &count, &wrapped));
        row.cells.resize(count);
        row.wrapped = wrapped != 0;
        return row;
    }

    std::string row_text(uint16_t row) const {
        return whole([&](uint8_t *to, size_t room, size_t *length) {
            return RowText(this->word(), row, to, room, length);
        });
    }
};

using hub_base = object<jeihpal_hub, jeihpal_hub_close, jeihpal_hub_look, jeihpal_hub_cell, jeihpal_hub_row_cells,
                        jeihpal_hub_row_text>;
using view_base = object<jeihpal_view, jeihpal_view_close, jeihpal_view_look, jeihpal_view_cell,
                         jeihpal_view_row_cells, jeihpal_view_row_text>;
using screen_base = object<jeihpal_screen, jeihpal_screen_close, jeihpal_screen_look, jeihpal_screen_cell,
                           jeihpal_screen_row_cells, jeihpal_screen_row_text>;

} // namespace detail

class hub : public detail::hub_base {
public:
    // A size of more than `most_cells` cells is refused, here and in `resize`.
    hub(uint16_t rows, uint16_t cols, size_t most_cells = any_size) : most_cells_(most_cells) {
        checked(jeihpal_hub_new_within(word(), rows, cols, most_cells));
    }

    void feed(std::string_view bytes) { checked(jeihpal_hub_feed(word(), detail::bytes_of(bytes), bytes.size())); }
    void resize(uint16_t rows, uint16_t cols) { checked(jeihpal_hub_resize_within(word(), rows, cols, most_cells_)); }
    size_t attach() {
        size_t client = 0;
        checked(jeihpal_hub_attach(word(), &client));
        return client;
    }
    // A new client that has what this one has once it has read all its frames.
    size_t fork(size_t client) {
        size_t fork = 0;
        checked(jeihpal_hub_fork(word(), client, &fork));
        return fork;
    }
    void detach(size_t client) { checked(jeihpal_hub_detach(word(), client)); }
    jeihpal_answer frame(size_t client) {
        return static_cast<jeihpal_answer>(checked(jeihpal_hub_frame(word(), client)));
    }
    std::string owed(size_t client) const {
        return detail::whole([&](uint8_t *to, size_t room, size_t *length) {
            return jeihpal_hub_owed(word(), client, to, room, length);
        });
    }
    // The bytes that draw, on a fresh terminal, what the client shows once it has read all its frames. `nullopt` if
    // they are more than a terminal buffers.
    std::optional<std::string> redraw(size_t client) const {
        int32_t answer = JEIHPAL_OK;
        std::string text = detail::whole([&](uint8_t *to, size_t room, size_t *length) {
            return answer = jeihpal_hub_redraw(word(), client, to, room, length);
        });
        if (answer != JEIHPAL_OK) return std::nullopt;
        return text;
    }
    // A redraw for any terminal of this size, whatever frames it has read. It is empty if the client has had no frame,
    // and `nullopt` if it is longer than a terminal buffers.
    std::optional<std::string> whole_frame(size_t client) const {
        int32_t answer = JEIHPAL_OK;
        std::string text = detail::whole([&](uint8_t *to, size_t room, size_t *length) {
            return answer = jeihpal_hub_whole_frame(word(), client, to, room, length);
        });
        if (answer != JEIHPAL_OK) return std::nullopt;
        return text;
    }
    void sent(size_t client, size_t count) { checked(jeihpal_hub_sent(word(), client, count)); }
    std::string contents() const {
        return detail::whole([&](uint8_t *to, size_t room, size_t *length) {
            return jeihpal_hub_contents(word(), to, room, length);
        });
    }

private:
    size_t most_cells_;
};

class view : public detail::view_base {
public:
    // A size of more than `most_cells` cells is refused.
    view(uint16_t rows, uint16_t cols, size_t most_cells = any_size) {
        checked(jeihpal_view_new_within(word(), rows, cols, most_cells));
    }

    void advance(std::string_view bytes) {
        checked(jeihpal_view_advance(word(), detail::bytes_of(bytes), bytes.size()));
    }
    void stop() { checked(jeihpal_view_stop(word())); }
    size_t held() const {
        size_t count = 0;
        checked(jeihpal_view_held(word(), &count));
        return count;
    }
};

// What a program asked for.
struct request {
    jeihpal_request_kind kind;
    std::string letters; // of clipboards, or intermediates
    std::string text;
    uint16_t rows;
    uint16_t cols;
};

class screen : public detail::screen_base {
public:
    // A size of more than `most_cells` cells is refused, here and in `resize`, also of a copy.
    screen(uint16_t rows, uint16_t cols, size_t scrollback = 0, size_t most_cells = any_size)
        : most_cells_(most_cells) {
        checked(jeihpal_screen_new_within(word(), rows, cols, scrollback, most_cells));
    }
    screen(const screen &other) : most_cells_(other.most_cells_) {
        checked(jeihpal_screen_clone(word(), other.word()));
    }
    screen(screen &&) noexcept = default;
    screen &operator=(screen other) noexcept {
        std::swap(*word(), *other.word());
        std::swap(most_cells_, other.most_cells_);
        return *this;
    }

    // A screen that draws on the rows that are shown, kept ones too, and keeps none.
    screen clone_visible() const {
        screen copy(1, 1);
        checked(jeihpal_screen_clone_visible(copy.word(), word()));
        return copy;
    }

    void process(std::string_view bytes) {
        checked(jeihpal_screen_process(word(), detail::bytes_of(bytes), bytes.size()));
    }
    void resize(uint16_t rows, uint16_t cols) {
        checked(jeihpal_screen_resize_within(word(), rows, cols, most_cells_));
    }
    void scroll(size_t rows) { checked(jeihpal_screen_scroll(word(), rows)); }
    void clear_scrollback() { checked(jeihpal_screen_clear_scrollback(word())); }
    void mark() { checked(jeihpal_screen_mark(word())); }
    jeihpal_drawing drawing() const {
        jeihpal_drawing drawing;
        checked(jeihpal_screen_drawing(word(), &drawing));
        return drawing;
    }

    std::string contents() const { return text(jeihpal_screen_contents); }
    std::string contents_formatted() const { return text(jeihpal_screen_contents_formatted); }
    std::string contents_formatted_basic() const { return text(jeihpal_screen_contents_formatted_basic); }
    std::string state() const { return text(jeihpal_screen_state); }
    std::string input_mode_formatted() const { return text(jeihpal_screen_input_mode_formatted); }
    std::string attributes_formatted() const { return text(jeihpal_screen_attributes_formatted); }
    std::string cursor_state_formatted() const { return text(jeihpal_screen_cursor_state_formatted); }
    std::string difference() const { return text(jeihpal_screen_difference); }

    // The escape sequences that take a terminal from what another screen shows to what this one shows.
    std::string state_diff(const screen &earlier) const { return text_from(earlier, jeihpal_screen_state_diff); }
    std::string contents_diff(const screen &earlier) const { return text_from(earlier, jeihpal_screen_contents_diff); }
    std::string input_mode_diff(const screen &earlier) const {
        return text_from(earlier, jeihpal_screen_input_mode_diff);
    }

    std::string contents_between(uint16_t start_row, uint16_t start_col, uint16_t end_row, uint16_t end_col) const {
        return detail::whole([&](uint8_t *to, size_t room, size_t *length) {
            return jeihpal_screen_contents_between(word(), start_row, start_col, end_row, end_col, to, room, length);
        });
    }

    // The escape sequences that draw each row.
    std::vector<std::string> rows_formatted(uint16_t start, uint16_t width) const {
        std::vector<size_t> lengths(look().rows);
        size_t rows = 0;
        std::string all = detail::whole([&](uint8_t *to, size_t room, size_t *length) {
            return jeihpal_screen_rows_formatted(word(), start, width, to, room, length, lengths.data(),
                                                 lengths.size(), &rows);
        });
        std::vector<std::string> made;
        size_t at = 0;
        for (size_t length : lengths) {
            made.push_back(all.substr(at, length));
            at += length;
        }
        return made;
    }

    // Sets whether next_request returns what the screen does nothing for, and rows that leave it for good.
    void tell(bool unhandled, bool rows) { checked(jeihpal_screen_tell(word(), unhandled, rows)); }

    // The oldest request that waits, if any.
    std::optional<request> next_request() {
        std::string room(JEIHPAL_MOST_REQUEST_BYTES, '\0');
        jeihpal_request told;
        int32_t kind = take_request(room, told);
        if (kind == JEIHPAL_NO_REQUEST) return std::nullopt;
        if (told.length > room.size()) {
            room.resize(told.length);
            take_request(room, told);
        }
        return request{static_cast<jeihpal_request_kind>(kind), room.substr(0, told.letters),
                       room.substr(told.letters, told.length - told.letters), told.rows, told.cols};
    }

private:
    int32_t take_request(std::string &room, jeihpal_request &told) {
        uint8_t *to = reinterpret_cast<uint8_t *>(&room[0]);
        return checked(jeihpal_screen_request(word(), to, room.size(), &told));
    }
    std::string text(int32_t (*call)(jeihpal_screen *, uint8_t *, size_t, size_t *)) const {
        return detail::whole([&](uint8_t *to, size_t room, size_t *length) { return call(word(), to, room, length); });
    }
    std::string text_from(const screen &earlier, int32_t (*call)(jeihpal_screen *, jeihpal_screen *, uint8_t *, size_t,
                                                                 size_t *)) const {
        if (&earlier == this) return std::string();
        return detail::whole([&](uint8_t *to, size_t room, size_t *length) {
            return call(word(), earlier.word(), to, room, length);
        });
    }

    size_t most_cells_;
};

// Draws a program's lines, on the way to a hub or a screen.
class filter : public detail::owned<jeihpal_filter, jeihpal_filter_close> {
public:
    filter() { checked(jeihpal_filter_new(word())); }

    // Reads the next piece of a program's output, and returns the bytes to use in its place. If it throws, the piece
    // has not passed.
    std::string pass(std::string_view bytes) {
        checked(jeihpal_filter_pass(word(), detail::bytes_of(bytes), bytes.size()));
        return detail::whole([&](uint8_t *to, size_t room, size_t *length) {
            return jeihpal_filter_given(word(), to, room, length);
        });
    }
};

// What happens at a moment of a recording.
struct event {
    jeihpal_event_kind kind;
    uint64_t time; // in microseconds
    std::string text;
    uint16_t rows;
    uint16_t cols;
};

class recording : public detail::owned<jeihpal_recording, jeihpal_recording_close> {
public:
    explicit recording(std::string_view bytes) {
        checked(jeihpal_recording_open(word(), detail::bytes_of(bytes), bytes.size()));
    }
    // A typescript.
    recording(std::string_view output, std::string_view timing) {
        checked(jeihpal_recording_open_script(word(), detail::bytes_of(output), output.size(), detail::bytes_of(timing),
                                              timing.size()));
    }

    jeihpal_recorded look() const {
        jeihpal_recorded look;
        checked(jeihpal_recording_look(word(), &look));
        return look;
    }

    // Throws if there are fewer events.
    jeihpal::event event(size_t index) const {
        jeihpal_event told;
        checked(jeihpal_recording_event(word(), index, &told));
        std::string text(told.length, '\0');
        uint8_t none = 0, *to = text.empty() ? &none : reinterpret_cast<uint8_t *>(&text[0]);
        size_t length = 0;
        checked(jeihpal_recording_event_text(word(), index, to, text.size(), &length));
        return jeihpal::event{static_cast<jeihpal_event_kind>(told.kind), told.time, std::move(text), told.rows,
                              told.cols};
    }

    // How many cells its largest size has, at first or later. Who made the recording chose it, and a screen takes
    // memory for it.
    size_t most_cells() const {
        jeihpal_recorded first = look();
        size_t most = size_t{first.rows} * first.cols;
        for (size_t index = 0; index < first.events; index++) {
            jeihpal_event told;
            checked(jeihpal_recording_event(word(), index, &told));
            most = std::max(most, size_t{told.rows} * told.cols);
        }
        return most;
    }

    // A screen of this size as it is after all events up to a time, in microseconds. It has no requests.
    jeihpal::screen screen_at(uint64_t time, uint16_t rows, uint16_t cols, size_t scrollback = 0) const {
        jeihpal::screen screen(1, 1);
        checked(jeihpal_recording_screen(word(), screen.word(), rows, cols, scrollback, time));
        return screen;
    }

    // Nothing, or the colour of texts, that of backgrounds and sixteen others, each as 0xRRGGBB.
    std::vector<uint32_t> colors() const {
        std::vector<uint32_t> colors(18);
        size_t count = 0;
        checked(jeihpal_recording_colors(word(), colors.data(), colors.size(), &count));
        colors.resize(count);
        return colors;
    }
};

} // namespace jeihpal

#endif
