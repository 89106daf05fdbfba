// jeihpal.hpp: objects that close themselves, copies, and what is thrown.
#include "tried.h"
#include <jeihpal.hpp>
#include <memory>
#include <thread>

static void frames() {
    jeihpal::hub hub(1, 20);
    jeihpal::view view(1, 20);
    size_t client = hub.attach();
    hub.feed("[####      ]  40%");
    hub.feed(std::string_view()); // no bytes, and no pointer
    CHECK(hub.frame(client) == JEIHPAL_FULL);
    std::string owed = hub.owed(client);
    view.advance(owed);
    hub.sent(client, owed.size());
    CHECK(view.row_text(0) == "[####      ]  40%" && view.held() == 0);
    CHECK(hub.contents() == view.row_text(0));
    try {
        hub.frame(77);
        CHECK(false);
    } catch (const jeihpal::error &error) {
        CHECK(error.code() == JEIHPAL_UNKNOWN_CLIENT);
    }
}

static void late() {
    jeihpal::hub hub(1, 20);
    jeihpal::view view(1, 20);
    size_t client = hub.attach();
    hub.feed("one");
    CHECK(hub.redraw(client)->empty() && hub.frame(client) == JEIHPAL_FULL);
    hub.feed(" two");
    view.advance(*hub.redraw(client));
    size_t fork = hub.fork(client);
    CHECK(view.row_text(0) == "one" && hub.frame(fork) == JEIHPAL_DIFFERENCE);
    view.advance(hub.owed(fork));
    CHECK(view.row_text(0) == "one two");
}

static void whole() {
    jeihpal::hub hub(1, 20);
    jeihpal::view view(1, 20);
    size_t client = hub.attach();
    hub.feed("one");
    CHECK(hub.whole_frame(client)->empty() && hub.frame(client) == JEIHPAL_FULL);
    view.advance("\x1b[?1002h\x1b[4 qother");
    view.advance(*hub.whole_frame(client));
    CHECK(view.row_text(0) == "one" && view.look().mouse == JEIHPAL_MOUSE_NONE && view.look().style == 0);
}

// Whether the work is refused for a size of too many cells.
template <class Work> static bool is_too_large(Work work) {
    try {
        work();
    } catch (const jeihpal::error &error) {
        return error.code() == JEIHPAL_TOO_LARGE;
    }
    return false;
}

static void limits() {
    CHECK(is_too_large([] { jeihpal::hub(65535, 65535, 20); }));
    CHECK(is_too_large([] { jeihpal::view(3, 7, 20); }));
    CHECK(is_too_large([] { jeihpal::screen(3, 7, 0, 20); }));
    jeihpal::hub hub(4, 5, 20);
    jeihpal::screen screen(4, 5, 9, 20), other(9, 9), copy = screen;
    hub.resize(2, 10);
    CHECK(is_too_large([&] { hub.resize(3, 7); }) && hub.look().cols == 10);
    CHECK(is_too_large([&] { screen.resize(3, 7); }) && is_too_large([&] { copy.resize(3, 7); }));
    other.resize(10, 10);
    other = std::move(copy);
    CHECK(is_too_large([&] { other.resize(3, 7); }) && other.look().cols == 5);
}

static void screens() {
    jeihpal::screen screen(2, 5, 3);
    screen.process("a\r\nb\r\nc\x1b]2;title\a");
    jeihpal::screen copy = screen;
    copy.process("\x1b[Hx");
    CHECK(copy.state_diff(screen) == "\x1b[Hx" && screen.state_diff(screen).empty());
    CHECK(copy.contents() == "x\nc" && screen.contents() == "b\nc");
    CHECK(screen.rows_formatted(0, 5) == (std::vector<std::string>{"b", "c"}));
    jeihpal::row row = copy.row(0);
    CHECK(row.cells.size() == 5 && !row.wrapped && jeihpal::text(row.cells[0]) == "x");
    CHECK(copy.cell(0, 0)->width == 1 && !copy.cell(2, 0) && copy.look().kept == 1);
    std::optional<jeihpal::request> request = screen.next_request();
    CHECK(request && request->kind == JEIHPAL_TITLE && request->text == "title" && !screen.next_request());
    screen.tell(true, true);
    screen.process("\x1b[?5i\x1b[1;1H\x1b[31mrow\n\n");
    request = screen.next_request();
    CHECK(request && request->kind == JEIHPAL_UNHANDLED_CSI && request->letters == "?" && request->text == "5i");
    CHECK(!screen.next_request());
    screen.process("\x1b[2J\x1b[1;1Hb\r\nc");
    jeihpal::screen moved = std::move(screen);
    CHECK(moved.contents() == "b\nc");
    try {
        screen.contents();
        CHECK(false);
    } catch (const jeihpal::error &error) {
        CHECK(error.code() == JEIHPAL_CLOSED);
    }
    moved = copy;
    CHECK(moved.contents() == copy.contents());
    moved.scroll(1);
    CHECK(moved.clone_visible().look().kept == 0 && moved.clone_visible().contents() == moved.contents());
    std::thread([kept = std::make_unique<jeihpal::screen>(std::move(moved))] { CHECK(kept->look().rows == 2); }).join();
}

static void recordings() {
    jeihpal::recording cast("{\"version\": 3, \"term\": {\"cols\": 80, \"rows\": 24}}\n[0.5, \"o\", \"hi\"]\n");
    CHECK(cast.look().events == 1 && cast.look().cols == 80 && cast.colors().empty());
    jeihpal::event event = cast.event(0);
    CHECK(event.kind == JEIHPAL_OUTPUT && event.time == 500000 && event.text == "hi");
    CHECK(cast.most_cells() == 1920);
    CHECK(jeihpal::recording(std::string_view()).event(0).text.empty());
    CHECK(jeihpal::recording("began\nabc", "0.25 2\n").event(0).text == "ab");
    try {
        cast.event(1);
        CHECK(false);
    } catch (const jeihpal::error &error) {
        CHECK(error.code() == JEIHPAL_NO_EVENT);
    }
}

static void filters() {
    jeihpal::filter filter;
    CHECK(filter.pass("\x1b(0lq") == "\x1b(0\u250c\u2500" && filter.pass("k") == "\u2510");
    CHECK(filter.pass(std::string(5000, 'x')).size() == 15000 && filter.pass("").empty());
}

int main() {
    CHECK(jeihpal_runs_here());
    frames();
    late();
    whole();
    limits();
    screens();
    recordings();
    filters();
    puts("cpp: well");
    return 0;
}
