/* Tests every call, with its examples byte for byte, and each code except those for refused memory. */
#include "tried.h"

static void codes_of_words(void) {
    jeihpal_hub hub = JEIHPAL_INIT;
    jeihpal_view view = JEIHPAL_INIT;
    jeihpal_screen screen = JEIHPAL_INIT;
    size_t length = 77;
    CHECK(jeihpal_abi() == JEIHPAL_ABI);
    CHECK(jeihpal_hub_feed(&hub, BYTES("x")) == JEIHPAL_CLOSED);
    CHECK(jeihpal_view_held(&view, &length) == JEIHPAL_CLOSED && length == 77);
    CHECK(jeihpal_screen_mark(&screen) == JEIHPAL_CLOSED);
    CHECK(jeihpal_hub_new(&hub, 0, 20) == JEIHPAL_BAD_SIZE && !hub.held);
    CHECK(jeihpal_view_new(&view, 20, 0) == JEIHPAL_BAD_SIZE && !view.held);
    CHECK(jeihpal_screen_new(&screen, 0, 0, 0) == JEIHPAL_BAD_SIZE && !screen.held);
    CHECK(jeihpal_view_new(&view, 1, 1) == JEIHPAL_OK && view.held);
    CHECK(jeihpal_hub_feed((jeihpal_hub *)&view, BYTES("x")) == JEIHPAL_OTHER_KIND);
    CHECK(jeihpal_screen_process((jeihpal_screen *)&view, BYTES("x")) == JEIHPAL_OTHER_KIND);
    CHECK(jeihpal_view_new(&view, 0, 1) == JEIHPAL_BAD_SIZE && !view.held); /* what it held is closed */
    CHECK(jeihpal_hub_new(&hub, 2, 3) == JEIHPAL_OK && jeihpal_hub_new(&hub, 3, 2) == JEIHPAL_OK);
    CHECK(jeihpal_view_advance((jeihpal_view *)&hub, BYTES("x")) == JEIHPAL_OTHER_KIND);
    jeihpal_hub_close(&hub);
    CHECK(!hub.held && jeihpal_hub_detach(&hub, 0) == JEIHPAL_CLOSED);
    jeihpal_hub_close(&hub);
    jeihpal_view_close(&view);
    jeihpal_screen_close(&screen);
}

static void frames(void) {
    jeihpal_hub hub = JEIHPAL_INIT;
    jeihpal_view view = JEIHPAL_INIT;
    uint8_t text[1024];
    size_t client, other, length;
    CHECK(jeihpal_hub_new(&hub, 1, 20) == JEIHPAL_OK && jeihpal_view_new(&view, 1, 20) == JEIHPAL_OK);
    CHECK(jeihpal_hub_attach(&hub, &client) == JEIHPAL_OK && jeihpal_hub_attach(&hub, &other) == JEIHPAL_OK);
    CHECK(client != other && jeihpal_hub_frame(&hub, 77) == JEIHPAL_UNKNOWN_CLIENT);
    CHECK(jeihpal_hub_feed(&hub, BYTES("[####      ]  40%")) == JEIHPAL_OK);
    CHECK(jeihpal_hub_frame(&hub, client) == JEIHPAL_FULL &&
          jeihpal_hub_frame(&hub, client) == JEIHPAL_BEHIND);
    CHECK(jeihpal_hub_owed(&hub, client, text, sizeof text, &length) == JEIHPAL_OK);
    CHECK(is_text(
        text, length,
        "\x1b[?2026h\x1b[?25h\x1b[m\x1b[H\x1b[J[####      ]  40%\x1b>\x1b[?1l\x1b[?2004l\x1b[?2026l"));
    CHECK(jeihpal_hub_sent(&hub, client, length + 1) == JEIHPAL_NOT_OWED);
    tried_carry(&hub, client, &view, 5);
    CHECK(jeihpal_hub_frame(&hub, client) == JEIHPAL_UNCHANGED);
    CHECK(jeihpal_hub_feed(&hub, BYTES("\r[########  ]  80%")) == JEIHPAL_OK);
    CHECK(jeihpal_hub_frame(&hub, client) == JEIHPAL_DIFFERENCE);
    CHECK(jeihpal_hub_owed(&hub, client, text, 4, &length) == JEIHPAL_OK && length > 4);
    tried_carry(&hub, client, &view, 3);
    CHECK(jeihpal_view_row_text(&view, 0, text, sizeof text, &length) == JEIHPAL_OK);
    CHECK(is_text(text, length, "[########  ]  80%"));
    CHECK(jeihpal_hub_row_text(&hub, 0, text, sizeof text, &length) == JEIHPAL_OK);
    CHECK(is_text(text, length, "[########  ]  80%"));
    CHECK(jeihpal_hub_detach(&hub, other) == JEIHPAL_OK);
    CHECK(jeihpal_hub_detach(&hub, other) == JEIHPAL_UNKNOWN_CLIENT);
    CHECK(jeihpal_hub_owed(&hub, other, text, sizeof text, &length) == JEIHPAL_UNKNOWN_CLIENT);
    CHECK(jeihpal_hub_sent(&hub, other, 0) == JEIHPAL_UNKNOWN_CLIENT);
    jeihpal_hub_close(&hub);
    jeihpal_view_close(&view);
}

/* A terminal that joins late reads the redraw of a client, and goes on with the frames of a fork. */
static void late(void) {
    jeihpal_hub hub = JEIHPAL_INIT;
    jeihpal_view view = JEIHPAL_INIT;
    uint8_t text[1024];
    size_t client, fork, length = 7;
    CHECK(jeihpal_hub_new(&hub, 1, 20) == JEIHPAL_OK && jeihpal_view_new(&view, 1, 20) == JEIHPAL_OK);
    CHECK(jeihpal_hub_attach(&hub, &client) == JEIHPAL_OK);
    CHECK(jeihpal_hub_redraw(&hub, client, text, sizeof text, &length) == JEIHPAL_OK && length == 0);
    CHECK(jeihpal_hub_feed(&hub, BYTES("one")) == JEIHPAL_OK);
    CHECK(jeihpal_hub_frame(&hub, client) == JEIHPAL_FULL);
    CHECK(jeihpal_hub_feed(&hub, BYTES(" two")) == JEIHPAL_OK);
    CHECK(jeihpal_hub_redraw(&hub, client, text, sizeof text, &length) == JEIHPAL_OK);
    CHECK(is_text(text, length, "\x1b[?2026h\x1b[?25h\x1b[m\x1b[H\x1b[Jone\x1b>\x1b[?1l\x1b[?2004l\x1b[?2026l"));
    CHECK(jeihpal_view_advance(&view, text, length) == JEIHPAL_OK);
    CHECK(jeihpal_hub_fork(&hub, client, &fork) == JEIHPAL_OK && fork != client);
    CHECK(jeihpal_hub_frame(&hub, fork) == JEIHPAL_DIFFERENCE);
    tried_carry(&hub, fork, &view, 2);
    CHECK(jeihpal_view_row_text(&view, 0, text, sizeof text, &length) == JEIHPAL_OK);
    CHECK(is_text(text, length, "one two"));
    CHECK(jeihpal_hub_fork(&hub, 77, &fork) == JEIHPAL_UNKNOWN_CLIENT && fork != 77);
    CHECK(jeihpal_hub_redraw(&hub, 77, text, sizeof text, &length) == JEIHPAL_UNKNOWN_CLIENT && length == 7);
    jeihpal_hub_close(&hub);
    jeihpal_view_close(&view);
}

/* A terminal that was left with modes on reads a whole frame, and goes on with the client's frames. The modes are
 * turned off by xterm's private modes 9, 1000, 1002, 1003, 1005 and 1006, reset, and DECSCUSR 0. */
static void whole(void) {
    jeihpal_hub hub = JEIHPAL_INIT;
    jeihpal_view view = JEIHPAL_INIT;
    jeihpal_look look;
    uint8_t text[1024];
    size_t client, length = 7;
    CHECK(jeihpal_hub_new(&hub, 1, 20) == JEIHPAL_OK && jeihpal_view_new(&view, 1, 20) == JEIHPAL_OK);
    CHECK(jeihpal_hub_attach(&hub, &client) == JEIHPAL_OK);
    CHECK(jeihpal_hub_whole_frame(&hub, client, text, sizeof text, &length) == JEIHPAL_OK && length == 0);
    CHECK(jeihpal_hub_feed(&hub, BYTES("one")) == JEIHPAL_OK);
    CHECK(jeihpal_hub_frame(&hub, client) == JEIHPAL_FULL);
    CHECK(jeihpal_hub_whole_frame(&hub, client, text, sizeof text, &length) == JEIHPAL_OK);
    CHECK(is_text(text, length,
                  "\x1b[?2026h\x1b[?9l\x1b[?1000l\x1b[?1002l\x1b[?1003l\x1b[?1005l\x1b[?1006l\x1b[0 q"
                  "\x1b[?25h\x1b[m\x1b[H\x1b[Jone\x1b>\x1b[?1l\x1b[?2004l\x1b[?2026l"));
    CHECK(jeihpal_view_advance(&view, BYTES("\x1b[?1002h\x1b[?1006h\x1b[4 qother")) == JEIHPAL_OK);
    CHECK(jeihpal_view_look(&view, &look) == JEIHPAL_OK && look.mouse && look.encoding && look.style == 4);
    CHECK(jeihpal_view_advance(&view, text, length) == JEIHPAL_OK);
    CHECK(jeihpal_view_look(&view, &look) == JEIHPAL_OK && !look.mouse && !look.encoding && !look.style);
    CHECK(jeihpal_hub_owed(&hub, client, text, sizeof text, &length) == JEIHPAL_OK);
    CHECK(jeihpal_hub_sent(&hub, client, length) == JEIHPAL_OK);
    CHECK(jeihpal_hub_feed(&hub, BYTES(" two")) == JEIHPAL_OK);
    CHECK(jeihpal_hub_frame(&hub, client) == JEIHPAL_DIFFERENCE);
    tried_carry(&hub, client, &view, 2);
    CHECK(jeihpal_view_row_text(&view, 0, text, sizeof text, &length) == JEIHPAL_OK);
    CHECK(is_text(text, length, "one two"));
    CHECK(jeihpal_hub_whole_frame(&hub, 77, text, sizeof text, &length) == JEIHPAL_UNKNOWN_CLIENT && length == 7);
    jeihpal_hub_close(&hub);
    jeihpal_view_close(&view);
}

static void other_answers(void) {
    jeihpal_hub hub = JEIHPAL_INIT;
    jeihpal_look look;
    char cell[64];
    uint8_t text[64];
    size_t client, other, length;
    CHECK(jeihpal_hub_new(&hub, 300, 300) == JEIHPAL_OK && jeihpal_hub_attach(&hub, &client) == JEIHPAL_OK);
    CHECK(jeihpal_hub_feed(&hub, BYTES("\x1b[?2026hx")) == JEIHPAL_OK);
    CHECK(jeihpal_hub_frame(&hub, client) == JEIHPAL_HELD);
    CHECK(jeihpal_hub_look(&hub, &look) == JEIHPAL_OK && look.updating == 1 && look.rows == 300);
    CHECK(jeihpal_hub_resize(&hub, 0, 1) == JEIHPAL_BAD_SIZE &&
          jeihpal_hub_frame(&hub, client) == JEIHPAL_HELD);
    CHECK(jeihpal_hub_resize(&hub, 300, 300) == JEIHPAL_OK);
    CHECK(jeihpal_hub_frame(&hub, client) == JEIHPAL_UNKNOWN_CLIENT);
    CHECK(jeihpal_hub_attach(&hub, &client) == JEIHPAL_OK);
    CHECK(jeihpal_hub_feed(&hub, BYTES("\xe2\x9d\xa4\xef\xb8\x8f")) == JEIHPAL_OK);
    CHECK(jeihpal_hub_frame(&hub, client) == JEIHPAL_UNSURE);
    CHECK(jeihpal_hub_feed(&hub, BYTES("\x1b[H\x1b[2J")) == JEIHPAL_OK);
    CHECK(jeihpal_hub_attach(&hub, &other) == JEIHPAL_OK);
    for (int i = 0; i < 300 * 300; i++) {
        int count = snprintf(cell, sizeof cell, "\x1b[38;2;%d;200;200;48;2;%d;100;%dmx", 100 + i % 100,
                             100 + i % 99, 100 + i % 98);
        CHECK(jeihpal_hub_feed(&hub, (const uint8_t *)cell, (size_t)count) == JEIHPAL_OK);
        if (i % 9000) continue;
        CHECK(jeihpal_hub_frame(&hub, other) >= JEIHPAL_FULL);
        CHECK(jeihpal_hub_owed(&hub, other, text, sizeof text, &length) == JEIHPAL_OK);
        CHECK(jeihpal_hub_sent(&hub, other, length) == JEIHPAL_OK);
    }
    CHECK(jeihpal_hub_attach(&hub, &client) == JEIHPAL_OK);
    CHECK(jeihpal_hub_frame(&hub, client) == JEIHPAL_TOO_LONG);
    CHECK(jeihpal_hub_whole_frame(&hub, client, text, sizeof text, &length) == JEIHPAL_OK && length == 0);
    /* The frames of the other client were short, but the redraw, which draws all cells, isn't. */
    CHECK(jeihpal_hub_redraw(&hub, other, text, sizeof text, &length) == JEIHPAL_TOO_LONG && length == 0);
    length = 7;
    CHECK(jeihpal_hub_whole_frame(&hub, other, text, sizeof text, &length) == JEIHPAL_TOO_LONG && length == 0);
    jeihpal_hub_close(&hub);
}

static void view_cells(void) {
    jeihpal_view view = JEIHPAL_INIT;
    jeihpal_cell cell;
    jeihpal_look look;
    size_t held;
    CHECK(jeihpal_view_new(&view, 2, 9) == JEIHPAL_OK);
    CHECK(jeihpal_view_advance(&view, BYTES("\x1b[1;3;4;7;38;5;9;48;2;1;2;3m\xe7\xb1\xb3\x1b[m\x1b[2m"
                                            "e\xcc\x81")) == JEIHPAL_OK);
    CHECK(jeihpal_view_cell(&view, 0, 0, &cell) == JEIHPAL_OK && cell.width == 2 &&
          is_text(cell.text, cell.length, "\xe7\xb1\xb3"));
    CHECK(cell.attributes == (JEIHPAL_BOLD | JEIHPAL_ITALIC | JEIHPAL_UNDERLINED | JEIHPAL_INVERSE) &&
          cell.reserved == 0);
    CHECK(cell.foreground.kind == JEIHPAL_COLOR_INDEXED && cell.foreground.red_or_index == 9);
    CHECK(cell.background.kind == JEIHPAL_COLOR_RGB && cell.background.red_or_index == 1);
    CHECK(cell.background.green == 2 && cell.background.blue == 3);
    CHECK(jeihpal_view_cell(&view, 0, 1, &cell) == JEIHPAL_OK && cell.width == 0 && cell.length == 0);
    CHECK(jeihpal_view_cell(&view, 0, 2, &cell) == JEIHPAL_OK &&
          is_text(cell.text, cell.length, "e\xcc\x81"));
    CHECK(cell.attributes == JEIHPAL_DIM && cell.foreground.kind == JEIHPAL_COLOR_DEFAULT &&
          cell.text[3] == 0 && cell.text[31] == 0);
    CHECK(jeihpal_view_cell(&view, 2, 0, &cell) == JEIHPAL_NO_CELL &&
          jeihpal_view_cell(&view, 0, 9, &cell) == JEIHPAL_NO_CELL);
    CHECK(jeihpal_view_advance(&view, BYTES("\x1b[?1003;1006;2004;1h\x1b=\x1b[?25l\x1b[4 q\x1b[2;9Hx")) ==
          JEIHPAL_OK);
    CHECK(jeihpal_view_look(&view, &look) == JEIHPAL_OK && look.rows == 2 && look.cols == 9 &&
          look.row == 1 && look.col == 9);
    CHECK(look.hidden && look.style == 4 && look.mouse == JEIHPAL_MOUSE_ANY_MOTION &&
          look.encoding == JEIHPAL_ENCODING_SGR);
    CHECK(look.keypad && look.cursor_keys && look.paste && !look.failed && !look.kept && !look.scrolled);
    CHECK(jeihpal_view_advance(&view, BYTES("\x1b[?2026h\x1b[H\x1b[J")) == JEIHPAL_OK);
    CHECK(jeihpal_view_held(&view, &held) == JEIHPAL_OK && held > 0);
    CHECK(jeihpal_view_cell(&view, 0, 0, &cell) == JEIHPAL_OK && cell.width == 2);
    CHECK(jeihpal_view_stop(&view) == JEIHPAL_OK && jeihpal_view_held(&view, &held) == JEIHPAL_OK &&
          held == 0);
    CHECK(jeihpal_view_cell(&view, 0, 0, &cell) == JEIHPAL_OK && cell.length == 0);
    jeihpal_view_close(&view);
}

static void screens(void) {
    jeihpal_screen screen = JEIHPAL_INIT;
    uint8_t text[1024];
    size_t length;
    CHECK(jeihpal_screen_new(&screen, 24, 80, 10) == JEIHPAL_OK);
    CHECK(jeihpal_screen_process(&screen, BYTES("this text is \x1b[31mRED\x1b[m")) == JEIHPAL_OK);
    CHECK(jeihpal_screen_contents_formatted(&screen, text, sizeof text, &length) == JEIHPAL_OK);
    CHECK(is_text(text, length, "\x1b[?25h\x1b[m\x1b[H\x1b[Jthis text is \x1b[31mRED\x1b[m"));
    CHECK(jeihpal_screen_state(&screen, text, sizeof text, &length) == JEIHPAL_OK);
    CHECK(is_text(text, length,
                  "\x1b[?25h\x1b[m\x1b[H\x1b[Jthis text is \x1b[31mRED\x1b[m\x1b>\x1b[?1l\x1b[?2004l"));
    CHECK(jeihpal_screen_mark(&screen) == JEIHPAL_OK);
    CHECK(jeihpal_screen_process(&screen, BYTES("\x1b[3D\x1b[32mGREEN")) == JEIHPAL_OK);
    CHECK(jeihpal_screen_contents(&screen, text, sizeof text, &length) == JEIHPAL_OK);
    CHECK(is_text(text, length, "this text is GREEN"));
    CHECK(jeihpal_screen_difference(&screen, text, sizeof text, &length) == JEIHPAL_OK);
    CHECK(is_text(text, length, "\x1b[1;14H\x1b[32mGREEN"));
    CHECK(jeihpal_screen_contents_between(&screen, 0, 5, 0, 9, text, sizeof text, &length) == JEIHPAL_OK);
    CHECK(is_text(text, length, "text"));
    memset(text, '.', sizeof text);
    CHECK(jeihpal_screen_contents(&screen, text, 4, &length) == JEIHPAL_OK && length == 18);
    CHECK(is_text(text, 6, "this.."));
    CHECK(jeihpal_screen_contents(&screen, text, 0, &length) == JEIHPAL_OK && length == 18 && text[0] == 't');
    jeihpal_screen_close(&screen);
}

/* The cells of a row are the same as those of the calls for one cell, and as many as fit are copied. */
static void row_cells(void) {
    jeihpal_hub hub = JEIHPAL_INIT;
    jeihpal_view view = JEIHPAL_INIT;
    jeihpal_screen screen = JEIHPAL_INIT;
    jeihpal_cell cells[8], cell;
    size_t count = 77;
    uint8_t wrapped = 77;
    CHECK(jeihpal_screen_row_cells(&screen, 0, cells, 8, &count, &wrapped) == JEIHPAL_CLOSED);
    CHECK(jeihpal_hub_new(&hub, 2, 5) == JEIHPAL_OK && jeihpal_view_new(&view, 2, 5) == JEIHPAL_OK);
    CHECK(jeihpal_screen_new(&screen, 2, 5, 3) == JEIHPAL_OK);
    CHECK(jeihpal_screen_row_cells((jeihpal_screen *)&hub, 0, cells, 8, &count, &wrapped) ==
          JEIHPAL_OTHER_KIND);
    CHECK(jeihpal_screen_row_cells(&screen, 2, cells, 8, &count, &wrapped) == JEIHPAL_NO_CELL);
    CHECK(jeihpal_hub_row_cells(&hub, 2, cells, 8, &count, &wrapped) == JEIHPAL_NO_CELL);
    CHECK(jeihpal_view_row_cells(&view, 2, cells, 8, &count, &wrapped) == JEIHPAL_NO_CELL);
    CHECK(count == 77 && wrapped == 77);
#define WIDE "\x1b[1;31ma\xe7\xb1\xb3\x1b[mbcd"
    CHECK(jeihpal_hub_feed(&hub, BYTES(WIDE)) == JEIHPAL_OK);
    CHECK(jeihpal_view_advance(&view, BYTES(WIDE)) == JEIHPAL_OK);
    CHECK(jeihpal_screen_process(&screen, BYTES(WIDE)) == JEIHPAL_OK);
    for (uint16_t row = 0; row < 2; row++) {
        for (int kind = 0; kind < 3; kind++) {
            memset(cells, 0x55, sizeof cells);
            CHECK((kind == 0   ? jeihpal_hub_row_cells(&hub, row, cells, 8, &count, &wrapped)
                   : kind == 1 ? jeihpal_view_row_cells(&view, row, cells, 8, &count, &wrapped)
                               : jeihpal_screen_row_cells(&screen, row, cells, 8, &count, &wrapped)) == JEIHPAL_OK);
            CHECK(count == 5 && wrapped == (row == 0) && cells[5].text[0] == 0x55);
            for (uint16_t col = 0; col < 5; col++) {
                memset(&cell, 0, sizeof cell);
                CHECK(jeihpal_screen_cell(&screen, row, col, &cell) == JEIHPAL_OK);
                CHECK(memcmp(&cell, &cells[col], sizeof cell) == 0);
            }
        }
    }
    CHECK(jeihpal_screen_row_cells(&screen, 0, cells, 2, &count, &wrapped) == JEIHPAL_OK && count == 5);
    CHECK(cells[1].width == 2 && is_text(cells[1].text, cells[1].length, "\xe7\xb1\xb3"));
    /* A kept row keeps the width that it had; its cells are those in the screen's columns. */
    CHECK(jeihpal_screen_process(&screen, BYTES("\r\n\r\n")) == JEIHPAL_OK);
    CHECK(jeihpal_screen_resize(&screen, 2, 3) == JEIHPAL_OK && jeihpal_screen_scroll(&screen, 9) == JEIHPAL_OK);
    CHECK(jeihpal_screen_row_cells(&screen, 0, cells, 8, &count, &wrapped) == JEIHPAL_OK && count == 3);
    jeihpal_hub_close(&hub);
    jeihpal_view_close(&view);
    jeihpal_screen_close(&screen);
}

static void copies(void) {
    jeihpal_screen screen = JEIHPAL_INIT, copy = JEIHPAL_INIT, fresh = JEIHPAL_INIT;
    jeihpal_view view = JEIHPAL_INIT;
    jeihpal_request request;
    jeihpal_look look, other;
    uint8_t text[128];
    size_t length, rows, lengths[4] = {0};
    CHECK(jeihpal_screen_clone(&copy, &screen) == JEIHPAL_CLOSED && !copy.held);
    CHECK(jeihpal_view_new(&view, 2, 5) == JEIHPAL_OK && jeihpal_screen_new(&screen, 2, 5, 3) == JEIHPAL_OK);
    CHECK(jeihpal_screen_clone(&copy, (jeihpal_screen *)&view) == JEIHPAL_OTHER_KIND && !copy.held);
    CHECK(jeihpal_screen_state_diff(&screen, &copy, text, sizeof text, &length) == JEIHPAL_CLOSED);
    CHECK(jeihpal_screen_contents_diff(&copy, &screen, text, sizeof text, &length) == JEIHPAL_CLOSED);
    CHECK(jeihpal_screen_input_mode_diff(&screen, (jeihpal_screen *)&view, text, sizeof text, &length) ==
          JEIHPAL_OTHER_KIND);
    CHECK(jeihpal_screen_process(&screen, BYTES("a\r\nb\r\nc\a")) == JEIHPAL_OK);
    CHECK(jeihpal_screen_clone(&copy, &screen) == JEIHPAL_OK && copy.held && copy.held != screen.held);
    CHECK(jeihpal_screen_look(&screen, &look) == JEIHPAL_OK && jeihpal_screen_look(&copy, &other) == JEIHPAL_OK);
    CHECK(memcmp(&look, &other, offsetof(jeihpal_look, failed) + 1) == 0 && look.kept == 1);
    CHECK(jeihpal_screen_request(&copy, text, sizeof text, &request) == JEIHPAL_NO_REQUEST);
    CHECK(jeihpal_screen_request(&screen, text, sizeof text, &request) == JEIHPAL_BELL);
    CHECK(jeihpal_screen_process(&copy, BYTES("\x1b[?2004h\x1b[Hx")) == JEIHPAL_OK);
    CHECK(jeihpal_screen_contents_diff(&copy, &screen, text, sizeof text, &length) == JEIHPAL_OK);
    CHECK(is_text(text, length, "\x1b[Hx"));
    CHECK(jeihpal_screen_state_diff(&copy, &screen, text, sizeof text, &length) == JEIHPAL_OK);
    CHECK(is_text(text, length, "\x1b[Hx\x1b[?2004h"));
    CHECK(jeihpal_screen_input_mode_diff(&copy, &screen, text, sizeof text, &length) == JEIHPAL_OK);
    CHECK(is_text(text, length, "\x1b[?2004h"));
    CHECK(jeihpal_screen_rows_diff(&copy, &screen, 0, 5, text, sizeof text, &length, lengths, 4, &rows) ==
          JEIHPAL_OK);
    CHECK(is_text(text, length, "x") && rows == 2 && lengths[0] == 1 && lengths[1] == 0 && lengths[2] == 0);
    CHECK(jeihpal_screen_rows_diff(&copy, (jeihpal_screen *)&view, 0, 5, text, 9, &length, lengths, 4, &rows) ==
          JEIHPAL_OTHER_KIND);
    CHECK(jeihpal_screen_contents(&screen, text, sizeof text, &length) == JEIHPAL_OK);
    CHECK(is_text(text, length, "b\nc")); /* the other one is as it was */
    CHECK(jeihpal_screen_clone(&copy, &screen) == JEIHPAL_OK); /* what it held is closed */
    CHECK(jeihpal_screen_state_diff(&copy, &screen, text, sizeof text, &length) == JEIHPAL_OK && length == 0);
    CHECK(jeihpal_screen_clear_scrollback(&copy) == JEIHPAL_OK);
    CHECK(jeihpal_screen_look(&copy, &other) == JEIHPAL_OK && other.kept == 0);
    CHECK(jeihpal_screen_look(&screen, &look) == JEIHPAL_OK && look.kept == 1);
    CHECK(jeihpal_screen_clear_scrollback((jeihpal_screen *)&view) == JEIHPAL_OTHER_KIND);
    CHECK(jeihpal_screen_tell((jeihpal_screen *)&view, 1, 1) == JEIHPAL_OTHER_KIND);
    CHECK(jeihpal_screen_scroll(&screen, 1) == JEIHPAL_OK);
    CHECK(jeihpal_screen_clone_visible(&copy, (jeihpal_screen *)&view) == JEIHPAL_OTHER_KIND);
    CHECK(jeihpal_screen_clone_visible(&copy, &screen) == JEIHPAL_OK);
    CHECK(jeihpal_screen_look(&copy, &other) == JEIHPAL_OK && other.kept == 0 && other.scrolled == 0);
    CHECK(jeihpal_screen_state(&copy, text, sizeof text, &length) == JEIHPAL_OK && length < sizeof text);
    CHECK(jeihpal_screen_new(&fresh, 2, 5, 0) == JEIHPAL_OK);
    CHECK(jeihpal_screen_process(&fresh, text, length) == JEIHPAL_OK);
    CHECK(jeihpal_screen_contents(&fresh, text, sizeof text, &length) == JEIHPAL_OK);
    CHECK(is_text(text, length, "a\nb")); /* what the screen shows */
    jeihpal_screen_close(&fresh);
    jeihpal_screen_close(&screen);
    jeihpal_screen_close(&copy);
    CHECK(jeihpal_screen_clone_visible(&copy, &screen) == JEIHPAL_CLOSED && !copy.held);
    CHECK(jeihpal_screen_clear_scrollback(&screen) == JEIHPAL_CLOSED);
    CHECK(jeihpal_screen_tell(&screen, 1, 1) == JEIHPAL_CLOSED);
    jeihpal_view_close(&view);
}

/* The parts of a redraw of a screen; the bytes are those of the Rust crate vt100. */
static void parts(void) {
    jeihpal_screen screen = JEIHPAL_INIT;
    jeihpal_drawing drawing;
    uint8_t text[128];
    size_t length, rows, lengths[3];
    CHECK(jeihpal_screen_drawing(&screen, &drawing) == JEIHPAL_CLOSED);
    CHECK(jeihpal_screen_input_mode_formatted(&screen, text, sizeof text, &length) == JEIHPAL_CLOSED);
    CHECK(jeihpal_screen_new(&screen, 3, 5, 10) == JEIHPAL_OK);
    CHECK(jeihpal_screen_process(&screen, BYTES("abcdefg\r\n\x1b[1;31mred\x1b[?2004h\x1b[4m")) == JEIHPAL_OK);
    CHECK(jeihpal_screen_drawing(&screen, &drawing) == JEIHPAL_OK);
    CHECK(drawing.foreground.kind == JEIHPAL_COLOR_INDEXED && drawing.foreground.red_or_index == 1);
    CHECK(drawing.background.kind == JEIHPAL_COLOR_DEFAULT && drawing.bold && drawing.underlined);
    CHECK(!drawing.dim && !drawing.italic && !drawing.inverse);
    CHECK(jeihpal_screen_attributes_formatted(&screen, text, sizeof text, &length) == JEIHPAL_OK);
    CHECK(is_text(text, length, "\x1b[m\x1b[31;1;4m"));
    CHECK(jeihpal_screen_input_mode_formatted(&screen, text, sizeof text, &length) == JEIHPAL_OK);
    CHECK(is_text(text, length, "\x1b>\x1b[?1l\x1b[?2004h"));
    CHECK(jeihpal_screen_cursor_state_formatted(&screen, text, sizeof text, &length) == JEIHPAL_OK);
    CHECK(is_text(text, length, "\x1b[?25h\x1b[3;4H"));
    CHECK(jeihpal_screen_contents_formatted_basic(&screen, text, sizeof text, &length) == JEIHPAL_OK);
    CHECK(is_text(text, length, "abcdefg\n\x1b[31;1mred"));
    CHECK(jeihpal_screen_rows_formatted(&screen, 0, 5, text, sizeof text, &length, lengths, 3, &rows) == JEIHPAL_OK);
    CHECK(is_text(text, length, "abcdefg\x1b[31;1mred") && rows == 3);
    CHECK(lengths[0] == 5 && lengths[1] == 2 && lengths[2] == length - 7);
    lengths[1] = 77;
    CHECK(jeihpal_screen_rows_formatted(&screen, 0, 5, text, 0, &length, lengths, 1, &rows) == JEIHPAL_OK);
    CHECK(rows == 3 && lengths[0] == 5 && lengths[1] == 77 && text[0] == 'a');
    jeihpal_screen_close(&screen);
}

static void scrollback(void) {
    jeihpal_screen screen = JEIHPAL_INIT;
    jeihpal_look look;
    jeihpal_cell cell;
    uint8_t text[64];
    size_t length;
    CHECK(jeihpal_screen_new(&screen, 2, 5, 3) == JEIHPAL_OK);
    CHECK(jeihpal_screen_process(&screen, BYTES("a\r\nb\r\nc\r\nd\x1b[?2026h")) == JEIHPAL_OK);
    CHECK(jeihpal_screen_look(&screen, &look) == JEIHPAL_OK && look.kept == 2 && look.scrolled == 0 &&
          look.updating);
    CHECK(jeihpal_screen_scroll(&screen, 9) == JEIHPAL_OK);
    CHECK(jeihpal_screen_look(&screen, &look) == JEIHPAL_OK && look.scrolled == 2);
    CHECK(jeihpal_screen_row_text(&screen, 1, text, sizeof text, &length) == JEIHPAL_OK &&
          is_text(text, length, "b"));
    CHECK(jeihpal_screen_cell(&screen, 0, 0, &cell) == JEIHPAL_OK && cell.text[0] == 'a');
    CHECK(jeihpal_screen_cell(&screen, 2, 0, &cell) == JEIHPAL_NO_CELL);
    CHECK(jeihpal_screen_scroll(&screen, 0) == JEIHPAL_OK &&
          jeihpal_screen_resize(&screen, 3, 4) == JEIHPAL_OK);
    CHECK(jeihpal_screen_look(&screen, &look) == JEIHPAL_OK && look.rows == 3 && look.cols == 4 &&
          !look.updating);
    CHECK(jeihpal_screen_resize(&screen, 3, 0) == JEIHPAL_BAD_SIZE);
    jeihpal_screen_close(&screen);
}

/* Sizes of 20 cells at most: 4 by 5 is one, 3 by 7 isn't. The largest size takes no memory before it is refused. */
static void limits(void) {
    jeihpal_hub hub = JEIHPAL_INIT;
    jeihpal_view view = JEIHPAL_INIT;
    jeihpal_screen screen = JEIHPAL_INIT;
    jeihpal_look look;
    uint8_t text[64];
    size_t client, length;
    CHECK(jeihpal_hub_new_within(&hub, 65535, 65535, 20) == JEIHPAL_TOO_LARGE && !hub.held);
    CHECK(jeihpal_view_new_within(&view, 65535, 65535, 20) == JEIHPAL_TOO_LARGE && !view.held);
    CHECK(jeihpal_screen_new_within(&screen, 65535, 65535, 0, 4294836224) == JEIHPAL_TOO_LARGE && !screen.held);
    CHECK(jeihpal_hub_resize_within(&hub, 65535, 65535, 20) == JEIHPAL_CLOSED);
    CHECK(jeihpal_hub_new_within(&hub, 0, 7, 0) == JEIHPAL_BAD_SIZE && !hub.held);
    CHECK(jeihpal_hub_new_within(&hub, 4, 5, 20) == JEIHPAL_OK);
    CHECK(jeihpal_view_new_within(&view, 4, 5, 20) == JEIHPAL_OK);
    CHECK(jeihpal_screen_new_within(&screen, 4, 5, 1000, 20) == JEIHPAL_OK);
    CHECK(jeihpal_screen_resize_within((jeihpal_screen *)&view, 9, 9, 20) == JEIHPAL_OTHER_KIND);
    CHECK(jeihpal_view_new_within(&view, 3, 7, 20) == JEIHPAL_TOO_LARGE && !view.held); /* what it held is closed */
    CHECK(jeihpal_hub_attach(&hub, &client) == JEIHPAL_OK && jeihpal_hub_feed(&hub, BYTES("x")) == JEIHPAL_OK);
    CHECK(jeihpal_hub_resize_within(&hub, 3, 7, 20) == JEIHPAL_TOO_LARGE);
    CHECK(jeihpal_hub_frame(&hub, client) == JEIHPAL_FULL); /* the client is still there */
    CHECK(jeihpal_hub_resize_within(&hub, 0, 7, 20) == JEIHPAL_BAD_SIZE);
    CHECK(jeihpal_hub_resize_within(&hub, 2, 10, 20) == JEIHPAL_OK);
    CHECK(jeihpal_hub_frame(&hub, client) == JEIHPAL_UNKNOWN_CLIENT);
    CHECK(jeihpal_screen_mark(&screen) == JEIHPAL_OK && jeihpal_screen_process(&screen, BYTES("x")) == JEIHPAL_OK);
    CHECK(jeihpal_screen_resize_within(&screen, 3, 7, 20) == JEIHPAL_TOO_LARGE);
    CHECK(jeihpal_screen_difference(&screen, text, sizeof text, &length) == JEIHPAL_OK && is_text(text, length, "x"));
    CHECK(jeihpal_screen_resize_within(&screen, 20, 1, 20) == JEIHPAL_OK);
    CHECK(jeihpal_screen_look(&screen, &look) == JEIHPAL_OK && look.rows == 20 && look.cols == 1);
    jeihpal_hub_close(&hub);
    jeihpal_screen_close(&screen);
}

static void requests(void) {
    jeihpal_screen screen = JEIHPAL_INIT;
    jeihpal_request request;
    uint8_t text[64];
    CHECK(jeihpal_screen_new(&screen, 2, 5, 0) == JEIHPAL_OK);
    CHECK(jeihpal_screen_request(&screen, text, sizeof text, &request) == JEIHPAL_NO_REQUEST &&
          request.kind == 0);
    CHECK(
        jeihpal_screen_process(
            &screen, BYTES("\a\x1bg\x1b[8;30;0t\x1b]1;icon\a\x1b]2;title\a\x1b]52;cp;aGk=\a\x1b]52;s;?\a")) ==
        JEIHPAL_OK);
    CHECK(jeihpal_screen_request(&screen, text, sizeof text, &request) == JEIHPAL_BELL &&
          request.length == 0);
    CHECK(jeihpal_screen_request(&screen, text, sizeof text, &request) == JEIHPAL_VISUAL_BELL);
    CHECK(jeihpal_screen_request(&screen, text, sizeof text, &request) == JEIHPAL_RESIZE &&
          request.rows == 30 && request.cols == 0);
    CHECK(jeihpal_screen_request(&screen, text, sizeof text, &request) == JEIHPAL_ICON_NAME &&
          is_text(text, request.length, "icon"));
    CHECK(jeihpal_screen_request(&screen, text, 2, &request) == JEIHPAL_TITLE &&
          request.length == 5); /* it stays */
    CHECK(jeihpal_screen_request(&screen, text, 5, &request) == JEIHPAL_TITLE &&
          is_text(text, request.length, "title"));
    CHECK(jeihpal_screen_request(&screen, text, sizeof text, &request) == JEIHPAL_COPY &&
          request.letters == 2);
    CHECK(is_text(text, request.length, "cpaGk="));
    CHECK(jeihpal_screen_request(&screen, text, sizeof text, &request) == JEIHPAL_PASTE &&
          is_text(text, request.length, "s"));
    CHECK(request.letters == 1 && request.dropped == 0);
    for (int i = 0; i < JEIHPAL_MOST_REQUESTS + 2; i++)
        CHECK(jeihpal_screen_process(&screen, BYTES("\a")) == JEIHPAL_OK);
    CHECK(jeihpal_screen_request(&screen, text, sizeof text, &request) == JEIHPAL_BELL &&
          request.dropped == 2);
    while (jeihpal_screen_request(&screen, text, sizeof text, &request) > 0)
        ;
    CHECK(jeihpal_screen_tell(&screen, 1, 1) == JEIHPAL_OK);
    CHECK(jeihpal_screen_process(&screen, BYTES("\x1b[2J\x1b[H\x1b[31mone\x1b[>4:2;7\"q\n\n\n\n\n\n")) == JEIHPAL_OK);
    CHECK(jeihpal_screen_request(&screen, text, sizeof text, &request) == JEIHPAL_UNHANDLED_CSI &&
          request.letters == 2 && is_text(text, request.length, ">\"4:2;7q"));
    CHECK(jeihpal_screen_request(&screen, text, sizeof text, &request) == JEIHPAL_ROW &&
          request.letters == 0 && is_text(text, request.length, "\x1b[31mone\n"));
    CHECK(jeihpal_screen_tell(&screen, 0, 0) == JEIHPAL_OK);
    jeihpal_screen_close(&screen);
}

static void recordings(void) {
    jeihpal_recording recording = JEIHPAL_INIT, none = JEIHPAL_INIT;
    jeihpal_screen screen = JEIHPAL_INIT, other = JEIHPAL_INIT;
    jeihpal_recorded look;
    jeihpal_look shown;
    jeihpal_event event;
    uint32_t colors[18];
    uint8_t text[16];
    size_t length = 77;
    CHECK(jeihpal_recording_look(&recording, &look) == JEIHPAL_CLOSED);
    CHECK(jeihpal_recording_open(&recording, BYTES("{\"version\": 2}\n")) == JEIHPAL_NO_HEADER && !recording.held);
    CHECK(jeihpal_recording_open(&recording, BYTES("\x1f\x8b")) == JEIHPAL_COMPRESSED && !recording.held);
    CHECK(jeihpal_recording_open(&recording, BYTES("{\"version\": 2, \"width\": 80, \"height\": 24}\n"
                                                   "[0.5, \"o\", \"hello\"]\n[0.75, \"r\", \"90x30\"]\n"
                                                   "[1, \"m\", \"here\"]\nnone\n")) == JEIHPAL_OK);
    CHECK(jeihpal_recording_look(&recording, &look) == JEIHPAL_OK && look.kind == JEIHPAL_ASCIICAST);
    CHECK(look.events == 3 && look.length == 1000000 && look.rows == 24 && look.cols == 80);
    CHECK(look.fault == JEIHPAL_BAD_LINE && look.place == 5);
    CHECK(jeihpal_recording_event(&recording, 0, &event) == JEIHPAL_OK && event.kind == JEIHPAL_OUTPUT);
    CHECK(event.time == 500000 && event.length == 5 && event.rows == 0);
    CHECK(jeihpal_recording_event_text(&recording, 0, text, sizeof text, &length) == JEIHPAL_OK &&
          is_text(text, length, "hello"));
    CHECK(jeihpal_recording_event(&recording, 1, &event) == JEIHPAL_OK && event.kind == JEIHPAL_NEW_SIZE);
    CHECK(event.time == 750000 && event.length == 0 && event.rows == 30 && event.cols == 90);
    CHECK(jeihpal_recording_event_text(&recording, 1, text, sizeof text, &length) == JEIHPAL_OK && length == 0);
    CHECK(jeihpal_recording_event(&recording, 2, &event) == JEIHPAL_OK && event.kind == JEIHPAL_MARKER);
    CHECK(jeihpal_recording_event_text(&recording, 2, text, 2, &length) == JEIHPAL_OK && length == 4 &&
          is_text(text, 2, "he"));
    CHECK(jeihpal_recording_event(&recording, 3, &event) == JEIHPAL_NO_EVENT && event.kind == JEIHPAL_MARKER);
    CHECK(jeihpal_recording_event_text(&recording, 3, text, 2, &length) == JEIHPAL_NO_EVENT && length == 4);
    CHECK(jeihpal_recording_colors(&recording, colors, 18, &length) == JEIHPAL_OK && length == 0);
    CHECK(jeihpal_recording_screen(&recording, &screen, 0, 9, 0, 1) == JEIHPAL_BAD_SIZE && !screen.held);
    CHECK(jeihpal_recording_screen(&recording, &screen, 24, 80, 0, 499999) == JEIHPAL_OK);
    CHECK(jeihpal_screen_row_text(&screen, 0, text, sizeof text, &length) == JEIHPAL_OK && length == 0);
    CHECK(jeihpal_recording_screen(&recording, &screen, 24, 80, 0, UINT64_MAX) == JEIHPAL_OK);
    CHECK(jeihpal_screen_row_text(&screen, 0, text, sizeof text, &length) == JEIHPAL_OK &&
          is_text(text, length, "hello"));
    CHECK(jeihpal_screen_look(&screen, &shown) == JEIHPAL_OK && shown.rows == 30 && shown.cols == 90);
    CHECK(jeihpal_recording_screen((jeihpal_recording *)&screen, &other, 2, 2, 0, 1) == JEIHPAL_OTHER_KIND);
    CHECK(jeihpal_recording_screen(&none, &screen, 2, 2, 0, 1) == JEIHPAL_CLOSED && screen.held && !other.held);
    jeihpal_screen_close(&screen);
    CHECK(jeihpal_screen_mark((jeihpal_screen *)&recording) == JEIHPAL_OTHER_KIND);
    CHECK(jeihpal_recording_open_script(&recording, BYTES("Script started\nabc"), BYTES("0.25 2\n")) == JEIHPAL_OK);
    CHECK(jeihpal_recording_look(&recording, &look) == JEIHPAL_OK && look.kind == JEIHPAL_TYPESCRIPT);
    CHECK(look.events == 1 && look.length == 250000 && look.rows == 0 && look.fault == JEIHPAL_NO_FAULT);
    CHECK(jeihpal_recording_event_text(&recording, 0, text, sizeof text, &length) == JEIHPAL_OK &&
          is_text(text, length, "ab"));
    jeihpal_recording_close(&recording);
    CHECK(!recording.held);
}

/* Lines are drawn on the way to a screen, however the bytes are cut. */
static void filters(void) {
    jeihpal_filter filter = JEIHPAL_INIT;
    jeihpal_screen screen = JEIHPAL_INIT;
    uint8_t text[64];
    size_t length = 77;
    CHECK(jeihpal_filter_pass(&filter, BYTES("q")) == JEIHPAL_CLOSED);
    CHECK(jeihpal_filter_new(&filter) == JEIHPAL_OK && jeihpal_screen_new(&screen, 1, 9, 0) == JEIHPAL_OK);
    CHECK(jeihpal_filter_given((jeihpal_filter *)&screen, text, 9, &length) == JEIHPAL_OTHER_KIND && length == 77);
    for (const char *at = "\x1b(0lqk\x1b(Bq"; *at; at++) {
        CHECK(jeihpal_filter_pass(&filter, (const uint8_t *)at, 1) == JEIHPAL_OK);
        CHECK(jeihpal_filter_given(&filter, text, sizeof text, &length) == JEIHPAL_OK && length <= 4);
        CHECK(jeihpal_screen_process(&screen, text, length) == JEIHPAL_OK);
    }
    CHECK(jeihpal_screen_contents(&screen, text, sizeof text, &length) == JEIHPAL_OK);
    CHECK(is_text(text, length, "\u250c\u2500\u2510q"));
    CHECK(jeihpal_filter_pass(&filter, BYTES("")) == JEIHPAL_OK);
    CHECK(jeihpal_filter_given(&filter, text, 0, &length) == JEIHPAL_OK && length == 0);
    jeihpal_filter_close(&filter);
    jeihpal_screen_close(&screen);
    CHECK(!filter.held);
}

/* The screen that a session of examples/ leaves, as a view shows it, is the one in the file next to it. */
static void session(const char *folder, const char *name, uint16_t rows, uint16_t cols) {
    static uint8_t bytes[65536], wanted[65536], shown[65536];
    char path[4096];
    size_t client, count, length, at = 0;
    jeihpal_hub hub = JEIHPAL_INIT;
    jeihpal_view view = JEIHPAL_INIT;
    snprintf(path, sizeof path, "%s/%s.session", folder, name);
    FILE *file = fopen(path, "rb");
    CHECK(file);
    count = fread(bytes, 1, sizeof bytes, file);
    fclose(file);
    CHECK(jeihpal_hub_new(&hub, rows, cols) == JEIHPAL_OK &&
          jeihpal_view_new(&view, rows, cols) == JEIHPAL_OK);
    CHECK(jeihpal_hub_attach(&hub, &client) == JEIHPAL_OK);
    for (size_t from = 0; from < count; from += 7) {
        CHECK(jeihpal_hub_feed(&hub, bytes + from, count - from < 7 ? count - from : 7) == JEIHPAL_OK);
        CHECK(jeihpal_hub_frame(&hub, client) >= 0);
        tried_carry(&hub, client, &view, 11);
    }
    for (uint16_t row = 0; row < rows; row++) {
        CHECK(jeihpal_view_row_text(&view, row, shown + at, sizeof shown - at, &length) == JEIHPAL_OK);
        at += length;
        shown[at++] = '\n';
    }
    snprintf(path, sizeof path, "%s/%s.screen", folder, name);
    file = fopen(path, "rb");
    CHECK(file);
    count = fread(wanted, 1, sizeof wanted, file);
    fclose(file);
    CHECK(count == at && memcmp(wanted, shown, at) == 0);
    jeihpal_hub_close(&hub);
    jeihpal_view_close(&view);
}

int main(int count, char **words) {
    codes_of_words();
    frames();
    late();
    whole();
    other_answers();
    view_cells();
    screens();
    row_cells();
    copies();
    parts();
    scrollback();
    limits();
    requests();
    recordings();
    filters();
    if (count > 1) {
        session(words[1], "build", 12, 40);
        session(words[1], "editor", 8, 40);
    }
    puts("calls: well");
    return 0;
}
