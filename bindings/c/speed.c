/* Does one kind of work on a stream again and again, as crates/speed does: speed WORK ROWS COLS TIMES, with
 * the stream on standard input. It prints the same counts. The works are screen, redraw, view, hub,
 * unchanged, frame and client. */
#include "tried.h"

enum { PIECE = 4096 };

static uint8_t *stream;
static size_t stream_length;
static uint16_t rows, cols;
static unsigned long times;
static uint8_t *wire;
static size_t wire_size;

static void read_stream(void) {
    size_t size = 1 << 16, got;
    stream = malloc(size);
    CHECK(stream);
    while ((got = fread(stream + stream_length, 1, size - stream_length, stdin)) > 0) {
        stream_length += got;
        if (stream_length == size) CHECK((stream = realloc(stream, size *= 2)));
    }
}

static size_t piece_at(size_t from) {
    return stream_length - from < PIECE ? stream_length - from : PIECE;
}

static size_t cursor_sum(const jeihpal_look *look) {
    return (size_t)look->row + look->col;
}

static void fill_screen(jeihpal_screen *screen) {
    CHECK(jeihpal_screen_new(screen, rows, cols, 0) == JEIHPAL_OK);
    for (size_t from = 0; from < stream_length; from += PIECE)
        CHECK(jeihpal_screen_process(screen, stream + from, piece_at(from)) == JEIHPAL_OK);
}

static size_t do_screen(void) {
    jeihpal_screen screen = JEIHPAL_INIT;
    jeihpal_look look;
    size_t sum = 0;
    for (unsigned long time = 0; time < times; time++) {
        fill_screen(&screen);
        CHECK(jeihpal_screen_look(&screen, &look) == JEIHPAL_OK);
        sum = cursor_sum(&look);
        jeihpal_screen_close(&screen);
    }
    return sum;
}

static size_t do_redraw(void) {
    jeihpal_screen screen = JEIHPAL_INIT;
    size_t length, count = 0;
    fill_screen(&screen);
    for (unsigned long time = 0; time < times; time++) {
        CHECK(jeihpal_screen_state(&screen, wire, wire_size, &length) == JEIHPAL_OK);
        count += length;
    }
    jeihpal_screen_close(&screen);
    return count;
}

static size_t do_view(void) {
    jeihpal_view view = JEIHPAL_INIT;
    jeihpal_look look;
    CHECK(jeihpal_view_new(&view, rows, cols) == JEIHPAL_OK);
    for (unsigned long time = 0; time < times; time++)
        for (size_t from = 0; from < stream_length; from += PIECE)
            CHECK(jeihpal_view_advance(&view, stream + from, piece_at(from)) == JEIHPAL_OK);
    CHECK(jeihpal_view_look(&view, &look) == JEIHPAL_OK);
    jeihpal_view_close(&view);
    return cursor_sum(&look);
}

/* Makes the frame that is due and sends it, and returns how long it is. */
static size_t send_frame(jeihpal_hub *hub, size_t client) {
    size_t length;
    CHECK(jeihpal_hub_frame(hub, client) >= 0);
    CHECK(jeihpal_hub_owed(hub, client, wire, wire_size, &length) == JEIHPAL_OK && length <= wire_size);
    CHECK(jeihpal_hub_sent(hub, client, length) == JEIHPAL_OK);
    return length;
}

static size_t send_stream(jeihpal_hub *hub, size_t client) {
    size_t count = 0;
    for (unsigned long time = 0; time < times; time++) {
        for (size_t from = 0; from < stream_length; from += PIECE) {
            CHECK(jeihpal_hub_feed(hub, stream + from, piece_at(from)) == JEIHPAL_OK);
            count += send_frame(hub, client);
        }
    }
    return count;
}

static size_t send_rows(jeihpal_hub *hub, size_t client) {
    static const char *const texts[2] = {
        "\x1b[2;1Hcompiling the parser\x1b[K",
        "\x1b[2;1Hcompiling the screen, \x1b[31m40%\x1b[m\x1b[K",
    };
    size_t count = 0;
    for (unsigned long time = 0; time < times; time++) {
        const char *row = texts[time % 2];
        CHECK(jeihpal_hub_feed(hub, (const uint8_t *)row, strlen(row)) == JEIHPAL_OK);
        count += send_frame(hub, client);
    }
    return count;
}

static size_t send_to_each(jeihpal_hub *hub) {
    size_t client, count = 0;
    for (unsigned long time = 0; time < times; time++) {
        CHECK(jeihpal_hub_attach(hub, &client) == JEIHPAL_OK);
        count += send_frame(hub, client);
    }
    return count;
}

static size_t do_hub(const char *work) {
    jeihpal_hub hub = JEIHPAL_INIT;
    size_t client, count = 0;
    CHECK(jeihpal_hub_new(&hub, rows, cols) == JEIHPAL_OK);
    if (strcmp(work, "hub") != 0) CHECK(jeihpal_hub_feed(&hub, stream, stream_length) == JEIHPAL_OK);
    CHECK(jeihpal_hub_attach(&hub, &client) == JEIHPAL_OK);
    if (strcmp(work, "hub") == 0) {
        count = send_stream(&hub, client);
    } else {
        count = send_frame(&hub, client);
        if (strcmp(work, "frame") == 0)
            count += send_rows(&hub, client);
        else if (strcmp(work, "client") == 0)
            count = send_to_each(&hub);
        else
            for (unsigned long time = 0; time < times; time++)
                CHECK(jeihpal_hub_frame(&hub, client) == JEIHPAL_UNCHANGED);
    }
    jeihpal_hub_close(&hub);
    return count;
}

int main(int count, char **words) {
    if (count != 5) return 2;
    rows = (uint16_t)atoi(words[2]);
    cols = (uint16_t)atoi(words[3]);
    times = strtoul(words[4], NULL, 10);
    read_stream();
    wire_size = 1024 * ((size_t)rows * cols + 1);
    CHECK((wire = malloc(wire_size)));
    const char *work = words[1];
    size_t found = strcmp(work, "screen") == 0   ? do_screen()
                   : strcmp(work, "redraw") == 0 ? do_redraw()
                   : strcmp(work, "view") == 0   ? do_view()
                                                 : do_hub(work);
    printf("%s %zu\n", work, found);
    free(stream);
    free(wire);
    return 0;
}
