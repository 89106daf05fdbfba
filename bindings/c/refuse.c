/* Refuses each request for more memory in turn: every call then returns a right code, and nothing leaks. The
 * library's own functions for memory are replaced by those below. */
#include "tried.h"
#include <stdbool.h>

struct tried {
    bool ok;
    void *place;
};
struct tried rattle_alloc(size_t count, size_t align);
struct tried rattle_realloc(void *old, size_t kept, size_t count, size_t align);
void rattle_dealloc(void *place);

static long live, requested, refused_at;
static char nothing[16];

struct tried rattle_alloc(size_t count, size_t align) {
    (void)align;
    if (count == 0) return (struct tried){true, nothing};
    if (++requested == refused_at) return (struct tried){false, NULL};
    void *place = malloc(count);
    CHECK(place);
    live++;
    return (struct tried){true, place};
}

struct tried rattle_realloc(void *old, size_t kept, size_t count, size_t align) {
    (void)align;
    /* If this is refused for a block that doesn't get longer, the block is kept as it is, and no call returns an
     * error. */
    if (count > kept && ++requested == refused_at) return (struct tried){false, NULL};
    void *place = realloc(old, count);
    CHECK(place);
    return (struct tried){true, place};
}

void rattle_dealloc(void *place) {
    CHECK(place != nothing);
    free(place);
    live--;
}

static long codes[16], made;

/* Notes a code: done, or refused for lack of memory, now or before. */
static int32_t noted(int32_t code) {
    CHECK(code >= 0 || code == JEIHPAL_MEMORY || code == JEIHPAL_FAILED);
    if (code < 0) codes[-code]++, made++;
    return code;
}

static uint8_t to[1 << 16];

static void use_hub(jeihpal_hub *hub, jeihpal_view *view) {
    size_t client = 0, length = 0;
    int32_t fed = noted(jeihpal_hub_feed(hub, BYTES("one\r\ntwo\x1b[?1049hthree\xe7\xb1\xb3")));
    int32_t attached = noted(jeihpal_hub_attach(hub, &client));
    CHECK((attached == JEIHPAL_FAILED) == (fed == JEIHPAL_MEMORY));
    if (attached == JEIHPAL_OK) {
        int32_t frame = noted(jeihpal_hub_frame(hub, client));
        CHECK(jeihpal_hub_owed(hub, client, to, sizeof to, &length) == JEIHPAL_OK);
        CHECK((frame >= JEIHPAL_FULL) == (length > 0));
        if (view->held) CHECK(jeihpal_view_advance(view, to, length) == JEIHPAL_OK);
        CHECK(jeihpal_hub_sent(hub, client, length) == JEIHPAL_OK);
        noted(jeihpal_hub_redraw(hub, client, to, sizeof to, &length));
        noted(jeihpal_hub_whole_frame(hub, client, to, sizeof to, &length));
        noted(jeihpal_hub_fork(hub, client, &client));
    }
    noted(jeihpal_hub_contents(hub, to, sizeof to, &length));
    noted(jeihpal_hub_row_text(hub, 1, to, sizeof to, &length));
    noted(jeihpal_hub_resize(hub, 6, 9));
}

/* A copy, and reads of both screens. A refused copy leaves the word as it was. */
static void use_copy(jeihpal_screen *screen) {
    jeihpal_screen copy = JEIHPAL_INIT;
    size_t length, rows, lengths[9];
    if (noted(jeihpal_screen_clone(&copy, screen)) < 0) {
        CHECK(!copy.held);
        return;
    }
    noted(jeihpal_screen_process(&copy, BYTES("\x1b[?2004h\x1b[31mx")));
    noted(jeihpal_screen_contents_diff(&copy, screen, to, sizeof to, &length));
    noted(jeihpal_screen_state_diff(&copy, screen, to, sizeof to, &length));
    noted(jeihpal_screen_input_mode_diff(&copy, screen, to, sizeof to, &length));
    noted(jeihpal_screen_rows_diff(&copy, screen, 0, 20, to, sizeof to, &length, lengths, 9, &rows));
    noted(jeihpal_screen_rows_formatted(&copy, 0, 20, to, sizeof to, &length, lengths, 9, &rows));
    noted(jeihpal_screen_contents_formatted_basic(&copy, to, sizeof to, &length));
    noted(jeihpal_screen_input_mode_formatted(&copy, to, sizeof to, &length));
    noted(jeihpal_screen_attributes_formatted(&copy, to, sizeof to, &length));
    noted(jeihpal_screen_cursor_state_formatted(&copy, to, sizeof to, &length));
    noted(jeihpal_screen_clear_scrollback(&copy));
    void *before = copy.held;
    if (noted(jeihpal_screen_clone(&copy, screen)) < 0) CHECK(copy.held == before);
    before = copy.held;
    if (noted(jeihpal_screen_clone_visible(&copy, screen)) < 0) CHECK(copy.held == before);
    jeihpal_screen_close(&copy);
}

static void use_screen(jeihpal_screen *screen) {
    size_t length;
    jeihpal_request request;
    CHECK(jeihpal_screen_tell(screen, 1, 1) == JEIHPAL_OK);
    noted(jeihpal_screen_process(screen, BYTES("a\r\nb\x1b]2;title\a\x1b]9;x\a\x1b[?5;6i\r\n\r\n\r\n\r\nc\n\n\n\n")));
    CHECK(jeihpal_screen_tell(screen, 0, 0) == JEIHPAL_OK);
    CHECK(jeihpal_screen_request(screen, to, sizeof to, &request) >= 0);
    made += (long)request.dropped; /* a request that finds no memory is counted there */
    noted(jeihpal_screen_mark(screen));
    noted(jeihpal_screen_process(screen, BYTES("\x1b[?1049hd")));
    noted(jeihpal_screen_difference(screen, to, sizeof to, &length));
    noted(jeihpal_screen_state(screen, to, sizeof to, &length));
    noted(jeihpal_screen_contents(screen, to, sizeof to, &length));
    noted(jeihpal_screen_contents_between(screen, 0, 0, 3, 1, to, sizeof to, &length));
    use_copy(screen);
    noted(jeihpal_screen_scroll(screen, 1));
    noted(jeihpal_screen_resize(screen, 7, 21));
}

/* A recording whose first line and whose events take memory. */
static void use_recording(jeihpal_recording *recording, jeihpal_screen *screen) {
    size_t length;
    jeihpal_recorded look;
    if (noted(jeihpal_recording_open(recording, BYTES("{\"version\": 2, \"width\": 9, \"height\": 2}\n"
                                                      "[0.5, \"o\", \"one\"]\n[1, \"m\", \"two\"]\n"))) < 0) {
        CHECK(!recording->held);
        return;
    }
    CHECK(jeihpal_recording_look(recording, &look) == JEIHPAL_OK && look.events == 2 && look.fault == 0);
    CHECK(jeihpal_recording_event_text(recording, 1, to, sizeof to, &length) == JEIHPAL_OK && length == 3);
    void *held = screen->held;
    if (noted(jeihpal_recording_screen(recording, screen, 2, 9, 3, 500000)) < 0)
        CHECK(screen->held == held);
    else
        CHECK(jeihpal_screen_look(screen, &(jeihpal_look){0}) == JEIHPAL_OK);
}

/* A piece that is refused hasn't passed. */
static void use_filter(jeihpal_filter *filter) {
    size_t length;
    if (noted(jeihpal_filter_new(filter)) < 0) {
        CHECK(!filter->held);
        return;
    }
    if (noted(jeihpal_filter_pass(filter, BYTES("\x1b(0"))) < 0)
        CHECK(jeihpal_filter_pass(filter, BYTES("\x1b(0")) == JEIHPAL_OK);
    if (noted(jeihpal_filter_pass(filter, BYTES("q and much more than what was before it"))) < 0) return;
    CHECK(jeihpal_filter_given(filter, to, sizeof to, &length) == JEIHPAL_OK && to[0] == 0xe2);
}

/* Uses an object of each kind, and closes them. */
static void run(void) {
    jeihpal_hub hub = JEIHPAL_INIT;
    jeihpal_view view = JEIHPAL_INIT;
    jeihpal_screen screen = JEIHPAL_INIT;
    jeihpal_recording recording = JEIHPAL_INIT;
    jeihpal_filter filter = JEIHPAL_INIT;
    size_t length;
    if (noted(jeihpal_view_new(&view, 5, 20)) < 0) CHECK(!view.held);
    if (noted(jeihpal_hub_new(&hub, 5, 20)) < 0) CHECK(!hub.held);
    if (hub.held) use_hub(&hub, &view);
    if (view.held) noted(jeihpal_view_row_text(&view, 0, to, sizeof to, &length));
    if (noted(jeihpal_screen_new(&screen, 5, 20, 3)) < 0) CHECK(!screen.held);
    if (screen.held) use_screen(&screen);
    use_recording(&recording, &screen);
    use_filter(&filter);
    jeihpal_hub_close(&hub);
    jeihpal_view_close(&view);
    jeihpal_screen_close(&screen);
    jeihpal_recording_close(&recording);
    jeihpal_filter_close(&filter);
    CHECK(live == 0);
}

int main(void) {
    long refused = 0, untold = 0;
    for (refused_at = 1;; refused_at++, refused++) {
        requested = made = 0;
        run();
        if (requested < refused_at) break;
        if (made == 0) untold++;
    }
    /* A recording's list of lines asks for room at first, and goes on without it if that is refused. */
    CHECK(untold <= 1);
    CHECK(codes[-JEIHPAL_MEMORY] > 0 && codes[-JEIHPAL_FAILED] > 0);
    printf("refuse: well, %ld requests refused, of which no block was lost\n", refused);
    return 0;
}
