/* Two threads with objects of their own, at once; and a hub, a view and a screen that go from thread to thread. */
#include "tried.h"
#include <pthread.h>

static void *use(void *words) {
    const char *letter = words;
    jeihpal_hub hub = JEIHPAL_INIT;
    jeihpal_view view = JEIHPAL_INIT;
    uint8_t text[64];
    size_t client, length;
    CHECK(jeihpal_hub_new(&hub, 10, 40) == JEIHPAL_OK && jeihpal_view_new(&view, 10, 40) == JEIHPAL_OK);
    CHECK(jeihpal_hub_attach(&hub, &client) == JEIHPAL_OK);
    for (int time = 0; time < 2000; time++) {
        char line[64];
        int count = snprintf(line, sizeof line, "\x1b[%d;1H%s%d\x1b[K", 1 + time % 10, letter, time);
        CHECK(jeihpal_hub_feed(&hub, (const uint8_t *)line, (size_t)count) == JEIHPAL_OK);
        CHECK(jeihpal_hub_frame(&hub, client) >= JEIHPAL_FULL);
        tried_carry(&hub, client, &view, 100);
        snprintf(line, sizeof line, "%s%d", letter, time);
        CHECK(jeihpal_view_row_text(&view, (uint16_t)(time % 10), text, sizeof text, &length) == JEIHPAL_OK);
        CHECK(is_text(text, length, line));
    }
    jeihpal_hub_close(&hub);
    jeihpal_view_close(&view);
    return NULL;
}

static pthread_mutex_t turn = PTHREAD_MUTEX_INITIALIZER;
static jeihpal_hub shared_hub = JEIHPAL_INIT;
static jeihpal_screen shared_screen = JEIHPAL_INIT;
static jeihpal_view shared_view = JEIHPAL_INIT;
static size_t stayed; /* a client of the hub that shares its frames' screens with each thread's own */
static int taken;

/* A frame for the client that stayed, and one for a client of this turn, of the same screen. */
static void ask_for_frames(const char *line, size_t count) {
    size_t client;
    CHECK(jeihpal_hub_feed(&shared_hub, (const uint8_t *)line, count) == JEIHPAL_OK);
    CHECK(jeihpal_hub_attach(&shared_hub, &client) == JEIHPAL_OK);
    CHECK(jeihpal_hub_frame(&shared_hub, stayed) >= JEIHPAL_FULL);
    CHECK(jeihpal_hub_frame(&shared_hub, client) == JEIHPAL_FULL);
    tried_carry(&shared_hub, stayed, &shared_view, 100);
    CHECK(jeihpal_hub_detach(&shared_hub, client) == JEIHPAL_OK);
}

/* Uses all three a thousand times, under the lock. The last one closes them. */
static void *share(void *nothing) {
    (void)nothing;
    for (int time = 0; time < 1000; time++) {
        uint8_t text[64];
        size_t length;
        jeihpal_screen copy = JEIHPAL_INIT;
        CHECK(pthread_mutex_lock(&turn) == 0);
        char line[64];
        int count = snprintf(line, sizeof line, "\x1b[H%d\x1b[K", taken);
        CHECK(jeihpal_screen_process(&shared_screen, (const uint8_t *)line, (size_t)count) == JEIHPAL_OK);
        ask_for_frames(line, (size_t)count);
        CHECK(jeihpal_view_row_text(&shared_view, 0, text, sizeof text, &length) == JEIHPAL_OK);
        CHECK(jeihpal_screen_clone(&copy, &shared_screen) == JEIHPAL_OK);
        snprintf(line, sizeof line, "%d", taken++);
        CHECK(is_text(text, length, line));
        CHECK(pthread_mutex_unlock(&turn) == 0);
        CHECK(jeihpal_screen_row_text(&copy, 0, text, sizeof text, &length) == JEIHPAL_OK);
        CHECK(is_text(text, length, line));
        jeihpal_screen_close(&copy);
    }
    return NULL;
}

static void *end(void *nothing) {
    jeihpal_hub_close(&shared_hub);
    jeihpal_screen_close(&shared_screen);
    jeihpal_view_close(&shared_view);
    return nothing;
}

static void hand_round(void) {
    pthread_t threads[4], last;
    CHECK(jeihpal_hub_new(&shared_hub, 5, 20) == JEIHPAL_OK);
    CHECK(jeihpal_hub_attach(&shared_hub, &stayed) == JEIHPAL_OK);
    CHECK(jeihpal_screen_new(&shared_screen, 5, 20, 10) == JEIHPAL_OK);
    CHECK(jeihpal_view_new(&shared_view, 5, 20) == JEIHPAL_OK);
    for (int i = 0; i < 4; i++) CHECK(pthread_create(&threads[i], NULL, share, NULL) == 0);
    for (int i = 0; i < 4; i++) CHECK(pthread_join(threads[i], NULL) == 0);
    CHECK(taken == 4000);
    CHECK(pthread_create(&last, NULL, end, NULL) == 0 && pthread_join(last, NULL) == 0);
}

int main(void) {
    pthread_t first, second;
    CHECK(pthread_create(&first, NULL, use, "a") == 0 && pthread_create(&second, NULL, use, "b") == 0);
    CHECK(pthread_join(first, NULL) == 0 && pthread_join(second, NULL) == 0);
    hand_round();
    puts("threads: well");
    return 0;
}
