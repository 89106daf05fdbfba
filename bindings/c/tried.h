/* What the tests in C share. */
#ifndef TRIED_H
#define TRIED_H

#include <jeihpal.h>
#include <stdio.h>
#include <stdlib.h>
#include <string.h>

/* Ends the program if something isn't as it should be. */
#define CHECK(it) ((it) ? (void)0 : tried_fails(__FILE__, __LINE__, #it))

static inline void tried_fails(const char *file, int line, const char *it) {
    fprintf(stderr, "%s:%d: not so: %s\n", file, line, it);
    abort();
}

/* The bytes of a text, and how many they are. */
#define BYTES(text) (const uint8_t *)(text), sizeof(text) - 1

static inline int is_text(const uint8_t *bytes, size_t length, const char *text) {
    return length == strlen(text) && memcmp(bytes, text, length) == 0;
}

/* Passes the bytes that wait for a client to a view, in pieces of at most `piece` bytes. */
static inline void tried_carry(jeihpal_hub *hub, size_t client, jeihpal_view *view, size_t piece) {
    uint8_t to[4096];
    size_t owed;
    for (;;) {
        CHECK(jeihpal_hub_owed(hub, client, to, piece, &owed) == JEIHPAL_OK);
        if (owed == 0) return;
        size_t count = owed < piece ? owed : piece;
        CHECK(jeihpal_view_advance(view, to, count) == JEIHPAL_OK);
        CHECK(jeihpal_hub_sent(hub, client, count) == JEIHPAL_OK);
    }
}

#endif
