/* A program's line, seen from afar. */
#include <jeihpal.h>
#include <stdio.h>

int main(void) {
    jeihpal_hub hub = JEIHPAL_INIT;
    jeihpal_view view = JEIHPAL_INIT;
    uint8_t wire[21 * 1024], text[80];
    size_t client, length;
    if (jeihpal_hub_new(&hub, 1, 20) < 0 || jeihpal_view_new(&view, 1, 20) < 0) return 1;
    if (jeihpal_hub_attach(&hub, &client) < 0 ||
        jeihpal_hub_feed(&hub, (const uint8_t *)"\r[####  ] 60%", 13) < 0)
        return 1;
    if (jeihpal_hub_frame(&hub, client) < JEIHPAL_FULL) return 1;
    if (jeihpal_hub_owed(&hub, client, wire, sizeof wire, &length) < 0) return 1;
    jeihpal_view_advance(&view, wire, length); /* in any pieces, after any line */
    if (jeihpal_view_row_text(&view, 0, text, sizeof text, &length) == JEIHPAL_OK)
        printf("%.*s\n", (int)length, (char *)text);
    jeihpal_hub_close(&hub);
    jeihpal_view_close(&view);
    return 0;
}
