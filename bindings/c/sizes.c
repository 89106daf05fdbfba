/* Prints the size of each struct, and where each field begins, to compare them with other declarations. Then the
 * library fills each struct twice, over different bytes: bytes that differ after that weren't written. */
#include "tried.h"

#define SIZE(type) printf("%s %zu\n", #type, sizeof(jeihpal_##type))
#define FIELD(type, field)                                                                                   \
    printf("%s.%s %zu %zu\n", #type, #field, offsetof(jeihpal_##type, field),                                \
           sizeof(((jeihpal_##type *)0)->field))

static void print_sizes(void) {
    SIZE(hub);
    SIZE(color), FIELD(color, kind), FIELD(color, red_or_index), FIELD(color, green), FIELD(color, blue);
    SIZE(cell), FIELD(cell, text), FIELD(cell, length), FIELD(cell, width), FIELD(cell, attributes);
    FIELD(cell, reserved), FIELD(cell, foreground), FIELD(cell, background);
    SIZE(drawing), FIELD(drawing, foreground), FIELD(drawing, background), FIELD(drawing, bold);
    FIELD(drawing, dim), FIELD(drawing, italic), FIELD(drawing, underlined), FIELD(drawing, inverse);
    SIZE(look), FIELD(look, kept), FIELD(look, scrolled), FIELD(look, rows), FIELD(look, cols),
        FIELD(look, row);
    FIELD(look, col), FIELD(look, hidden), FIELD(look, style), FIELD(look, mouse), FIELD(look, encoding);
    FIELD(look, keypad), FIELD(look, cursor_keys), FIELD(look, paste), FIELD(look, alternate);
    FIELD(look, updating), FIELD(look, failed);
    SIZE(request), FIELD(request, length), FIELD(request, letters), FIELD(request, dropped),
        FIELD(request, rows);
    FIELD(request, cols), FIELD(request, kind);
    SIZE(recorded), FIELD(recorded, events), FIELD(recorded, length), FIELD(recorded, place), FIELD(recorded, rows);
    FIELD(recorded, cols), FIELD(recorded, kind), FIELD(recorded, fault);
    SIZE(event), FIELD(event, time), FIELD(event, length), FIELD(event, rows), FIELD(event, cols), FIELD(event, kind);
}

typedef union {
    uint8_t bytes[128];
    jeihpal_cell cell;
    jeihpal_look look;
    jeihpal_request request;
    jeihpal_drawing drawing;
    jeihpal_recorded recorded;
    jeihpal_event event;
} room;

/* Whether the library writes each byte up to `end`, and none from `size` on. */
static int is_filled(const room *one, const room *other, size_t end, size_t size) {
    for (size_t at = 0; at < sizeof one->bytes; at++) {
        if (at < end && one->bytes[at] != other->bytes[at]) return 0;
        if (at >= size && (one->bytes[at] != 0x55 || other->bytes[at] != 0xAA)) return 0;
    }
    return 1;
}

int main(void) {
    jeihpal_screen screen = JEIHPAL_INIT;
    jeihpal_recording recording = JEIHPAL_INIT;
    room filled[6][2];
    uint8_t text[8];
    print_sizes();
    CHECK(jeihpal_screen_new(&screen, 3, 4, 0) == JEIHPAL_OK &&
          jeihpal_screen_process(&screen, BYTES("x")) == JEIHPAL_OK);
    CHECK(jeihpal_recording_open(&recording, BYTES("x")) == JEIHPAL_OK);
    for (int time = 0; time < 2; time++) {
        for (int kind = 0; kind < 6; kind++) memset(&filled[kind][time], time ? 0xAA : 0x55, sizeof(room));
        CHECK(jeihpal_screen_cell(&screen, 0, 0, &filled[0][time].cell) == JEIHPAL_OK);
        CHECK(jeihpal_screen_look(&screen, &filled[1][time].look) == JEIHPAL_OK);
        CHECK(jeihpal_screen_request(&screen, text, sizeof text, &filled[2][time].request) ==
              JEIHPAL_NO_REQUEST);
        CHECK(jeihpal_screen_drawing(&screen, &filled[3][time].drawing) == JEIHPAL_OK);
        CHECK(jeihpal_recording_look(&recording, &filled[4][time].recorded) == JEIHPAL_OK);
        CHECK(jeihpal_recording_event(&recording, 0, &filled[5][time].event) == JEIHPAL_OK);
    }
    CHECK(is_filled(&filled[0][0], &filled[0][1], sizeof(jeihpal_cell), sizeof(jeihpal_cell)));
    CHECK(is_filled(&filled[1][0], &filled[1][1], offsetof(jeihpal_look, failed) + 1, sizeof(jeihpal_look)));
    CHECK(is_filled(&filled[2][0], &filled[2][1], offsetof(jeihpal_request, kind) + 1,
                    sizeof(jeihpal_request)));
    CHECK(is_filled(&filled[3][0], &filled[3][1], sizeof(jeihpal_drawing), sizeof(jeihpal_drawing)));
    CHECK(is_filled(&filled[4][0], &filled[4][1], offsetof(jeihpal_recorded, fault) + 1, sizeof(jeihpal_recorded)));
    CHECK(is_filled(&filled[5][0], &filled[5][1], offsetof(jeihpal_event, kind) + 1, sizeof(jeihpal_event)));
    jeihpal_screen_close(&screen);
    jeihpal_recording_close(&recording);
    return 0;
}
