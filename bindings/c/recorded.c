/* The screen of a recording at a time of it. */
#include <jeihpal.h>
#include <stdio.h>

int main(void) {
    static const char cast[] = "{\"version\": 2, \"width\": 20, \"height\": 1}\n"
                               "[0.5, \"o\", \"[##    ] 30%\"]\n[1.5, \"o\", \"\\r[####  ] 60%\"]\n"
                               "[2.5, \"o\", \"\\r[######] 90%\"]\n";
    jeihpal_recording recording = JEIHPAL_INIT;
    jeihpal_screen screen = JEIHPAL_INIT;
    jeihpal_recorded look;
    uint8_t text[80];
    size_t length;
    if (jeihpal_recording_open(&recording, (const uint8_t *)cast, sizeof cast - 1) < 0) return 1;
    if (jeihpal_recording_look(&recording, &look) < 0 || look.rows == 0) return 1;
    if (jeihpal_recording_screen(&recording, &screen, look.rows, look.cols, 0, 2000000) < 0) return 1;
    if (jeihpal_screen_row_text(&screen, 0, text, sizeof text, &length) == JEIHPAL_OK)
        printf("%.*s\n", (int)length, (char *)text);
    jeihpal_screen_close(&screen);
    jeihpal_recording_close(&recording);
    return 0;
}
