/* Reads a stream into a screen of libtsm again and again: libtsm screen|kept ROWS COLS TIMES < STREAM. */
#include "peer.h"
#include <libtsm.h>

static void answer(struct tsm_vte *vte, const char *text, size_t length, void *data)
{
    (void)vte, (void)text, (void)length, (void)data;
}

static int reads(int rows, int cols, int kept, const char *stream, size_t length)
{
    struct tsm_screen *screen;
    struct tsm_vte *vte;
    if (tsm_screen_new(&screen, NULL, NULL) || tsm_screen_resize(screen, cols, rows))
        return -1;
    tsm_screen_set_max_sb(screen, kept);
    if (tsm_vte_new(&vte, screen, answer, NULL, NULL, NULL))
        return -1;
    for (size_t at = 0; at < length; at += PIECE_LEN)
        tsm_vte_input(vte, stream + at, piece_len(at, length));
    int found = tsm_screen_get_cursor_x(screen) + tsm_screen_get_cursor_y(screen);
    tsm_vte_unref(vte);
    tsm_screen_unref(screen);
    return found;
}

int main(int count, char **words)
{
    return peer(count, words, 1, reads);
}
