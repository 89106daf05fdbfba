/* Reads a stream into a screen of libvterm again and again: libvterm screen ROWS COLS TIMES < STREAM. */
#include "peer.h"
#include <vterm.h>

static int reads(int rows, int cols, int kept, const char *stream, size_t length)
{
    (void)kept;
    VTerm *terminal = vterm_new(rows, cols);
    vterm_set_utf8(terminal, 1);
    vterm_screen_enable_altscreen(vterm_obtain_screen(terminal), 1);
    vterm_screen_reset(vterm_obtain_screen(terminal), 1);
    for (size_t at = 0; at < length; at += PIECE_LEN)
        vterm_input_write(terminal, stream + at, piece_len(at, length));
    VTermPos cursor;
    vterm_state_get_cursorpos(vterm_obtain_state(terminal), &cursor);
    vterm_free(terminal);
    return cursor.row + cursor.col;
}

int main(int count, char **words)
{
    /* It hands rows that leave to its user. */
    return peer(count, words, 0, reads);
}
