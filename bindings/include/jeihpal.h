/* jeihpal.h: terminal screens that arrive whole, for C and C++.
 *
 *     program's bytes -> hub -> frames for each client ~ any connection ~> view (or any terminal) -> the same screen
 *
 * Objects. A jeihpal_hub, jeihpal_view, jeihpal_screen, jeihpal_recording or jeihpal_filter is one word in the caller's
 * memory, by which the caller refers to an object. A word starts as JEIHPAL_INIT (all zero), and then holds no object.
 * A _new or _open call fills it, and first closes what it held. A _close call frees the object, and the word holds
 * nothing again: closing it twice is fine. The library frees nothing else, and no object before its word is closed. A
 * word may be moved: copied, after which the old one isn't used any more. Using both copies is an error of the
 * caller's. If a word is forgotten while it holds an object, that is an error too: the object's memory is never freed.
 * Only these calls may look into a word.
 *
 * Threads. At most one call runs at a time on an object, and calls that only read it count too. An object of any kind
 * may be handed to another thread, by a lock, or by a thread's start or end. Objects share nothing, so each thread may
 * have its own. jeihpal_abi may be called on any thread. No call blocks, reads or writes a file, or runs a callback.
 * Memory comes from malloc, so no call belongs in a signal handler.
 *
 * Bytes. A pointer points to as many bytes or objects in the caller's memory as its call says, and is used only during
 * the call. No pointer may be null, even if its length is 0, or overlap a word or what another pointer points to.
 *
 * Texts are copied. A call with `to`, `capacity` and `length` copies as much of the front of its bytes as fits into
 * `to`, and sets *length to how many there are in all. If *length is greater than `capacity`, the caller may repeat the
 * call with more room: nothing was lost. There is no zero byte at the end. The rest of `to` is left as it was.
 *
 * Results. A call returns 0 or more for success. Less than 0 is a refusal, one of enum jeihpal_code: then neither the
 * object nor what the pointers point to has changed, unless the call's comment says otherwise. Every call on a word
 * except _new, _open and _close can return JEIHPAL_CLOSED and JEIHPAL_OTHER_KIND; its comment says which others.
 *
 * Rows, columns and places are counted from 0; sizes are 1 to 65,535. An object takes memory for each of its cells. The
 * calls whose names end in _within are for sizes that strangers choose: they refuse a size of more than `most_cells`
 * cells.
 */
#ifndef JEIHPAL_H
#define JEIHPAL_H

#include <stddef.h>
#include <stdint.h>

#ifdef __cplusplus
extern "C" {
#endif

/* The version number of this interface. It changes if a call, a struct or a number of an enum changes; a new call or
 * number alone doesn't change it. */
#define JEIHPAL_ABI 1

/* The version number of the library's interface. A caller can compare it with JEIHPAL_ABI. */
uint32_t jeihpal_abi(void);

#if defined(__GNUC__) && defined(__x86_64__)
/* Whether this processor can run the library's code, which is for x86-64-v2. A program can ask before its first
 * call. */
__attribute__((unused)) static inline int jeihpal_runs_here(void) {
    return __builtin_cpu_supports("sse4.2") && __builtin_cpu_supports("popcnt");
}
#endif

/* ---- results */

enum jeihpal_code {
    JEIHPAL_OK = 0,
    JEIHPAL_CLOSED = -1,         /* the word holds nothing */
    JEIHPAL_OTHER_KIND = -2,     /* it holds another kind of object, as after a cast */
    JEIHPAL_BAD_SIZE = -3,       /* no rows, or no columns */
    JEIHPAL_MEMORY = -4,         /* there was no memory */
    JEIHPAL_FAILED = -5,         /* an earlier call found no memory, and the screen has failed: make a new object */
    JEIHPAL_UNKNOWN_CLIENT = -6, /* the client has ended, or never was */
    JEIHPAL_NOT_OWED = -7,       /* fewer bytes wait for the client */
    JEIHPAL_NO_CELL = -8,        /* the place is outside the screen */
    JEIHPAL_NO_HEADER = -10,     /* a recording's first line isn't a header */
    JEIHPAL_COMPRESSED = -11,    /* a recording is a file of gzip, bzip2, xz or zstd: unpack it first */
    JEIHPAL_NO_EVENT = -12,      /* a recording has fewer events */
    JEIHPAL_TOO_LARGE = -13      /* the size has more cells than the caller allows */
};

/* What jeihpal_hub_frame returns. From JEIHPAL_FULL on, the bytes of a new frame wait for the client. */
enum jeihpal_answer {
    JEIHPAL_UNCHANGED = 0,  /* the screen shows what it did at the client's last frame */
    JEIHPAL_BEHIND = 1,     /* bytes of the last frame still wait for the client */
    JEIHPAL_HELD = 2,       /* the program is in a synchronized update of its own (private mode 2026) */
    JEIHPAL_TOO_LONG = 3,   /* the frame would be longer than 2,097,150 bytes; never for up to 2,000 cells */
    JEIHPAL_FULL = 4,       /* the frame leads from any picture */
    JEIHPAL_DIFFERENCE = 5, /* it leads from the picture of the client's last frame */
    JEIHPAL_UNSURE = 6      /* as FULL, of a screen that shows U+FE0F, on whose width terminals disagree */
};

/* ---- words */

typedef struct jeihpal_hub {
    void *held;
} jeihpal_hub;

typedef struct jeihpal_view {
    void *held;
} jeihpal_view;

typedef struct jeihpal_screen {
    void *held;
} jeihpal_screen;

typedef struct jeihpal_recording {
    void *held;
} jeihpal_recording;

typedef struct jeihpal_filter {
    void *held;
} jeihpal_filter;

/* A word that holds nothing. */
#define JEIHPAL_INIT {NULL}

/* ---- what a screen shows */

enum jeihpal_color_kind {
    JEIHPAL_COLOR_DEFAULT = 0, /* the terminal's own; the other fields are 0 */
    JEIHPAL_COLOR_INDEXED = 1, /* one of the 256 numbered ones, in red_or_index; the other fields are 0 */
    JEIHPAL_COLOR_RGB = 2
};

typedef struct jeihpal_color {
    uint8_t kind; /* enum jeihpal_color_kind */
    uint8_t red_or_index;
    uint8_t green;
    uint8_t blue;
} jeihpal_color;

/* Bits of `attributes`. If both BOLD and DIM are set, the text is bold. */
enum jeihpal_attribute {
    JEIHPAL_BOLD = 1,
    JEIHPAL_DIM = 2,
    JEIHPAL_ITALIC = 4,
    JEIHPAL_UNDERLINED = 8,
    JEIHPAL_INVERSE = 16
};

/* One cell. */
typedef struct jeihpal_cell {
    uint8_t text[32];    /* UTF-8: a character and the zero-width ones that joined it; zeros after it */
    uint8_t length;      /* how many bytes of text there are: 0 if the cell shows nothing */
    uint8_t width;       /* 1; 2 if the cell takes the next column too; 0 for the second half of such a cell */
    uint8_t attributes;  /* enum jeihpal_attribute */
    uint8_t reserved;    /* 0 */
    jeihpal_color foreground;
    jeihpal_color background;
} jeihpal_cell;

/* How the next character is drawn. A switch is 0 or 1. */
typedef struct jeihpal_drawing {
    jeihpal_color foreground;
    jeihpal_color background;
    uint8_t bold;
    uint8_t dim;
    uint8_t italic;
    uint8_t underlined;
    uint8_t inverse;
} jeihpal_drawing;

enum jeihpal_mouse {
    JEIHPAL_MOUSE_NONE = 0,
    JEIHPAL_MOUSE_PRESS = 1,         /* a button going down (xterm's mode 9) */
    JEIHPAL_MOUSE_PRESS_RELEASE = 2, /* a button going down or up (mode 1000) */
    JEIHPAL_MOUSE_BUTTON_MOTION = 3, /* and motion while a button is down (mode 1002) */
    JEIHPAL_MOUSE_ANY_MOTION = 4     /* and any motion (mode 1003) */
};

enum jeihpal_encoding {
    JEIHPAL_ENCODING_DEFAULT = 0, /* a byte for each number, as X10 has it */
    JEIHPAL_ENCODING_UTF8 = 1,    /* xterm's mode 1005 */
    JEIHPAL_ENCODING_SGR = 2      /* xterm's mode 1006 */
};

/* Size, cursor and modes. A switch is 0 or 1. */
typedef struct jeihpal_look {
    size_t kept;         /* how many rows have scrolled off and are kept; 0 in a hub or a view */
    size_t scrolled;     /* how many of them are shown, above the others; 0 in a hub or a view */
    uint16_t rows;
    uint16_t cols;
    uint16_t row;        /* the cursor's */
    uint16_t col;        /* the cursor's; it is `cols` if the next character goes to the next row */
    uint8_t hidden;      /* the cursor is hidden */
    uint8_t style;       /* how the cursor looks: the number of DECSCUSR, 0 to 6 */
    uint8_t mouse;       /* enum jeihpal_mouse */
    uint8_t encoding;    /* enum jeihpal_encoding */
    uint8_t keypad;      /* the keypad sends application sequences */
    uint8_t cursor_keys; /* the cursor keys do */
    uint8_t paste;       /* pasted text is marked as such (private mode 2004) */
    uint8_t alternate;   /* the alternate screen is shown; 0 in a view */
    uint8_t updating;    /* the program is in a synchronized update of its own; 0 in a view */
    uint8_t failed;      /* the screen has failed; 0 in a view */
} jeihpal_look;

/* ---- hubs: one program's screen, and clients that are sent frames of it */

/* Makes a hub with a blank screen of this size and without clients. An object that the word held is closed, even if the
 * call is refused. BAD_SIZE, MEMORY: the word holds nothing. */
int32_t jeihpal_hub_new(jeihpal_hub *hub, uint16_t rows, uint16_t cols);

/* The same with a limit. TOO_LARGE too: the size has more than `most_cells` cells, and the word holds nothing. */
int32_t jeihpal_hub_new_within(jeihpal_hub *hub, uint16_t rows, uint16_t cols, size_t most_cells);

/* Feeds the program's next bytes to the screen. They may be cut anywhere. MEMORY: the hub has failed; it makes no
 * further frames, but bytes that wait for clients can still be sent. FAILED: it had failed before. */
int32_t jeihpal_hub_feed(jeihpal_hub *hub, const uint8_t *bytes, size_t count);

/* Gives the screen another size, or the same, and ends the program's synchronized update. Every client ends.
 * BAD_SIZE, MEMORY, FAILED. */
int32_t jeihpal_hub_resize(jeihpal_hub *hub, uint16_t rows, uint16_t cols);

/* The same with a limit. TOO_LARGE too: the size has more than `most_cells` cells, and nothing has changed. */
int32_t jeihpal_hub_resize_within(jeihpal_hub *hub, uint16_t rows, uint16_t cols, size_t most_cells);

/* Attaches a new client, which has had no frame, and sets *client to its key. The key of a client that has ended may be
 * given again. MEMORY, FAILED. */
int32_t jeihpal_hub_attach(jeihpal_hub *hub, size_t *client);

/* Adds a client that starts from what `client` has once it has read all its frames, and sets *fork to its key. No bytes
 * wait for it, and its next frame starts from there: a terminal that has read the frames of `client`, or its redraw,
 * goes on with the frames of *fork. UNKNOWN_CLIENT, FAILED, MEMORY. */
int32_t jeihpal_hub_fork(jeihpal_hub *hub, size_t client, size_t *fork);

/* Detaches the client. Bytes that wait for it are dropped. UNKNOWN_CLIENT. */
int32_t jeihpal_hub_detach(jeihpal_hub *hub, size_t client);

/* Asks for a frame for the client, best once no bytes wait for it and the program pauses. The bytes of a new frame then
 * wait for it. Returns one of enum jeihpal_answer, or a refusal: UNKNOWN_CLIENT, FAILED, MEMORY. */
int32_t jeihpal_hub_frame(jeihpal_hub *hub, size_t client);

/* The bytes that wait for the client: those of its last frame that weren't sent yet. They are at most 1,024 for each
 * cell, and 1,024 more. UNKNOWN_CLIENT. */
int32_t jeihpal_hub_owed(jeihpal_hub *hub, size_t client, uint8_t *to, size_t capacity, size_t *length);

/* Reports that the first `count` of the bytes that wait for the client were sent. They no longer wait. UNKNOWN_CLIENT,
 * NOT_OWED. */
int32_t jeihpal_hub_sent(jeihpal_hub *hub, size_t client, size_t count);

/* The bytes that draw, on a fresh terminal of the screen's size, what the client shows once it has read all its frames,
 * also those that still wait for it. Before its first frame there are none. The terminal goes on with the client's
 * later frames. If they are more than 2,097,150 bytes, JEIHPAL_TOO_LONG is returned and *length is 0. UNKNOWN_CLIENT,
 * FAILED, MEMORY. */
int32_t jeihpal_hub_redraw(jeihpal_hub *hub, size_t client, uint8_t *to, size_t capacity, size_t *length);

/* A whole frame, for a stream that several terminals read: the bytes that draw what the client shows once it has read
 * all its frames, on any terminal of the screen's size, whatever frames it has read. They are the bytes of the redraw,
 * with escape sequences after the start mark that turn off the mouse's modes and encodings, and reset the cursor's
 * style. A terminal that has read the client's frames so far shows the same after it. All these terminals go on with
 * the client's later frames. If there is no whole frame, *length is 0. The call then returns JEIHPAL_OK before the
 * client's first frame, and JEIHPAL_TOO_LONG if there would be more than 2,097,150 bytes. UNKNOWN_CLIENT, FAILED,
 * MEMORY. */
int32_t jeihpal_hub_whole_frame(jeihpal_hub *hub, size_t client, uint8_t *to, size_t capacity, size_t *length);

/* The size, the cursor and the modes of the program's screen. */
int32_t jeihpal_hub_look(jeihpal_hub *hub, jeihpal_look *look);

/* The cell at a place of it. NO_CELL. */
int32_t jeihpal_hub_cell(jeihpal_hub *hub, uint16_t row, uint16_t col, jeihpal_cell *cell);

/* The cells of a row of it, in its columns: as many as fit are copied into `cells`, and *count is how many there
 * are. *wrapped is 1 if the row's text continues in the next row, else 0. NO_CELL: there is no such row. */
int32_t jeihpal_hub_row_cells(jeihpal_hub *hub, uint16_t row, jeihpal_cell *cells, size_t capacity, size_t *count,
                              uint8_t *wrapped);

/* The text of a row of it, as UTF-8, without the empty columns at its end; nothing past the last row. MEMORY. */
int32_t jeihpal_hub_row_text(jeihpal_hub *hub, uint16_t row, uint8_t *to, size_t capacity, size_t *length);

/* The text of all rows of it, as jeihpal_screen_contents gives it. MEMORY. */
int32_t jeihpal_hub_contents(jeihpal_hub *hub, uint8_t *to, size_t capacity, size_t *length);

/* Closes the word: frees the object that it holds, if any, of any kind. */
void jeihpal_hub_close(jeihpal_hub *hub);

/* ---- views: a small far terminal that reads frames */

/* Makes a view of this size that shows nothing. An object that the word held is closed, even if the call is refused.
 * The call allocates all the memory that the view needs, except for texts. BAD_SIZE, MEMORY: the word holds nothing. */
int32_t jeihpal_view_new(jeihpal_view *view, uint16_t rows, uint16_t cols);

/* The same with a limit. TOO_LARGE too: the size has more than `most_cells` cells, and the word holds nothing. */
int32_t jeihpal_view_new_within(jeihpal_view *view, uint16_t rows, uint16_t cols, size_t most_cells);

/* Reads the next bytes. They may be cut anywhere. What a frame changes is shown once its last byte has been read. */
int32_t jeihpal_view_advance(jeihpal_view *view, const uint8_t *bytes, size_t count);

/* Parses the bytes that are held back, and shows what they change: for a frame that has begun, but whose end doesn't
 * come. */
int32_t jeihpal_view_stop(jeihpal_view *view);

/* How many bytes are held back, until the end of a frame or of a synchronized update: at most 2,097,150. */
int32_t jeihpal_view_held(jeihpal_view *view, size_t *count);

/* The size, the cursor and the modes of what is shown. */
int32_t jeihpal_view_look(jeihpal_view *view, jeihpal_look *look);

/* The cell at a place. NO_CELL. */
int32_t jeihpal_view_cell(jeihpal_view *view, uint16_t row, uint16_t col, jeihpal_cell *cell);

/* The cells of a row, as jeihpal_hub_row_cells gives them. NO_CELL. */
int32_t jeihpal_view_row_cells(jeihpal_view *view, uint16_t row, jeihpal_cell *cells, size_t capacity, size_t *count,
                               uint8_t *wrapped);

/* The text of a row, as UTF-8, without the empty columns at its end; nothing past the last row. MEMORY. */
int32_t jeihpal_view_row_text(jeihpal_view *view, uint16_t row, uint8_t *to, size_t capacity, size_t *length);

/* Closes the word: frees the object that it holds, if any, of any kind. */
void jeihpal_view_close(jeihpal_view *view);

/* ---- screens: a terminal's screen made of a program's bytes, with rows that scroll off, and bytes that redraw it */

/* Makes a blank screen of this size that keeps at most `scrollback` rows that scroll off. An object that the word held
 * is closed, even if the call is refused. BAD_SIZE, MEMORY: the word holds nothing. */
int32_t jeihpal_screen_new(jeihpal_screen *screen, uint16_t rows, uint16_t cols, size_t scrollback);

/* The same with a limit, which counts no kept rows. TOO_LARGE too: the size has more than `most_cells` cells, and the
 * word holds nothing. */
int32_t jeihpal_screen_new_within(jeihpal_screen *screen, uint16_t rows, uint16_t cols, size_t scrollback,
                                  size_t most_cells);

/* Reads the program's next bytes. They may be cut anywhere. MEMORY: the screen has failed; it can still be read, but
 * no bytes change it any more. FAILED: it had failed before. */
int32_t jeihpal_screen_process(jeihpal_screen *screen, const uint8_t *bytes, size_t count);

/* Gives the screen another size, or the same, ends the program's synchronized update, and drops the mark. BAD_SIZE,
 * FAILED: nothing has changed. MEMORY: the screen has failed. */
int32_t jeihpal_screen_resize(jeihpal_screen *screen, uint16_t rows, uint16_t cols);

/* The same with a limit. TOO_LARGE too: the size has more than `most_cells` cells, and nothing has changed. */
int32_t jeihpal_screen_resize_within(jeihpal_screen *screen, uint16_t rows, uint16_t cols, size_t most_cells);

/* Shows the newest `rows` kept rows above the others, or all of them if there are fewer. The calls below read cells and
 * texts from the rows that are shown. Redraws and differences draw these rows too, but bring the cursor to where it is
 * in the rows that are drawn on. So they lead a terminal to the picture only if no kept row is shown, or from copies
 * that jeihpal_screen_clone_visible makes. FAILED: nothing has changed. MEMORY: the screen has failed. */
int32_t jeihpal_screen_scroll(jeihpal_screen *screen, size_t rows);

/* The size, the cursor and the modes. */
int32_t jeihpal_screen_look(jeihpal_screen *screen, jeihpal_look *look);

/* The cell at a place. A kept row that is wider than the screen has cells past its columns too. NO_CELL. */
int32_t jeihpal_screen_cell(jeihpal_screen *screen, uint16_t row, uint16_t col, jeihpal_cell *cell);

/* The cells of a row, as jeihpal_hub_row_cells gives them. NO_CELL. */
int32_t jeihpal_screen_row_cells(jeihpal_screen *screen, uint16_t row, jeihpal_cell *cells, size_t capacity,
                                 size_t *count, uint8_t *wrapped);

/* The text of a row, as UTF-8, without the empty columns at its end; nothing past the last row. MEMORY. */
int32_t jeihpal_screen_row_text(jeihpal_screen *screen, uint16_t row, uint8_t *to, size_t capacity, size_t *length);

/* The text of the rows that are shown, as UTF-8: without the empty columns at a row's end, with a newline after each
 * row that doesn't go on in the next, or goes on in an empty one, and without newlines at its end. MEMORY. */
int32_t jeihpal_screen_contents(jeihpal_screen *screen, uint8_t *to, size_t capacity, size_t *length);

/* The text from one place up to another. Places past the screen show nothing. If the end doesn't come after the start,
 * the text is empty. MEMORY. */
int32_t jeihpal_screen_contents_between(jeihpal_screen *screen, uint16_t start_row, uint16_t start_col,
                                        uint16_t end_row, uint16_t end_col, uint8_t *to, size_t capacity,
                                        size_t *length);

/* The escape sequences that take a terminal of this size to the screen's picture, whatever it showed before. If a kept
 * row is shown, they may lead to another picture (jeihpal_screen_scroll). MEMORY. */
int32_t jeihpal_screen_contents_formatted(jeihpal_screen *screen, uint8_t *to, size_t capacity, size_t *length);

/* Those that also set its modes and its cursor's style, for a terminal in which these are as in a fresh one. What is
 * said of kept rows above is true here too. MEMORY. */
int32_t jeihpal_screen_state(jeihpal_screen *screen, uint8_t *to, size_t capacity, size_t *length);

/* Marks the screen as it is now: keeps a copy of it, in place of an earlier mark. MEMORY: the earlier mark stays. */
int32_t jeihpal_screen_mark(jeihpal_screen *screen);

/* The escape sequences that take a terminal from what the mark shows to what the screen shows. If either shows a kept
 * row, they may lead to another picture. Without a mark they are those of jeihpal_screen_state. The mark stays.
 * MEMORY. */
int32_t jeihpal_screen_difference(jeihpal_screen *screen, uint8_t *to, size_t capacity, size_t *length);

/* Makes a copy of the screen in `from`, and puts it into `screen`. The copy shows the same and keeps the same rows, but
 * is without the mark, the requests, and what was read of an unfinished character or sequence. An object that `screen`
 * held is closed, unless the call is refused. CLOSED and OTHER_KIND are about `from`. The two words must not be the
 * same. MEMORY. */
int32_t jeihpal_screen_clone(jeihpal_screen *screen, jeihpal_screen *from);

/* As jeihpal_screen_clone, but the copy draws on copies of the rows that `from` shows, kept ones too, and keeps none.
 * So its redraws and differences lead a terminal to what `from` shows, whether kept rows are shown or not. If a kept
 * row is wider than the screen, a wide character that the right edge cuts is blank, and the row continues in the
 * next one only if its last column shows something. The last row doesn't continue in another one. MEMORY. */
int32_t jeihpal_screen_clone_visible(jeihpal_screen *screen, jeihpal_screen *from);

/* Removes the kept rows of what is shown. FAILED. */
int32_t jeihpal_screen_clear_scrollback(jeihpal_screen *screen);

/* How the next character is drawn. */
int32_t jeihpal_screen_drawing(jeihpal_screen *screen, jeihpal_drawing *drawing);

/* The rows as text with its attributes: no control sequences but SGR, and no control characters but a newline after
 * each row but the last that doesn't go on in the next. MEMORY. */
int32_t jeihpal_screen_contents_formatted_basic(jeihpal_screen *screen, uint8_t *to, size_t capacity, size_t *length);

/* The escape sequences that set the modes and the cursor's style, for a terminal in which these are as in a fresh one.
 * MEMORY. */
int32_t jeihpal_screen_input_mode_formatted(jeihpal_screen *screen, uint8_t *to, size_t capacity, size_t *length);

/* The escape sequences that set how the next character is drawn. MEMORY. */
int32_t jeihpal_screen_attributes_formatted(jeihpal_screen *screen, uint8_t *to, size_t capacity, size_t *length);

/* The escape sequences that bring a terminal's cursor to the screen's, and hide or show it. If a kept row is shown,
 * they may print a character over another one. MEMORY. */
int32_t jeihpal_screen_cursor_state_formatted(jeihpal_screen *screen, uint8_t *to, size_t capacity, size_t *length);

/* The escape sequences that draw each row on a row of default cells: `width` columns from column `start` on. The rows'
 * bytes follow one another in `to`, and *length is how many bytes there are in all. `lengths` says how many each row
 * has: as many of these numbers are copied as fit into `most`, and *rows is how many rows there are. Before each row
 * the terminal's cursor must be in the row's column `start`, and its attributes must be the default ones. MEMORY. */
int32_t jeihpal_screen_rows_formatted(jeihpal_screen *screen, uint16_t start, uint16_t width, uint8_t *to,
                                      size_t capacity, size_t *length, size_t *lengths, size_t most, size_t *rows);

/* The next four calls give the differences of two screens, of two words. Both are read, and neither changes. CLOSED and
 * OTHER_KIND are about either. If either shows a kept row, the first two may lead to another picture. The first: the
 * escape sequences that take a terminal from the picture of `earlier` to that of `screen`. MEMORY. */
int32_t jeihpal_screen_contents_diff(jeihpal_screen *screen, jeihpal_screen *earlier, uint8_t *to, size_t capacity,
                                     size_t *length);

/* Those that also change the modes and the cursor's style. MEMORY. */
int32_t jeihpal_screen_state_diff(jeihpal_screen *screen, jeihpal_screen *earlier, uint8_t *to, size_t capacity,
                                  size_t *length);

/* Those that change the modes and the cursor's style alone. MEMORY. */
int32_t jeihpal_screen_input_mode_diff(jeihpal_screen *screen, jeihpal_screen *earlier, uint8_t *to, size_t capacity,
                                       size_t *length);

/* Those that draw each row over the one that `earlier` shows there, as jeihpal_screen_rows_formatted does; as many rows
 * as both have. MEMORY. */
int32_t jeihpal_screen_rows_diff(jeihpal_screen *screen, jeihpal_screen *earlier, uint16_t start, uint16_t width,
                                 uint8_t *to, size_t capacity, size_t *length, size_t *lengths, size_t most,
                                 size_t *rows);

/* What a program asks of its terminal beyond drawing. */
enum jeihpal_request_kind {
    JEIHPAL_NO_REQUEST = 0,
    JEIHPAL_BELL = 1,        /* BEL */
    JEIHPAL_VISUAL_BELL = 2, /* ESC g */
    JEIHPAL_RESIZE = 3,      /* this many rows and columns, which may be 0 (XTWINOPS 8) */
    JEIHPAL_ICON_NAME = 4,   /* the name of the window's icon (OSC 0 and 1) */
    JEIHPAL_TITLE = 5,       /* the window's title (OSC 0 and 2) */
    JEIHPAL_COPY = 6,        /* letters of clipboards, then data in base64 for them (OSC 52) */
    JEIHPAL_PASTE = 7,       /* letters of clipboards, whose data is asked for (OSC 52 with ?) */

    /* What the screen does nothing for, if jeihpal_screen_tell asks for it. The text of an escape or control sequence
     * begins with its first two intermediates, a private marker among them. */
    JEIHPAL_UNHANDLED_CHAR = 8,    /* U+FFFD, which malformed bytes give too, as UTF-8 */
    JEIHPAL_UNHANDLED_CONTROL = 9, /* a control: its byte, also from 0x80 to 0x9F for U+0080 to U+009F */
    JEIHPAL_UNHANDLED_ESCAPE = 10, /* intermediates, then the final byte */
    JEIHPAL_UNHANDLED_CSI = 11,    /* intermediates, then the parameters with ; and : between them, and the final byte;
                                      once for each group of parameters that does nothing */
    JEIHPAL_UNHANDLED_OSC = 12,    /* the command's pieces with ; between them */

    /* A row that left the screen for good, if jeihpal_screen_tell asks for it: it isn't kept, or was pushed out of the
     * kept ones. Its text with its attributes, from the default ones on, as jeihpal_screen_contents_formatted_basic
     * gives it, and a newline if it doesn't go on in the next row. */
    JEIHPAL_ROW = 13,
    JEIHPAL_ALTERNATE_ROW = 14 /* one of the alternate screen */
};

typedef struct jeihpal_request {
    size_t length;   /* how many bytes of text it has */
    size_t letters;  /* how many of these, at the front, are letters of clipboards or intermediates; else 0 */
    size_t dropped;  /* how many requests weren't queued since the screen was made */
    uint16_t rows;   /* of JEIHPAL_RESIZE, else 0 */
    uint16_t cols;   /* of JEIHPAL_RESIZE, else 0 */
    uint8_t kind;    /* enum jeihpal_request_kind */
} jeihpal_request;

/* How many requests wait in a screen's queue at most, and how many bytes the text of each has at most. Rows are queued
 * as long as there is memory, and have texts of any length. They count among the requests that wait: once this many
 * wait, no other request is queued until some are taken. */
#define JEIHPAL_MOST_REQUESTS 256
#define JEIHPAL_MOST_REQUEST_BYTES 1021

/* Sets whether the queue gets what the screen does nothing for from now on, and whether it gets rows that leave the
 * screen for good: 0 or 1 each. The queue of a new screen, of a copy, and of a recording's screen gets neither. */
int32_t jeihpal_screen_tell(jeihpal_screen *screen, uint8_t unhandled, uint8_t rows);

/* Takes the oldest request out of the screen's queue, and returns its kind; NO_REQUEST if none waits, and then all of
 * *request but `dropped` is 0. As much of the text as fits is copied into `to`; if it is longer than `capacity`, the
 * request stays in the queue as its oldest. A request is dropped and counted if the queue is full, if its text is too
 * long, or if there is no memory for its text. It needs no new memory if its text and those that wait have at most
 * 4,096 bytes together: a screen is made with the room for these. No text is cut. A text is as the program wrote it,
 * and needn't be UTF-8. */
int32_t jeihpal_screen_request(jeihpal_screen *screen, uint8_t *to, size_t capacity, jeihpal_request *request);

/* Closes the word: frees the object that it holds, if any, of any kind. */
void jeihpal_screen_close(jeihpal_screen *screen);

/* ---- recordings: what a program wrote to its terminal, and when */

enum jeihpal_recording_kind {
    JEIHPAL_ASCIICAST = 1,  /* an asciicast, version 1, 2 or 3 */
    JEIHPAL_TYPESCRIPT = 2, /* a typescript of script(1), with the file of its times */
    JEIHPAL_TTYREC = 3,     /* a ttyrec */
    JEIHPAL_RAW = 4         /* the bytes alone: one event at the time 0 */
};

enum jeihpal_recording_fault {
    JEIHPAL_NO_FAULT = 0,
    JEIHPAL_BAD_LINE = 1, /* a line of an asciicast isn't an event */
    JEIHPAL_BAD_BYTE = 2, /* no whole frame of a ttyrec begins at this byte */
    JEIHPAL_BAD_STEP = 3  /* a line of a file of times isn't a step, or takes more bytes than are left */
};

/* What a recording says of itself. Only what comes before the first fault is read. */
typedef struct jeihpal_recorded {
    size_t events;   /* how many there are */
    uint64_t length; /* microseconds from the beginning to the last event, even if that isn't among these */
    uint64_t place;  /* the line of the first fault, from 1, or its byte, from 0; 0 if there is no fault */
    uint16_t rows;   /* the size at first; 0 if the recording doesn't say it */
    uint16_t cols;
    uint8_t kind;    /* enum jeihpal_recording_kind */
    uint8_t fault;   /* enum jeihpal_recording_fault */
} jeihpal_recorded;

enum jeihpal_event_kind {
    JEIHPAL_OUTPUT = 1,     /* the program writes the text, which needn't be UTF-8, and may end within a character */
    JEIHPAL_NEW_SIZE = 2,   /* the terminal gets this size */
    JEIHPAL_MARKER = 3      /* the text names the moment */
};

typedef struct jeihpal_event {
    uint64_t time;   /* microseconds since the beginning; never less than that of the event before */
    size_t length;   /* how many bytes of text it has */
    uint16_t rows;   /* of JEIHPAL_NEW_SIZE, else 0 */
    uint16_t cols;   /* of JEIHPAL_NEW_SIZE, else 0 */
    uint8_t kind;    /* enum jeihpal_event_kind */
} jeihpal_event;

/* Reads a recording up to its first fault, in the kind that its first bytes say; a typescript without its file of times
 * is a raw one. An object that the word held is closed, even if the call is refused. The bytes are copied. NO_HEADER,
 * COMPRESSED, MEMORY: the word holds nothing. */
int32_t jeihpal_recording_open(jeihpal_recording *recording, const uint8_t *bytes, size_t count);

/* Reads a typescript likewise: what the program wrote, and the file of its times, of either format of script(1).
 * MEMORY: the word holds nothing. */
int32_t jeihpal_recording_open_script(jeihpal_recording *recording, const uint8_t *output, size_t count,
                                      const uint8_t *timing, size_t timing_count);

/* The kind, the size at first, the number of events, the length and the first fault. */
int32_t jeihpal_recording_look(jeihpal_recording *recording, jeihpal_recorded *look);

/* An event, counted from 0. NO_EVENT. */
int32_t jeihpal_recording_event(jeihpal_recording *recording, size_t index, jeihpal_event *event);

/* The text of an event: output, or the name of a marker. Other events have no text. NO_EVENT. */
int32_t jeihpal_recording_event_text(jeihpal_recording *recording, size_t index, uint8_t *to, size_t capacity,
                                     size_t *length);

/* The colours that an asciicast has of its own, each as 0xRRGGBB: that of texts, that of backgrounds, and the first
 * sixteen. As many as fit into `most` are copied, and *count is how many there are: 18, or 0 if it has no colours of
 * its own. */
int32_t jeihpal_recording_colors(jeihpal_recording *recording, uint32_t *colors, size_t most, size_t *count);

/* Makes a screen of this size that keeps at most `scrollback` rows, does to it what the recording does up to a time, in
 * microseconds, and puts it into `screen`. It has no mark and no requests. An object that `screen` held is closed,
 * unless the call is refused. CLOSED and OTHER_KIND are about `recording`. BAD_SIZE, MEMORY. A recording can contain
 * any sizes: before you use a stranger's, look for NEW_SIZE events of more cells than you want to pay for. */
int32_t jeihpal_recording_screen(jeihpal_recording *recording, jeihpal_screen *screen, uint16_t rows, uint16_t cols,
                                 size_t scrollback, uint64_t time);

/* Closes the word: frees the object that it holds, if any, of any kind. */
void jeihpal_recording_close(jeihpal_recording *recording);

/* ---- filters: a program's output on the way to a hub or a screen
 *
 * Programs draw boxes with DEC's special graphics: after ESC ( 0 the letters lqqk mean the upper edge of a box. Hubs
 * and screens show letters there, as vt100 does. A filter gives all bytes on as they are, except such letters: in their
 * place it gives the characters that they mean. It reads ECMA-35's designations and shifts, as xterm does.
 *
 * Directly after a sequence that vt100 doesn't know, it gives others that vt100 knows, and that do the same: after
 * colours with the name of a colour space (38:2::R:G:B) and kinds of underlines (4:3, 4:0), CSI s and CSI u, ESC D and
 * ESC E, CSI r (the cursor goes home), the private modes 1047 and 1048, and CSI ! p. */

/* Makes a filter through which nothing has passed. An object that the word held is closed, even if the call is refused.
 * MEMORY: the word holds nothing. */
int32_t jeihpal_filter_new(jeihpal_filter *filter);

/* Reads the next piece of the program's output. It may be cut anywhere. MEMORY, never for 0 bytes: the piece has not
 * passed, and the call may be repeated with it; what the last piece gave may be lost. The call takes room for eight
 * times as many bytes, and 512 more, and keeps it: a piece that isn't longer than one that has passed is never
 * refused. */
int32_t jeihpal_filter_pass(jeihpal_filter *filter, const uint8_t *bytes, size_t count);

/* The bytes that the last piece gave: at most eight times as many as the piece had, and 512 more. Before the first
 * piece there are none. */
int32_t jeihpal_filter_given(jeihpal_filter *filter, uint8_t *to, size_t capacity, size_t *length);

/* Closes the word: frees the object that it holds, if any, of any kind. */
void jeihpal_filter_close(jeihpal_filter *filter);

#ifdef __cplusplus
}
#endif

#endif
