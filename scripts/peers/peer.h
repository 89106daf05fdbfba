/* What the programs for C libraries share: words, the stream, and how often it is read. */
#include <stdio.h>
#include <stdlib.h>
#include <string.h>

/* How many bytes a piece has. */
#define PIECE_LEN 4096

static size_t piece_len(size_t at, size_t length)
{
    return length - at < PIECE_LEN ? length - at : PIECE_LEN;
}

/* How many rows a terminal keeps that keeps some. */
#define KEPT_ROWS 10000

/* Has a new terminal read the stream. Answers a count that depends on it, or a negative number at a fault. */
typedef int (*reading)(int rows, int cols, int kept, const char *stream, size_t length);

/* Does what the words say: screen ROWS COLS TIMES; kept in place of screen where the library keeps rows. */
static int peer(int count, char **words, int keeps, reading reads)
{
    int kept = count == 5 && strcmp(words[1], "kept") == 0 ? KEPT_ROWS : 0;
    if (count != 5 || (kept ? !keeps : strcmp(words[1], "screen") != 0))
        return 2;
    size_t length = 0, room = 1 << 16;
    char *stream = malloc(room);
    for (size_t n; stream && (n = fread(stream + length, 1, room - length, stdin)) > 0;) {
        length += n;
        if (length == room)
            stream = realloc(stream, room *= 2);
    }
    int found = 0;
    for (long left = atol(words[4]); stream && left > 0; left--)
        if ((found = reads(atoi(words[2]), atoi(words[3]), kept, stream, length)) < 0)
            return 1;
    free(stream);
    return printf("%s %d\n", words[1], found) < 0;
}
