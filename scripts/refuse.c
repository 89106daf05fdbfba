/* A library that is loaded before the C library, and refuses one growth of a program.
 *
 * REFUSE is the number of the call of malloc or realloc that is refused, counted from 1; 0 refuses none. At the
 * program's end the file that REFUSE_REPORT names gets a line: how many growths were asked for, and how many blocks of
 * memory were not given back.
 */
#include <errno.h>
#include <stdio.h>
#include <stdlib.h>

extern void *__libc_malloc(size_t size);
extern void *__libc_realloc(void *block, size_t size);
extern void __libc_free(void *block);

static unsigned long refused, asked, live;

__attribute__((constructor)) static void begin(void) {
    const char *number = getenv("REFUSE");
    asked = 0;
    refused = number ? strtoul(number, NULL, 10) : 0;
}

static int is_refused(void) {
    asked += 1;
    if (asked != refused) {
        return 0;
    }
    errno = ENOMEM;
    return 1;
}

void *malloc(size_t size) {
    void *block = is_refused() ? NULL : __libc_malloc(size);
    live += block != NULL;
    return block;
}

void *realloc(void *block, size_t size) {
    void *grown = is_refused() ? NULL : __libc_realloc(block, size);
    live += block == NULL && grown != NULL;
    return grown;
}

void free(void *block) {
    live -= block != NULL;
    __libc_free(block);
}

__attribute__((destructor)) static void end(void) {
    const char *name = getenv("REFUSE_REPORT");
    unsigned long growths = asked, left = live;
    FILE *report = name ? fopen(name, "w") : NULL;
    if (report) {
        fprintf(report, "%lu %lu\n", growths, left);
        fclose(report);
    }
}
