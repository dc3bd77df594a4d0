/* Reads the CMap stream of a PDF file over the CMap that its entry UseCMap gives (ISO 32000-1, 9.7.5.3).
 *
 *     use_cmap STREAM BASE CODE
 *
 * It prints the CID of a code of two bytes, in hexadecimal digits. BASE uses no other file. */
#include <hayro_cmap.h>
#include <inttypes.h>
#include <stdbool.h>
#include <stdio.h>
#include <stdlib.h>
#include <string.h>

enum { MOST = 1 << 20 };

/* The use of the base, which is put before a stream that uses no file. */
static const char use[] = "/UseCMap usecmap\n";

static _Noreturn void fail(const char *what, const char *why) {
    fprintf(stderr, "%s: %s\n", what, why);
    exit(1);
}

static size_t read_file(const char *path, uint8_t *bytes) {
    FILE *file = fopen(path, "rb");
    if (!file) fail(path, "it can't be read");
    size_t len = fread(bytes, 1, MOST, file);
    fclose(file);
    return len;
}

/* Reads a text, of which each name stands for the base. It returns whether the text uses a name. */
static bool load(hayro_cmap *map, const char *path, const uint8_t *text, size_t len, const uint8_t *base,
                 size_t base_len) {
    hayro_cmap_bundle none = HAYRO_CMAP_EMPTY;
    hayro_cmap_loader loader = HAYRO_CMAP_EMPTY;
    hayro_cmap_load(&loader, text, len, &none, HAYRO_CMAP_NO_BUDGET);
    bool is_used = false;
    while (hayro_cmap_supply(&loader, &none, HAYRO_CMAP_GIVEN, base, base_len) == HAYRO_CMAP_OK) is_used = true;
    hayro_cmap_fault fault;
    size_t needed;
    if (hayro_cmap_finish(map, &loader, &fault, hayro_cmap_room(NULL), 0, &needed) != HAYRO_CMAP_OK)
        fail(path, "refused");
    return is_used;
}

int main(int words, char **word) {
    if (words != 4) fail("use_cmap", "STREAM, BASE and CODE are needed");
    static uint8_t text[sizeof use - 1 + MOST], base[MOST];
    const size_t use_len = sizeof use - 1;
    memcpy(text, use, use_len);
    size_t len = read_file(word[1], text + use_len), base_len = read_file(word[2], base);
    hayro_cmap map = HAYRO_CMAP_EMPTY;
    if (!load(&map, word[1], text + use_len, len, base, base_len))
        load(&map, word[1], text, use_len + len, base, base_len);
    uint32_t cid;
    if (!hayro_cmap_cid(&map, (uint32_t)strtoul(word[3], NULL, 16), 2, &cid)) fail(word[3], "no CID");
    printf("%" PRIu32 "\n", cid);
    hayro_cmap_free(&map);
    return 0;
}
