/* Writes a CMap file for some codes only, such as the codes of a document.
 *
 *     subset FILE [CODE..]
 *
 * It prints a CMap file that has the answers of FILE for these codes only, or for all codes if none is given. A
 * CODE has two hexadecimal digits for each byte. FILE uses no other file. */
#include <hayro_cmap.h>
#include <stdio.h>
#include <stdlib.h>
#include <string.h>

static _Noreturn void fail(const char *what, const char *why) {
    fprintf(stderr, "%s: %s\n", what, why);
    exit(1);
}

static void *allocated(size_t len) {
    void *bytes = malloc(len + 1);
    if (!bytes) fail("subset", "out of memory");
    return bytes;
}

static uint8_t *read_file(const char *path, size_t *len) {
    FILE *file = fopen(path, "rb");
    long end = file && fseek(file, 0, SEEK_END) == 0 ? ftell(file) : -1;
    if (end < 0) fail(path, "it can't be read");
    rewind(file);
    uint8_t *bytes = allocated((size_t)end);
    *len = fread(bytes, 1, (size_t)end, file);
    fclose(file);
    return bytes;
}

static void check(const char *path, hayro_cmap_status status) {
    if (status != HAYRO_CMAP_OK) fail(path, status == HAYRO_CMAP_NO_MEMORY ? "out of memory" : "refused");
}

/* The code with these digits. */
static hayro_cmap_codes code_of(const char *digits) {
    char *end;
    uint32_t code = (uint32_t)strtoul(digits, &end, 16);
    if (*end) fail(digits, "a code was expected");
    hayro_cmap_codes codes = {code, code, (uint32_t)(strlen(digits) / 2)};
    return codes;
}

static void write_text(const char *path, hayro_cmap *map, const hayro_cmap_codes *codes, size_t len) {
    size_t needed = 0;
    hayro_cmap_status status = hayro_cmap_write(map, codes, len, hayro_cmap_room(NULL), 0, &needed);
    uint8_t *room = allocated(needed);
    if (status == HAYRO_CMAP_NO_ROOM) status = hayro_cmap_write(map, codes, len, room, needed, &needed);
    check(path, status);
    fwrite(room, 1, needed, stdout);
    free(room);
}

int main(int words, char **word) {
    if (words < 2) fail("subset", "FILE is missing");
    size_t data_len, len = (size_t)words - 2;
    uint8_t *data = read_file(word[1], &data_len);
    hayro_cmap map = HAYRO_CMAP_EMPTY;
    check(word[1], hayro_cmap_parse(&map, data, data_len, hayro_cmap_bytes(NULL), 0, hayro_cmap_files(NULL), 0,
                                    HAYRO_CMAP_NO_BUDGET));
    free(data);
    hayro_cmap_codes *codes = allocated(len * sizeof *codes);
    for (size_t i = 0; i < len; i++) codes[i] = code_of(word[i + 2]);
    write_text(word[1], &map, codes, len);
    free(codes);
    hayro_cmap_free(&map);
}
