/* Prints the string of a font that shows a text, in hexadecimal digits.
 *
 *     encode FILE TEXT [MISSING]
 *
 * The font has the predefined CMap Identity-H, so its codes have two bytes. FILE is its ToUnicode CMap,
 * which uses no other file. MISSING is a text that stands for each character that can't be encoded. */
#include <hayro_cmap.h>
#include <stdio.h>
#include <stdlib.h>
#include <string.h>

static _Noreturn void fail(const char *what, const char *why) {
    fprintf(stderr, "%s: %s\n", what, why);
    exit(1);
}

static void *allocated(size_t len) {
    void *bytes = malloc(len + 1);
    if (!bytes) fail("encode", "out of memory");
    return bytes;
}

static uint8_t *read_file(const char *path, size_t *len) {
    FILE *file = fopen(path, "rb");
    long end = file && fseek(file, 0, SEEK_END) == 0 ? ftell(file) : -1;
    if (end < 0) fail(path, "it can't be read");
    rewind(file);
    uint8_t *bytes = allocated((size_t)end);
    *len = fread(bytes, 1, (size_t)end, file);
    fclose(file);
    return bytes;
}

static void check(const char *what, hayro_cmap_status status) {
    if (status != HAYRO_CMAP_OK) fail(what, status == HAYRO_CMAP_NO_MEMORY ? "out of memory" : "refused");
}

/* The encoder of the font with this ToUnicode CMap. */
static hayro_cmap_encoder encoder_of(const char *path) {
    hayro_cmap encoding = HAYRO_CMAP_EMPTY, to_unicode = HAYRO_CMAP_EMPTY, none = HAYRO_CMAP_EMPTY;
    size_t len;
    uint8_t *data = read_file(path, &len);
    check(path, hayro_cmap_parse(&to_unicode, data, len, hayro_cmap_bytes(NULL), 0, hayro_cmap_files(NULL), 0,
                                 HAYRO_CMAP_NO_BUDGET));
    free(data);
    check("encode", hayro_cmap_identity(&encoding, false));
    hayro_cmap_encoder encoder = HAYRO_CMAP_EMPTY;
    check("encode", hayro_cmap_encoder_build(&encoder, &encoding, &to_unicode, &none));
    hayro_cmap_free(&encoding);
    hayro_cmap_free(&to_unicode);
    return encoder;
}

/* A string of the font. */
struct string {
    uint8_t *bytes;
    size_t len;
};

/* The string that shows a text. A code has two bytes, and its text has at least one byte. */
static struct string encoded(hayro_cmap_encoder *encoder, const char *text) {
    size_t len = strlen(text), offset;
    struct string string = {allocated(2 * len), 0};
    hayro_cmap_status status = hayro_cmap_encode(encoder, (const uint8_t *)text, len, string.bytes, 2 * len,
                                                 &string.len, &offset);
    if (status == HAYRO_CMAP_NO_MEMORY) fail("encode", "out of memory");
    if (status != HAYRO_CMAP_OK) fail(text + offset, "can't be encoded");
    return string;
}

/* The same with the string `missing` for each character that can't be encoded. */
static struct string encoded_lossy(hayro_cmap_encoder *encoder, const char *text, struct string missing) {
    size_t len = strlen(text), room = len * (2 + missing.len);
    struct string string = {allocated(room), 0};
    check("encode", hayro_cmap_encode_lossy(encoder, (const uint8_t *)text, len, missing.bytes, missing.len,
                                            string.bytes, room, &string.len));
    return string;
}

int main(int argc, char **argv) {
    if (argc != 3 && argc != 4) fail("usage", "encode FILE TEXT [MISSING]");
    hayro_cmap_encoder encoder = encoder_of(argv[1]);
    struct string string = encoded(&encoder, argv[argc - 1]);
    if (argc == 4) {
        struct string missing = string;
        string = encoded_lossy(&encoder, argv[2], missing);
        free(missing.bytes);
    }
    for (size_t i = 0; i < string.len; i++) printf("%02X", string.bytes[i]);
    putchar('\n');
    free(string.bytes);
    hayro_cmap_encoder_free(&encoder);
}
