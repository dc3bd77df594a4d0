/* Prints CIDs by the files of a bundle, which is opened once.
 *
 *     bundle BUNDLE WORD..
 *
 * A word NAME:L:HEX asks the file with this name in BUNDLE for the CID of a code of L bytes. */
#include "hayro_cmap.h"
#include <inttypes.h>
#include <stdio.h>
#include <stdlib.h>
#include <string.h>

static void fail(const char *why) {
    fprintf(stderr, "%s\n", why);
    exit(1);
}

static uint8_t *read_all(const char *path, size_t *len) {
    FILE *in = fopen(path, "rb");
    long end = in && fseek(in, 0, SEEK_END) == 0 ? ftell(in) : -1;
    if (end < 0) fail("the bundle can't be read");
    rewind(in);
    *len = (size_t)end;
    uint8_t *bytes = malloc(*len + 1);
    if (!bytes) fail("out of memory");
    if (fread(bytes, 1, *len, in) != *len) fail("the bundle can't be read");
    fclose(in);
    return bytes;
}

/* Why a call has no answer. */
static const char *why(hayro_cmap_status status) {
    switch (status) {
    case HAYRO_CMAP_NO_MEMORY: return "out of memory";
    case HAYRO_CMAP_NOT_A_BUNDLE: return "invalid bundle";
    case HAYRO_CMAP_ABSENT: return "the bundle has no file of this name";
    default: return "the file is refused";
    }
}

static void open_bundle(hayro_cmap_bundle *bundle, const char *path) {
    size_t len;
    uint8_t *bytes = read_all(path, &len);
    hayro_cmap_status status = hayro_cmap_bundle_open(bundle, bytes, len);
    free(bytes);
    if (status != HAYRO_CMAP_OK) fail(why(status));
}

/* Prints the CID that a word asks for, by the file of its name. */
static void print_cid(hayro_cmap_bundle *bundle, const char *word) {
    const char *asked = strchr(word, ':');
    if (!asked) fail("a word is NAME:L:HEX");
    char *code;
    uint8_t byte_len = (uint8_t)strtoul(asked + 1, &code, 10);
    if (*code != ':') fail("a word is NAME:L:HEX");
    hayro_cmap map = HAYRO_CMAP_EMPTY;
    hayro_cmap_status status =
        hayro_cmap_open(&map, hayro_cmap_bytes(word), (size_t)(asked - word), bundle,
                        hayro_cmap_files(NULL), 0, HAYRO_CMAP_NO_BUDGET);
    if (status != HAYRO_CMAP_OK) fail(why(status));
    uint32_t cid;
    if (hayro_cmap_cid(&map, (uint32_t)strtoul(code + 1, NULL, 16), byte_len, &cid))
        printf("%s %" PRIu32 "\n", word, cid);
    else printf("%s none\n", word);
    hayro_cmap_free(&map);
}

int main(int argc, char **argv) {
    if (argc < 2) fail("usage: bundle BUNDLE WORD..");
    hayro_cmap_bundle bundle = HAYRO_CMAP_EMPTY;
    open_bundle(&bundle, argv[1]);
    for (int i = 2; i < argc; i++) print_cid(&bundle, argv[i]);
    hayro_cmap_bundle_free(&bundle);
    return 0;
}
