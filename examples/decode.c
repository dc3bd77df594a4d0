/* Prints the codes of a string by a CMap file of a folder, with their CIDs and texts.
 *
 *     decode FOLDER FILE HEX
 *
 * A line is a code, its CID or none, and its text if it has one, such as `<93FA> 3284 日`. Only the files that
 * FILE uses are read. A CMap of a composite font mostly has only CIDs: the text of a code is then the text of
 * its CID in the CMap from its character collection to Unicode, such as Adobe-Japan1-UCS2 (ISO 32000-1,
 * 9.10.2), if the folder has this CMap. */
#include <hayro_cmap.h>
#include <errno.h>
#include <inttypes.h>
#include <limits.h>
#include <stdio.h>
#include <stdlib.h>
#include <string.h>

/* The bytes of a buffer. */
enum { ROOM = 4096 };

static _Noreturn void fail(const char *what, const char *why) {
    fprintf(stderr, "%s: %s\n", what, why);
    exit(1);
}

static void *allocated(size_t len) {
    void *bytes = malloc(len + 1);
    if (!bytes) fail("decode", "out of memory");
    return bytes;
}

/* The bytes of a file of the folder, with their length; null if there is no such file. A name may come from
 * a file, and mustn't lead out of the folder. */
static uint8_t *read_file(const char *folder, const char *name, size_t *len) {
    if (strchr(name, '/')) return NULL;
    char *path = allocated(strlen(folder) + 1 + strlen(name));
    sprintf(path, "%s/%s", folder, name);
    FILE *file = fopen(path, "rb");
    if (!file && errno != ENOENT) fail(name, strerror(errno));
    free(path);
    if (!file) return NULL;
    long end = fseek(file, 0, SEEK_END) == 0 ? ftell(file) : -1;
    if (end < 0 || end == LONG_MAX) fail(name, "not a file that can be read");
    rewind(file);
    uint8_t *bytes = allocated((size_t)end);
    *len = fread(bytes, 1, (size_t)end, file);
    fclose(file);
    return bytes;
}

/* Prints why a file is refused: the one at fault, and what is wrong with it. */
static _Noreturn void fail_refused(const char *name, const hayro_cmap_fault *fault,
                                   const uint8_t *names) {
    uint8_t message[256];
    size_t before = 0, needed = 0;
    if (hayro_cmap_message(fault, message, sizeof message, &needed) != HAYRO_CMAP_OK) needed = 0;
    for (size_t i = 0; i + 1 < fault->names; i++) before += fault->name_lens[i];
    if (fault->names == 0) fprintf(stderr, "%s", name);
    else fwrite(names + before, 1, fault->name_lens[fault->names - 1], stderr);
    fprintf(stderr, ": %.*s\n", (int)needed, (const char *)message);
    exit(1);
}

/* Supplies each file that the loader wants, if the folder has it. */
static hayro_cmap_status supply_files(hayro_cmap_loader *loader, const char *folder) {
    hayro_cmap_bundle none = HAYRO_CMAP_EMPTY;
    hayro_cmap_status status = HAYRO_CMAP_OK;
    uint8_t name[ROOM + 1];
    size_t name_len, len = 0;
    while (status == HAYRO_CMAP_OK && hayro_cmap_wanted(loader, name, ROOM, &name_len) == HAYRO_CMAP_OK) {
        name[name_len] = 0;
        uint8_t *file = memchr(name, 0, name_len) ? NULL : read_file(folder, (const char *)name, &len);
        status = hayro_cmap_supply(loader, &none, file != NULL, hayro_cmap_bytes(file), file ? len : 0);
        free(file);
    }
    return status;
}

/* Reads the map of a file of the folder. It returns whether the file is there. */
static bool open_map(hayro_cmap *map, const char *folder, const char *name) {
    size_t len = 0, needed = 0;
    uint8_t *data = read_file(folder, name, &len);
    if (!data) return false;
    hayro_cmap_bundle none = HAYRO_CMAP_EMPTY;
    hayro_cmap_loader loader = HAYRO_CMAP_EMPTY;
    hayro_cmap_status status = hayro_cmap_load(&loader, data, len, &none, HAYRO_CMAP_NO_BUDGET);
    free(data);
    if (status == HAYRO_CMAP_OK) status = supply_files(&loader, folder);
    hayro_cmap_fault fault;
    uint8_t names[HAYRO_CMAP_MOST_NAMES * ROOM];
    if (status == HAYRO_CMAP_OK)
        status = hayro_cmap_finish(map, &loader, &fault, names, sizeof names, &needed);
    hayro_cmap_loader_free(&loader);
    if (status == HAYRO_CMAP_NO_MEMORY) fail(name, "out of memory");
    if (status == HAYRO_CMAP_ABSENT || needed > sizeof names) fail(name, "a name is too long");
    if (status != HAYRO_CMAP_OK) fail_refused(name, &fault, names);
    return true;
}

/* Reads the map from the CIDs of a map's collection to Unicode, if there is one. ISO 32000-1, 9.10.2. */
static void open_texts(hayro_cmap *texts, hayro_cmap *map, const char *folder) {
    char registry[64], ordering[64], name[160];
    size_t registry_len, ordering_len;
    if (hayro_cmap_registry(map, (uint8_t *)registry, sizeof registry, &registry_len) != HAYRO_CMAP_OK
        || hayro_cmap_ordering(map, (uint8_t *)ordering, sizeof ordering, &ordering_len)
               != HAYRO_CMAP_OK)
        return;
    snprintf(name, sizeof name, "%.*s-%.*s-UCS2", (int)registry_len, registry, (int)ordering_len,
             ordering);
    open_map(texts, folder, name);
}

static void print_character(const hayro_cmap_character *it, const uint8_t *text) {
    printf("<%0*" PRIX32 "> ", 2 * it->code.byte_len, it->code.code);
    if (it->code.has_cid) printf("%" PRIu32, it->code.cid);
    else printf("none");
    if (it->has_text) printf(" %.*s", (int)it->text_len, (const char *)text + it->text_start);
    putchar('\n');
}

/* Prints the codes of a string, some at a time. */
static void decode(const uint8_t *string, size_t len, hayro_cmap *map, hayro_cmap *own, hayro_cmap *texts) {
    hayro_cmap_character codes[32];
    uint8_t text[ROOM];
    hayro_cmap_extracted done;
    hayro_cmap_status status = HAYRO_CMAP_NO_ROOM;
    while (status == HAYRO_CMAP_NO_ROOM) {
        status = hayro_cmap_extract(map, own, texts, string, len, codes, 32, text, sizeof text, &done);
        for (size_t i = 0; i < done.made; i++) print_character(&codes[i], text);
        if (status == HAYRO_CMAP_NO_ROOM && done.made == 0) fail("decode", "a text is too long");
        string += done.taken;
        len -= done.taken;
    }
    if (status == HAYRO_CMAP_NO_MEMORY) fail("decode", "out of memory");
}

/* Replaces hexadecimal digits by their bytes, in place. It returns the number of bytes. */
static size_t spelled(char *digits) {
    size_t len = strlen(digits) / 2;
    if (digits[2 * len]) fail(digits, "an odd number of digits");
    for (size_t i = 0; i < len; i++) {
        unsigned byte;
        if (sscanf(digits + 2 * i, "%2x", &byte) != 1) fail(digits, "not hexadecimal");
        digits[i] = (char)byte;
    }
    return len;
}

int main(int argc, char **argv) {
    if (argc != 4) fail("usage", "decode FOLDER FILE HEX");
    hayro_cmap map = HAYRO_CMAP_EMPTY, own = HAYRO_CMAP_EMPTY, texts = HAYRO_CMAP_EMPTY;
    if (!open_map(&map, argv[1], argv[2])) fail(argv[2], "no such file");
    /* The texts of FILE itself come first. A call takes different handles, so the map needs a second one. */
    if (hayro_cmap_share(&map, &own) != HAYRO_CMAP_OK) fail("decode", "out of memory");
    open_texts(&texts, &map, argv[1]);
    size_t len = spelled(argv[3]);
    decode((const uint8_t *)argv[3], len, &map, &own, &texts);
    hayro_cmap_free(&texts);
    hayro_cmap_free(&own);
    hayro_cmap_free(&map);
    return 0;
}
