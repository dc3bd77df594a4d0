/* Prints what a CMap file declares, and the codes of CIDs.
 *
 *     declared FILE [-b BASE].. [CID..]
 *
 * A line is a declaration of CIDs, such as `cid <8140> <817E> 633`, or of texts, such as `text 41 42 0061`. It
 * has the first and the last code, and the CID or the text of the first; texts are in UTF-16, and their codes
 * have no length. The codes of each CID follow, such as `633 <8140> <8140>`. FILE may use each BASE by the
 * last part of its path. */
#include <hayro_cmap.h>
#include <inttypes.h>
#include <stdio.h>
#include <stdlib.h>
#include <string.h>

/* The most files that are passed with FILE. */
enum { MOST_BASES = 15 };

static _Noreturn void fail(const char *what, const char *why) {
    fprintf(stderr, "%s: %s\n", what, why);
    exit(1);
}

static void *allocated(size_t len) {
    void *bytes = malloc(len + 1);
    if (!bytes) fail("declared", "out of memory");
    return bytes;
}

static uint8_t *read_file(const char *path, size_t *len) {
    FILE *file = fopen(path, "rb");
    long end = file && fseek(file, 0, SEEK_END) == 0 ? ftell(file) : -1;
    if (end < 0) fail(path, "it can't be read");
    rewind(file);
    uint8_t *bytes = allocated((size_t)end);
    *len = fread(bytes, 1, (size_t)end, file);
    fclose(file);
    return bytes;
}

/* A file with its name, the last part of its path. */
static hayro_cmap_file base_of(const char *path) {
    const char *slash = strrchr(path, '/'), *name = slash ? slash + 1 : path;
    hayro_cmap_file file = {(const uint8_t *)name, strlen(name), NULL, 0};
    file.bytes = read_file(path, &file.bytes_len);
    return file;
}

/* The map of a file over its bases, which are freed. */
static hayro_cmap map_of(const char *path, const hayro_cmap_file *bases, size_t bases_len) {
    size_t len;
    uint8_t *data = read_file(path, &len);
    hayro_cmap map = HAYRO_CMAP_EMPTY;
    hayro_cmap_status status =
        hayro_cmap_parse(&map, data, len, hayro_cmap_bytes(NULL), 0, bases, bases_len, HAYRO_CMAP_NO_BUDGET);
    free(data);
    for (size_t i = 0; i < bases_len; i++) free((void *)bases[i].bytes);
    if (status != HAYRO_CMAP_OK) fail(path, status == HAYRO_CMAP_NO_MEMORY ? "out of memory" : "refused");
    return map;
}

static void print_codes(uint8_t byte_len, uint32_t first, uint32_t last) {
    printf("<%0*" PRIX32 "> <%0*" PRIX32 ">", 2 * byte_len, first, 2 * byte_len, last);
}

static void print_cids(hayro_cmap *map, uint8_t byte_len) {
    hayro_cmap_cid_range none;
    size_t count = 0;
    hayro_cmap_cid_ranges(map, 0, byte_len, &none, 0, &count);
    hayro_cmap_cid_range *ranges = allocated(count * sizeof *ranges);
    hayro_cmap_cid_ranges(map, 0, byte_len, ranges, count, &count);
    for (size_t i = 0; i < count; i++) {
        printf("cid ");
        print_codes(byte_len, ranges[i].first, ranges[i].last);
        printf(" %" PRIu32 "\n", ranges[i].cid);
    }
    free(ranges);
}

/* Prints the units of the declaration of texts at an index. */
static void print_units(hayro_cmap *map, size_t index, size_t count) {
    uint16_t *units = allocated(count * sizeof *units);
    hayro_cmap_text_units(map, 0, index, units, count, &count);
    for (size_t i = 0; i < count; i++) printf("%04" PRIX16, units[i]);
    free(units);
}

static void print_texts(hayro_cmap *map) {
    hayro_cmap_text_range none;
    size_t count = 0;
    hayro_cmap_text_ranges(map, 0, &none, 0, &count);
    hayro_cmap_text_range *ranges = allocated(count * sizeof *ranges);
    hayro_cmap_text_ranges(map, 0, ranges, count, &count);
    for (size_t i = 0; i < count; i++) {
        printf("text %" PRIX32 " %" PRIX32 " ", ranges[i].first, ranges[i].last);
        print_units(map, i, ranges[i].units);
        printf("\n");
    }
    free(ranges);
}

static void print_codes_of(hayro_cmap *map, uint32_t cid, uint8_t byte_len) {
    hayro_cmap_code_range none;
    size_t count = 0;
    hayro_cmap_status status = hayro_cmap_codes_of_cid(map, cid, byte_len, &none, 0, &count);
    hayro_cmap_code_range *ranges = allocated(count * sizeof *ranges);
    if (status == HAYRO_CMAP_NO_ROOM)
        status = hayro_cmap_codes_of_cid(map, cid, byte_len, ranges, count, &count);
    if (status == HAYRO_CMAP_NO_MEMORY) fail("declared", "out of memory");
    for (size_t i = 0; i < count; i++) {
        printf("%" PRIu32 " ", cid);
        print_codes(byte_len, ranges[i].first, ranges[i].last);
        printf("\n");
    }
    free(ranges);
}

int main(int argc, char **argv) {
    if (argc < 2) fail("usage", "declared FILE [-b BASE].. [CID..]");
    hayro_cmap_file bases[MOST_BASES];
    size_t bases_len = 0;
    int next = 2;
    for (; next + 1 < argc && strcmp(argv[next], "-b") == 0; next += 2) {
        if (bases_len == MOST_BASES) fail("declared", "too many bases");
        bases[bases_len++] = base_of(argv[next + 1]);
    }
    hayro_cmap map = map_of(argv[1], bases, bases_len);
    for (uint8_t byte_len = 1; byte_len <= 4; byte_len++) print_cids(&map, byte_len);
    print_texts(&map);
    for (int i = next; i < argc; i++)
        for (uint8_t byte_len = 1; byte_len <= 4; byte_len++)
            print_codes_of(&map, (uint32_t)strtoul(argv[i], NULL, 10), byte_len);
    hayro_cmap_free(&map);
    return 0;
}
