/* Looks up all codes of two bytes N times, so that callgrind can count a round:
 *
 *     measure cid|strict|decode|cids|extract|apart|encode FILE N [COLLECTION [UNICODE]]
 *
 * A round of `cid` or `strict` calls hayro_cmap_cid or hayro_cmap_cid_strict for each code. `cids` calls
 * hayro_cmap_cids for all codes, and `decode` calls hayro_cmap_decode for a string of all codes. `extract` calls
 * hayro_cmap_extract for the string, with the map COLLECTION; `apart` calls hayro_cmap_decode, and hayro_cmap_text for
 * each CID. The program prints the sum of the CIDs of the last round and of the numbers of bytes of the texts.
 *
 * `encode` calls hayro_cmap_encode for the texts of all codes together, by an encoder with the map UNICODE, if it is
 * given. The program then prints the number of characters. */
#include "hayro_cmap.h"
#include <inttypes.h>
#include <stdio.h>
#include <stdlib.h>
#include <string.h>

enum { CODES = 65536 };

static uint8_t string[2 * CODES];
static hayro_cmap_code codes[2 * CODES];
static uint32_t cids[CODES];
static hayro_cmap_character characters[2 * CODES];
static uint8_t texts[8 * CODES];
static uint8_t wanted[8 * CODES];
static hayro_cmap collection = HAYRO_CMAP_EMPTY;
static hayro_cmap unicode = HAYRO_CMAP_EMPTY;
static hayro_cmap_encoder encoder = HAYRO_CMAP_EMPTY;

static void fail(const char *what) {
    fprintf(stderr, "measure: %s\n", what);
    exit(2);
}

static uint8_t *read_all(const char *path, size_t *len) {
    FILE *in = fopen(path, "rb");
    if (!in || fseek(in, 0, SEEK_END)) fail("the file can't be read");
    *len = (size_t)ftell(in);
    rewind(in);
    uint8_t *bytes = malloc(*len + 1);
    if (!bytes || fread(bytes, 1, *len, in) != *len) fail("the file can't be read");
    fclose(in);
    return bytes;
}

static uint64_t one_by_one(hayro_cmap *map, bool strict) {
    uint64_t sum = 0;
    uint32_t cid;
    for (uint32_t code = 0; code < CODES; code++)
        if (strict ? hayro_cmap_cid_strict(map, code, 2, &cid) : hayro_cmap_cid(map, code, 2, &cid)) sum += cid;
    return sum;
}

static uint64_t decoded(hayro_cmap *map) {
    size_t made, taken;
    if (hayro_cmap_decode(map, string, sizeof string, codes, 2 * CODES, &made, &taken) != HAYRO_CMAP_OK)
        fail("the string isn't cut into codes");
    uint64_t sum = 0;
    for (size_t i = 0; i < made; i++) sum += codes[i].cid;
    return sum;
}

static uint64_t at_once(hayro_cmap *map) {
    if (!hayro_cmap_cids(map, 0, 2, 0, cids, CODES)) fail("there is no map");
    uint64_t sum = 0;
    for (size_t i = 0; i < CODES; i++) sum += cids[i];
    return sum;
}

static size_t extract_all(hayro_cmap *map) {
    hayro_cmap none = HAYRO_CMAP_EMPTY;
    hayro_cmap_extracted done;
    if (hayro_cmap_extract(map, &none, &collection, string, sizeof string, characters, 2 * CODES, texts, sizeof texts,
                           &done) != HAYRO_CMAP_OK)
        fail("the string isn't extracted");
    return done.made;
}

static uint64_t extracted(hayro_cmap *map) {
    size_t made = extract_all(map);
    uint64_t sum = 0;
    for (size_t i = 0; i < made; i++) sum += characters[i].code.cid + characters[i].text_len;
    return sum;
}

static uint64_t apart(hayro_cmap *map) {
    size_t made, taken, needed;
    if (hayro_cmap_decode(map, string, sizeof string, codes, 2 * CODES, &made, &taken) != HAYRO_CMAP_OK)
        fail("the string isn't cut into codes");
    uint64_t sum = 0;
    for (size_t i = 0; i < made; i++) {
        sum += codes[i].cid;
        if (codes[i].has_cid &&
            hayro_cmap_text(&collection, codes[i].cid, texts, sizeof texts, &needed) == HAYRO_CMAP_OK)
            sum += needed;
    }
    return sum;
}

/* Writes the texts of codes that lie in a codespace range and have a CID other than 0, one after another. It returns
 * their number of bytes. */
static size_t text_of_all(hayro_cmap *map) {
    size_t made = extract_all(map), len = 0;
    for (size_t i = 0; i < made; i++)
        if (characters[i].code.in_codespace && characters[i].code.cid) {
            memcpy(wanted + len, texts + characters[i].text_start, characters[i].text_len);
            len += characters[i].text_len;
        }
    return len;
}

static uint64_t encoded(hayro_cmap *map) {
    static size_t len;
    if (!encoder.full) {
        hayro_cmap none = HAYRO_CMAP_EMPTY;
        len = text_of_all(map);
        if (hayro_cmap_encoder_build_with(&encoder, map, &none, &collection, &unicode, false) != HAYRO_CMAP_OK)
            fail("there is no encoder");
    }
    size_t needed, offset;
    if (hayro_cmap_encode(&encoder, wanted, len, string, sizeof string, &needed, &offset) != HAYRO_CMAP_OK)
        fail("the text isn't encoded");
    uint64_t count = 0;
    for (size_t i = 0; i < len; i++) count += (wanted[i] & 0xC0) != 0x80;
    return count;
}

static uint64_t round_of(const char *mode, hayro_cmap *map) {
    if (strcmp(mode, "cid") == 0) return one_by_one(map, false);
    if (strcmp(mode, "strict") == 0) return one_by_one(map, true);
    if (strcmp(mode, "decode") == 0) return decoded(map);
    if (strcmp(mode, "cids") == 0) return at_once(map);
    if (strcmp(mode, "extract") == 0) return extracted(map);
    if (strcmp(mode, "apart") == 0) return apart(map);
    if (strcmp(mode, "encode") == 0) return encoded(map);
    fail("the mode is cid, strict, decode, cids, extract, apart or encode");
    return 0;
}

static void parse(hayro_cmap *map, const char *path) {
    size_t len;
    uint8_t *file = read_all(path, &len);
    if (hayro_cmap_parse(map, file, len, hayro_cmap_bytes(NULL), 0, hayro_cmap_files(NULL), 0, HAYRO_CMAP_NO_BUDGET) !=
        HAYRO_CMAP_OK)
        fail("the file is refused");
    free(file);
}

int main(int argc, char **argv) {
    if (argc < 4 || argc > 6) fail("three to five arguments are wanted");
    for (size_t i = 0; i < CODES; i++) {
        string[2 * i] = (uint8_t)(i >> 8);
        string[2 * i + 1] = (uint8_t)i;
    }
    hayro_cmap map = HAYRO_CMAP_EMPTY;
    parse(&map, argv[2]);
    if (argc > 4) parse(&collection, argv[4]);
    if (argc > 5) parse(&unicode, argv[5]);
    uint64_t sum = 0;
    for (long n = strtol(argv[3], NULL, 10); n > 0; n--) sum = round_of(argv[1], &map);
    printf("%" PRIu64 "\n", sum);
    hayro_cmap_encoder_free(&encoder);
    hayro_cmap_free(&unicode);
    hayro_cmap_free(&collection);
    hayro_cmap_free(&map);
    return 0;
}
