// Tests of hayro_cmap.h: each call, and the places that it leaves unwritten. The program prints `ok`, or the lines of
// the checks that failed, with status 1.
#include "hayro_cmap.h"
#include <stdio.h>
#include <string.h>

static int failed = 0;

#define CHECK(holds)                                                                               \
    do {                                                                                           \
        if (!(holds)) {                                                                            \
            fprintf(stderr, "%s:%d: %s\n", __FILE__, __LINE__, #holds);                            \
            failed = 1;                                                                            \
        }                                                                                          \
    } while (0)

// The bytes of a literal, and their number.
#define TEXT(literal) hayro_cmap_bytes(literal), sizeof(literal) - 1
#define BYTES(bytes) (bytes), sizeof(bytes)

#define FILE_TEXT                                                                                  \
    "begincmap /CIDSystemInfo 3 dict dup begin /Registry (Adobe) def "                             \
    "/Ordering (Japan1) def /Supplement 6 def end def /CMapName /T def /WMode 1 def "              \
    "begincodespacerange <0000> <00FF> endcodespacerange "                                         \
    "begincidrange <0000> <01FF> 0 endcidrange beginbfchar <41> <00420043> endbfchar endcmap"

// Two tables, and from byte 23 on the file of the codes 0020 and 0021, whose CIDs are 5 and 6, under the first name.
static const uint8_t BUNDLE[] = {0, 0, 0, 19,  0,   2,   1,   0,   2, 0, 0, 0,  0x20, 0, 0, 0,  0,
                                 0, 1, 1, 0,   1,   4,   'b', 'c', 'm', 'a', 'p', 1,  0, 0, 0, 26,
                                 4, 0, 0, 0,   16,  0,   2,   0,   0, 0, 1, 0x40, 0, 5, 0, 0};

// A file that uses the file of the bundle.
#define OVER_IT "/83pv-RKSJ-H usecmap"

static bool same(const void *bytes, const void *expected, size_t len) {
    return memcmp(bytes, expected, len) == 0;
}

static hayro_cmap map_of_file(void) {
    hayro_cmap map = HAYRO_CMAP_EMPTY;
    CHECK(hayro_cmap_parse(&map, TEXT(FILE_TEXT), TEXT(""), hayro_cmap_files(NULL), 0,
                           HAYRO_CMAP_NO_BUDGET) == HAYRO_CMAP_OK);
    return map;
}

static hayro_cmap_bundle opened_bundle(void) {
    hayro_cmap_bundle bundle = HAYRO_CMAP_EMPTY;
    CHECK(hayro_cmap_bundle_open(&bundle, BYTES(BUNDLE)) == HAYRO_CMAP_OK);
    return bundle;
}

static void codes_have_cids(void) {
    hayro_cmap map = map_of_file();
    uint32_t cid = 7;
    CHECK(hayro_cmap_cid(&map, 0x141, 2, &cid) && cid == 0x141);
    CHECK(!hayro_cmap_cid_strict(&map, 0x142, 2, &cid) && cid == 0x141);
    CHECK(hayro_cmap_cid_strict(&map, 0x42, 2, &cid) && cid == 0x42);
    uint32_t cids[3] = {7, 7, 7};
    CHECK(hayro_cmap_cids(&map, 0x1FE, 2, 9, cids, 3));
    CHECK(cids[0] == 0x1FE && cids[1] == 0x1FF && cids[2] == 9);
    hayro_cmap_free(&map);
    CHECK(!hayro_cmap_cids(&map, 0x1FE, 2, 8, cids, 3) && cids[2] == 9);
}

static void codes_have_texts(void) {
    hayro_cmap map = map_of_file();
    uint8_t room[6] = {0};
    size_t needed = 0;
    CHECK(hayro_cmap_text(&map, 0x41, room, 6, &needed) == HAYRO_CMAP_OK && needed == 2);
    CHECK(same(room, "BC\0\0\0\0", 6));
    CHECK(hayro_cmap_text(&map, 0x42, room, 6, &needed) == HAYRO_CMAP_ABSENT);
    hayro_cmap_free(&map);
}

static void files_speak_of_themselves(void) {
    hayro_cmap map = map_of_file();
    uint8_t room[6] = {0};
    size_t needed = 0;
    CHECK(hayro_cmap_name(&map, room, 6, &needed) == HAYRO_CMAP_OK && needed == 1);
    CHECK(same(room, "T\0\0\0\0\0", 6));
    CHECK(hayro_cmap_registry(&map, room, 6, &needed) == HAYRO_CMAP_OK && needed == 5);
    CHECK(same(room, "Adobe\0", 6));
    int32_t supplement = 0;
    CHECK(hayro_cmap_supplement(&map, &supplement) && supplement == 6);
    CHECK(hayro_cmap_writing_mode(&map) == HAYRO_CMAP_VERTICAL);
    hayro_cmap_free(&map);
}

static void what_is_longer_than_its_room_is_not_written(void) {
    hayro_cmap map = map_of_file();
    uint8_t room[5] = {7, 7, 7, 7, 7};
    size_t needed = 0;
    CHECK(hayro_cmap_ordering(&map, room, 5, &needed) == HAYRO_CMAP_NO_ROOM && needed == 6);
    CHECK(same(room, "\7\7\7\7\7", 5));
    hayro_cmap_free(&map);
}

static void a_shared_map_outlives_its_first_handle(void) {
    hayro_cmap map = map_of_file(), other = HAYRO_CMAP_EMPTY;
    CHECK(hayro_cmap_share(&map, &other) == HAYRO_CMAP_OK);
    hayro_cmap_free(&map);
    uint32_t cid = 0;
    CHECK(!hayro_cmap_cid(&map, 0x41, 2, &cid));
    CHECK(hayro_cmap_cid(&other, 0x41, 2, &cid) && cid == 0x41);
    hayro_cmap_free(&other);
}

// The status of a file that is read over a bundle, and the CID of the code 0021.
static hayro_cmap_status read_over(const uint8_t *data, size_t len, hayro_cmap_bundle *bundle,
                                   uint32_t *cid) {
    hayro_cmap map = HAYRO_CMAP_EMPTY;
    hayro_cmap_status status = hayro_cmap_parse_over(&map, data, len, bundle, hayro_cmap_files(NULL),
                                                     0, HAYRO_CMAP_NO_BUDGET);
    *cid = 0;
    hayro_cmap_cid(&map, 0x21, 2, cid);
    hayro_cmap_free(&map);
    return status;
}

static void a_bundle_is_read_once_for_several_maps(void) {
    hayro_cmap_bundle bundle = opened_bundle();
    uint32_t cid;
    CHECK(read_over(TEXT(OVER_IT), &bundle, &cid) == HAYRO_CMAP_OK && cid == 6);
    CHECK(read_over(TEXT(OVER_IT " begincidchar <0021> 9 endcidchar"), &bundle, &cid) == HAYRO_CMAP_OK);
    CHECK(cid == 9);
    CHECK(read_over(BUNDLE + 23, sizeof BUNDLE - 23, &bundle, &cid) == HAYRO_CMAP_OK && cid == 6);
    hayro_cmap_bundle_free(&bundle);
    CHECK(read_over(TEXT(OVER_IT), &bundle, &cid) == HAYRO_CMAP_REFUSED && cid == 0);
}

static void a_shared_bundle_outlives_its_first_handle(void) {
    hayro_cmap_bundle bundle = opened_bundle(), other = HAYRO_CMAP_EMPTY;
    CHECK(hayro_cmap_bundle_share(&bundle, &other) == HAYRO_CMAP_OK);
    hayro_cmap_bundle_free(&bundle);
    uint32_t cid;
    CHECK(read_over(TEXT(OVER_IT), &other, &cid) == HAYRO_CMAP_OK && cid == 6);
    hayro_cmap_bundle_free(&other);
}

static void bytes_that_are_no_bundle_leave_none(void) {
    hayro_cmap_bundle bundle = opened_bundle();
    CHECK(hayro_cmap_bundle_open(&bundle, TEXT("no bundle")) == HAYRO_CMAP_NOT_A_BUNDLE);
    uint32_t cid;
    CHECK(read_over(TEXT(OVER_IT), &bundle, &cid) == HAYRO_CMAP_REFUSED && cid == 0);
    hayro_cmap_bundle_free(&bundle);
}

static void a_bundle_has_its_files(void) {
    hayro_cmap_bundle bundle = opened_bundle();
    uint8_t room[26] = {0};
    size_t needed = 0;
    CHECK(hayro_cmap_bundle_file(&bundle, TEXT("83pv-RKSJ-H"), room, 26, &needed) == HAYRO_CMAP_OK);
    CHECK(needed == 26 && same(room, BUNDLE + 23, 26));
    CHECK(hayro_cmap_bundle_file(&bundle, TEXT("H"), room, 26, &needed) == HAYRO_CMAP_ABSENT);
    hayro_cmap_bundle_free(&bundle);
}

// The status of a file that is read over the bytes of a bundle.
static hayro_cmap_status status_of(const uint8_t *data, size_t len, const void *bundle, size_t bundle_len,
                                   uint64_t budget) {
    hayro_cmap map = HAYRO_CMAP_EMPTY;
    hayro_cmap_status status = hayro_cmap_parse(&map, data, len, hayro_cmap_bytes(bundle), bundle_len,
                                                hayro_cmap_files(NULL), 0, budget);
    CHECK(status == HAYRO_CMAP_OK || !map.full);
    hayro_cmap_free(&map);
    return status;
}

static void statuses_say_why_there_is_no_map(void) {
    CHECK(status_of(TEXT("/A usecmap"), NULL, 0, HAYRO_CMAP_NO_BUDGET) == HAYRO_CMAP_REFUSED);
    CHECK(status_of(TEXT(FILE_TEXT), NULL, 0, 9) == HAYRO_CMAP_OVER_BUDGET);
    CHECK(status_of(TEXT(FILE_TEXT), NULL, 0, sizeof FILE_TEXT - 1) == HAYRO_CMAP_OK);
    CHECK(status_of(TEXT(FILE_TEXT), "no bundle", 9, HAYRO_CMAP_NO_BUDGET) == HAYRO_CMAP_NOT_A_BUNDLE);
}

static void a_file_of_a_bundle_counts_when_it_is_opened(void) {
    uint64_t binary = sizeof BUNDLE - 23, both = sizeof OVER_IT - 1 + binary;
    CHECK(status_of(TEXT(OVER_IT), BYTES(BUNDLE), both) == HAYRO_CMAP_OK);
    CHECK(status_of(TEXT(OVER_IT), BYTES(BUNDLE), both - 1) == HAYRO_CMAP_OVER_BUDGET);
    CHECK(status_of(BUNDLE + 23, sizeof BUNDLE - 23, BYTES(BUNDLE), binary) == HAYRO_CMAP_OK);
    hayro_cmap_bundle bundle = opened_bundle();
    hayro_cmap map = HAYRO_CMAP_EMPTY;
    CHECK(hayro_cmap_open(&map, TEXT("83pv-RKSJ-H"), &bundle, hayro_cmap_files(NULL), 0, binary) == HAYRO_CMAP_OK);
    CHECK(hayro_cmap_open(&map, TEXT("83pv-RKSJ-H"), &bundle, hayro_cmap_files(NULL), 0, binary - 1) ==
          HAYRO_CMAP_OVER_BUDGET);
    hayro_cmap_bundle_free(&bundle);
    hayro_cmap_free(&map);
}

static void an_identity_counts_177_bytes(void) {
    hayro_cmap_bundle none = HAYRO_CMAP_EMPTY;
    hayro_cmap map = HAYRO_CMAP_EMPTY;
    CHECK(hayro_cmap_open(&map, TEXT("Identity-V"), &none, hayro_cmap_files(NULL), 0, 177) == HAYRO_CMAP_OK);
    CHECK(hayro_cmap_open(&map, TEXT("Identity-V"), &none, hayro_cmap_files(NULL), 0, 176) == HAYRO_CMAP_OVER_BUDGET);
    CHECK(!map.full && status_of(TEXT("/Identity-H usecmap"), NULL, 0, 19 + 177) == HAYRO_CMAP_OK);
    CHECK(status_of(TEXT("/Identity-H usecmap"), NULL, 0, 19 + 176) == HAYRO_CMAP_OVER_BUDGET);
}

static void an_identity_answers_the_code(void) {
    hayro_cmap map = HAYRO_CMAP_EMPTY;
    uint32_t cid = 0;
    CHECK(hayro_cmap_identity(&map, false) == HAYRO_CMAP_OK);
    CHECK(hayro_cmap_cid(&map, 0x1234, 2, &cid) && cid == 0x1234);
    CHECK(hayro_cmap_writing_mode(&map) == HAYRO_CMAP_HORIZONTAL);
    CHECK(hayro_cmap_identity(&map, true) == HAYRO_CMAP_OK);
    CHECK(hayro_cmap_writing_mode(&map) == HAYRO_CMAP_VERTICAL);
    hayro_cmap_free(&map);
}

static void a_string_is_cut_up_to_the_room(void) {
    hayro_cmap map = map_of_file();
    hayro_cmap_code codes[2];
    size_t made = 0, taken = 0;
    CHECK(hayro_cmap_decode(&map, TEXT("\0A\x01\x02\0"), codes, 2, &made, &taken) == HAYRO_CMAP_NO_ROOM);
    CHECK(made == 2 && taken == 4);
    CHECK(codes[0].cid == 0x41 && codes[0].in_codespace == 1);
    CHECK(codes[1].cid == 0x102 && codes[1].in_codespace == 0);
    hayro_cmap_free(&map);
}

static void a_string_may_end_before_its_last_code(void) {
    hayro_cmap map = map_of_file();
    hayro_cmap_code codes[2] = {{0, 0, 0, 0, 0, 0}, {7, 7, 7, 7, 7, 7}};
    size_t made = 0, taken = 0;
    CHECK(hayro_cmap_decode(&map, TEXT("\0"), codes, 2, &made, &taken) == HAYRO_CMAP_OK);
    CHECK(made == 1 && taken == 1);
    CHECK(codes[0].byte_len == 1 && codes[0].has_cid == 0 && codes[0].cut_short == 1);
    CHECK(codes[1].code == 7);
    hayro_cmap_free(&map);
}

// The status of a name that is opened over one file, `Base`.
static hayro_cmap_status open_name(hayro_cmap *map, const uint8_t *name, size_t len) {
    hayro_cmap_file base = {TEXT("Base"), TEXT(FILE_TEXT)};
    hayro_cmap_bundle none = HAYRO_CMAP_EMPTY;
    return hayro_cmap_open(map, name, len, &none, &base, 1, HAYRO_CMAP_NO_BUDGET);
}

static hayro_cmap map_of(const uint8_t *data, size_t len) {
    hayro_cmap map = HAYRO_CMAP_EMPTY;
    CHECK(hayro_cmap_parse(&map, data, len, TEXT(""), hayro_cmap_files(NULL), 0,
                           HAYRO_CMAP_NO_BUDGET) == HAYRO_CMAP_OK);
    return map;
}

static void a_use_of_an_identity_needs_no_file(void) {
    hayro_cmap map = map_of(TEXT("/Identity-H usecmap"));
    uint32_t cid = 0;
    CHECK(hayro_cmap_cid(&map, 0x3042, 2, &cid) && cid == 0x3042);
    hayro_cmap_free(&map);
}

static bool is_extracted(hayro_cmap_extracted extracted, size_t made, size_t taken, size_t used) {
    return extracted.made == made && extracted.taken == taken && extracted.used == used;
}

// Codes of one byte with the CIDs 7 to 9, whose ToUnicode CMap has a text for the first and a malformed one for the
// second, and whose collection has texts for the CID 8 and for the number of the third code, which is none of its CIDs.
static void texts_come_from_the_code_or_the_cid(void) {
    hayro_cmap encoding = map_of(TEXT("begincodespacerange <00> <7F> endcodespacerange "
                                      "begincidrange <41> <43> 7 endcidrange"));
    hayro_cmap to_unicode = map_of(TEXT("beginbfchar <41> <00660066> <42> <D800> endbfchar"));
    hayro_cmap collection = map_of(TEXT("beginbfchar <0008> <65E5> <0043> <0078> endbfchar"));
    hayro_cmap_character characters[5];
    memset(characters, 7, sizeof characters);
    uint8_t text[6] = {7, 7, 7, 7, 7, 7};
    hayro_cmap_extracted extracted;
    CHECK(hayro_cmap_extract(&encoding, &to_unicode, &collection, TEXT("ABC\x81"), characters, 5, text, 6,
                             &extracted) == HAYRO_CMAP_OK);
    CHECK(is_extracted(extracted, 4, 4, 5) && same(text, "ff\xE6\x97\xA5\7", 6));
    const hayro_cmap_character *it = characters;
    CHECK(it[0].code.code == 0x41 && it[0].code.cid == 7 && it[0].code.has_cid == 1);
    CHECK(it[0].has_text == 1 && it[0].text_start == 0 && it[0].text_len == 2);
    CHECK(it[1].code.cid == 8 && it[1].has_text == 1 && it[1].text_start == 2 && it[1].text_len == 3);
    CHECK(it[2].code.cid == 9 && it[2].has_text == 0 && it[2].text_len == 0);
    CHECK(it[3].code.has_cid == 0 && it[3].code.in_codespace == 0 && it[3].has_text == 0);
    CHECK(it[4].has_text == 0x07070707);
    hayro_cmap_free(&collection);
    CHECK(hayro_cmap_extract(&encoding, &to_unicode, &collection, TEXT("B"), characters, 5, text, 6,
                             &extracted) == HAYRO_CMAP_OK);
    CHECK(is_extracted(extracted, 1, 1, 0) && it[0].code.cid == 8 && it[0].has_text == 0);
    hayro_cmap_free(&to_unicode);
    hayro_cmap_free(&encoding);
}

static void a_string_is_extracted_up_to_the_rooms(void) {
    hayro_cmap encoding = map_of(TEXT("begincodespacerange <00> <7F> endcodespacerange"));
    hayro_cmap to_unicode = map_of(TEXT("beginbfrange <41> <43> <00660066> endbfrange"));
    hayro_cmap none = HAYRO_CMAP_EMPTY;
    hayro_cmap_character characters[2];
    uint8_t text[6] = {0};
    hayro_cmap_extracted extracted;
    CHECK(hayro_cmap_extract(&encoding, &to_unicode, &none, TEXT("ABC"), characters, 2, text, 6,
                             &extracted) == HAYRO_CMAP_NO_ROOM);
    CHECK(is_extracted(extracted, 2, 2, 4) && same(text, "fffg\0\0", 6));
    CHECK(hayro_cmap_extract(&encoding, &to_unicode, &none, TEXT("ABC"), characters, 2, text, 3,
                             &extracted) == HAYRO_CMAP_NO_ROOM);
    CHECK(is_extracted(extracted, 1, 1, 2));
    CHECK(hayro_cmap_extract(&encoding, &to_unicode, &none, TEXT("ABC"), characters, 2, text, 1,
                             &extracted) == HAYRO_CMAP_NO_ROOM);
    CHECK(is_extracted(extracted, 0, 0, 0));
    CHECK(hayro_cmap_extract(&none, &to_unicode, &encoding, TEXT("ABC"), characters, 2, text, 6,
                             &extracted) == HAYRO_CMAP_ABSENT);
    CHECK(is_extracted(extracted, 0, 0, 0));
    hayro_cmap_free(&to_unicode);
    hayro_cmap_free(&encoding);
}

// An encoder of codes of one byte: a code with a text of one character, one of two, one without a text, and one whose
// CID has a text.
static hayro_cmap_encoder encoder_of_font(void) {
    hayro_cmap encoding = map_of(TEXT("begincodespacerange <00> <7F> endcodespacerange "
                                      "begincidchar <44> 8 endcidchar"));
    hayro_cmap to_unicode = map_of(TEXT("beginbfchar <41> <0066> <42> <00660069> endbfchar"));
    hayro_cmap collection = map_of(TEXT("beginbfchar <0008> <65E5> endbfchar"));
    hayro_cmap_encoder encoder = HAYRO_CMAP_EMPTY;
    CHECK(hayro_cmap_encoder_build(&encoder, &encoding, &to_unicode, &collection) == HAYRO_CMAP_OK);
    hayro_cmap_free(&collection);
    hayro_cmap_free(&to_unicode);
    hayro_cmap_free(&encoding);
    return encoder;
}

static void texts_have_strings(void) {
    hayro_cmap_encoder encoder = encoder_of_font();
    uint8_t room[4] = {7, 7, 7, 7};
    size_t needed = 9, offset = 9;
    CHECK(hayro_cmap_encode(&encoder, TEXT("ffi\xE6\x97\xA5"), room, 4, &needed, &offset) == HAYRO_CMAP_OK);
    CHECK(needed == 3 && offset == 9 && same(room, "ABD\7", 4));
    CHECK(hayro_cmap_encode(&encoder, TEXT("ffff"), room, 3, &needed, &offset) == HAYRO_CMAP_NO_ROOM);
    CHECK(needed == 4 && offset == 9 && same(room, "ABD\7", 4));
    CHECK(hayro_cmap_encode(&encoder, TEXT(""), room, 0, &needed, &offset) == HAYRO_CMAP_OK && needed == 0);
    hayro_cmap_encoder_free(&encoder);
}

static void texts_without_a_string_are_refused(void) {
    hayro_cmap_encoder encoder = encoder_of_font();
    uint8_t room[4] = {7, 7, 7, 7};
    size_t needed = 9, offset = 9;
    CHECK(hayro_cmap_encode(&encoder, TEXT("f\xE6\x97\xA5if"), room, 4, &needed, &offset) == HAYRO_CMAP_REFUSED);
    CHECK(offset == 4);
    CHECK(hayro_cmap_encode(&encoder, TEXT("fx\xFF"), room, 4, &needed, &offset) == HAYRO_CMAP_REFUSED);
    CHECK(offset == 2 && needed == 9 && same(room, "\7\7\7\7", 4));
    hayro_cmap_encoder_free(&encoder);
    CHECK(hayro_cmap_encode(&encoder, TEXT("f"), room, 4, &needed, &offset) == HAYRO_CMAP_ABSENT);
    CHECK(offset == 2 && needed == 9 && same(room, "\7\7\7\7", 4));
}

static void bytes_stand_for_characters_without_a_string(void) {
    hayro_cmap_encoder encoder = encoder_of_font();
    uint8_t room[8] = {7, 7, 7, 7, 7, 7, 7, 7};
    size_t needed = 9;
    CHECK(hayro_cmap_encode_lossy(&encoder, TEXT("xffi\xC3\xA9"), TEXT("?!"), room, 8, &needed) == HAYRO_CMAP_OK);
    CHECK(needed == 6 && same(room, "?!AB?!\7\7", 8));
    CHECK(hayro_cmap_encode_lossy(&encoder, TEXT("xffx"), TEXT(""), room, 1, &needed) == HAYRO_CMAP_NO_ROOM);
    CHECK(needed == 2 && same(room, "?!AB?!\7\7", 8));
    CHECK(hayro_cmap_encode_lossy(&encoder, TEXT("f\xC3"), TEXT("?"), room, 8, &needed) == HAYRO_CMAP_REFUSED);
    CHECK(hayro_cmap_encode_lossy(&encoder, TEXT(""), TEXT("?\x80"), room, 8, &needed) == HAYRO_CMAP_REFUSED);
    hayro_cmap_encoder_free(&encoder);
    CHECK(hayro_cmap_encode_lossy(&encoder, TEXT("f"), TEXT("?"), room, 8, &needed) == HAYRO_CMAP_ABSENT);
    CHECK(needed == 2 && same(room, "?!AB?!\7\7", 8));
}

static void a_text_is_folded(void) {
    uint8_t room[8] = {7, 7, 7, 7, 7, 7, 7, 7};
    size_t needed = 9, offset = 9;
    CHECK(hayro_cmap_fold(TEXT("\xEF\xAC\x83\xE2\x80\x82\xEF\xB8\x80|"), room, 8, &needed, &offset) == HAYRO_CMAP_OK);
    CHECK(needed == 5 && offset == 9 && same(room, "ffi |\7\7\7", 8));
    CHECK(hayro_cmap_fold(TEXT("\xEF\xBF\xA8"), room, 0, &needed, &offset) == HAYRO_CMAP_NO_ROOM);
    CHECK(needed == 1 && offset == 9 && same(room, "ffi |\7\7\7", 8));
    CHECK(hayro_cmap_fold(TEXT("ab\xEF\xAC"), room, 8, &needed, &offset) == HAYRO_CMAP_REFUSED);
    CHECK(needed == 1 && offset == 2 && same(room, "ffi |\7\7\7", 8));
    CHECK(hayro_cmap_fold(TEXT(""), room, 0, &needed, &offset) == HAYRO_CMAP_OK && needed == 0);
}

// A string for missing characters has no half of a code, and no code outside the codespace ranges.
static void half_codes_stand_for_no_character(void) {
    hayro_cmap encoding = map_of(TEXT("begincodespacerange <0000> <00FF> endcodespacerange"));
    hayro_cmap to_unicode = map_of(TEXT("beginbfchar <0041> <0061> endbfchar")), none = HAYRO_CMAP_EMPTY;
    hayro_cmap_encoder encoder = HAYRO_CMAP_EMPTY;
    CHECK(hayro_cmap_encoder_build(&encoder, &encoding, &to_unicode, &none) == HAYRO_CMAP_OK);
    uint8_t room[8] = {7, 7, 7, 7, 7, 7, 7, 7};
    size_t needed = 9;
    CHECK(hayro_cmap_encode_lossy(&encoder, TEXT("a"), TEXT("?"), room, 8, &needed) == HAYRO_CMAP_REFUSED);
    CHECK(hayro_cmap_encode_lossy(&encoder, TEXT("a"), TEXT("\0??"), room, 8, &needed) == HAYRO_CMAP_REFUSED);
    CHECK(hayro_cmap_encode_lossy(&encoder, TEXT("a"), TEXT("\1\0"), room, 8, &needed) == HAYRO_CMAP_REFUSED);
    CHECK(needed == 9 && room[0] == 7);
    CHECK(hayro_cmap_encode_lossy(&encoder, TEXT("ab"), TEXT("\0?\0!"), room, 8, &needed) == HAYRO_CMAP_OK);
    CHECK(needed == 6 && same(room, "\0A\0?\0!\7\7", 8));
    CHECK(hayro_cmap_encode_lossy(&encoder, TEXT("ab"), TEXT(""), room, 8, &needed) == HAYRO_CMAP_OK && needed == 2);
    hayro_cmap_encoder_free(&encoder);
    hayro_cmap_free(&to_unicode);
    hayro_cmap_free(&encoding);
}

// Codes of one byte with the CIDs from 1 on. 41 states a text; the CIDs of 42, 44 and 5C have texts, and the map from
// Unicode gives a character the CID of 43, which has another text.
static hayro_cmap_encoder graded_encoder(bool exact) {
    hayro_cmap encoding = map_of(TEXT("begincodespacerange <00> <7F> endcodespacerange "
                                      "begincidrange <41> <5C> 1 endcidrange"));
    hayro_cmap to_unicode = map_of(TEXT("beginbfchar <41> <00660069> endbfchar"));
    hayro_cmap collection = map_of(TEXT("beginbfchar <0002> <00E9> <0003> <2F47> <0004> <004B> <001C> <00A5> endbfchar"));
    hayro_cmap unicode = map_of(TEXT("begincodespacerange <0000> <FFFF> endcodespacerange "
                                     "begincidchar <65E5> 3 <00E9> 2 endcidchar"));
    hayro_cmap_encoder encoder = HAYRO_CMAP_EMPTY;
    CHECK(hayro_cmap_encoder_build_with(&encoder, &encoding, &to_unicode, &collection, &unicode, exact) == HAYRO_CMAP_OK);
    CHECK(encoding.full && to_unicode.full && collection.full && unicode.full);
    hayro_cmap_free(&unicode);
    hayro_cmap_free(&collection);
    hayro_cmap_free(&to_unicode);
    hayro_cmap_free(&encoding);
    return encoder;
}

static bool is_piece(hayro_cmap_piece piece, size_t text_len, uint32_t code_len, hayro_cmap_grade grade) {
    return piece.text_len == text_len && piece.code_len == code_len && piece.grade == (uint32_t)grade;
}

// U+FB01 would be one character; U+212A is the sign for kelvin, and U+FE00 a variation selector.
#define GRADED "fi\xC3\xA9\xE6\x97\xA5\xEF\xB8\x80\xE2\x84\xAA\\\xE2\xBD\x87"

static void pieces_have_grades(void) {
    hayro_cmap_encoder encoder = graded_encoder(false);
    hayro_cmap_piece pieces[8];
    memset(pieces, 7, sizeof pieces);
    uint8_t room[8];
    size_t needed = 9, offset = 9;
    CHECK(hayro_cmap_encode(&encoder, TEXT(GRADED), room, 8, &needed, &offset) == HAYRO_CMAP_OK);
    CHECK(needed == 6 && same(room, "ABCD\\C", 6));
    CHECK(hayro_cmap_encode_pieces(&encoder, TEXT(GRADED), pieces, 7, &needed, &offset) == HAYRO_CMAP_OK);
    CHECK(needed == 7 && offset == 9);
    CHECK(is_piece(pieces[0], 2, 1, HAYRO_CMAP_GRADE_STATED) && is_piece(pieces[1], 2, 1, HAYRO_CMAP_GRADE_CANONICAL));
    CHECK(is_piece(pieces[2], 3, 1, HAYRO_CMAP_GRADE_CANONICAL) && is_piece(pieces[3], 3, 0, HAYRO_CMAP_GRADE_ALIKE));
    CHECK(is_piece(pieces[4], 3, 1, HAYRO_CMAP_GRADE_ALIKE) && is_piece(pieces[5], 1, 1, HAYRO_CMAP_GRADE_NATIONAL));
    CHECK(is_piece(pieces[6], 3, 1, HAYRO_CMAP_GRADE_COLLECTION) && pieces[7].code_len == 0x07070707);
    CHECK(hayro_cmap_encode_pieces(&encoder, TEXT("fifi"), pieces, 1, &needed, &offset) == HAYRO_CMAP_NO_ROOM);
    CHECK(needed == 2 && is_piece(pieces[0], 2, 1, HAYRO_CMAP_GRADE_STATED));
    CHECK(hayro_cmap_encode_pieces(&encoder, TEXT(""), pieces, 0, &needed, &offset) == HAYRO_CMAP_OK && needed == 0);
    hayro_cmap_encoder_free(&encoder);
}

static void texts_without_pieces_are_refused(void) {
    hayro_cmap_encoder encoder = graded_encoder(false);
    hayro_cmap_piece pieces[2] = {{7, 7, 7}, {7, 7, 7}};
    size_t needed = 9, offset = 9;
    CHECK(hayro_cmap_encode_pieces(&encoder, TEXT("fix"), pieces, 2, &needed, &offset) == HAYRO_CMAP_REFUSED);
    CHECK(offset == 2 && needed == 9);
    CHECK(hayro_cmap_encode_pieces(&encoder, TEXT("fi\xC3\xA9\xC3"), pieces, 2, &needed, &offset) == HAYRO_CMAP_REFUSED);
    CHECK(offset == 4 && needed == 9 && is_piece(pieces[0], 7, 7, 7));
    hayro_cmap_encoder_free(&encoder);
    CHECK(hayro_cmap_encode_pieces(&encoder, TEXT("fi"), pieces, 2, &needed, &offset) == HAYRO_CMAP_ABSENT);
    CHECK(offset == 4 && needed == 9 && is_piece(pieces[0], 7, 7, 7));
}

static void exact_codes_are_read_as_their_pieces(void) {
    hayro_cmap_encoder encoder = graded_encoder(true);
    uint8_t room[4] = {7, 7, 7, 7};
    size_t needed = 9, offset = 9;
    CHECK(hayro_cmap_encode(&encoder, TEXT("fi\xC3\xA9\xE2\xBD\x87"), room, 4, &needed, &offset) == HAYRO_CMAP_OK);
    CHECK(needed == 3 && same(room, "ABC\7", 4));
    CHECK(hayro_cmap_encode(&encoder, TEXT("\xE6\x97\xA5"), room, 4, &needed, &offset) == HAYRO_CMAP_REFUSED && offset == 0);
    CHECK(hayro_cmap_encode(&encoder, TEXT("K\xEF\xB8\x80"), room, 4, &needed, &offset) == HAYRO_CMAP_REFUSED && offset == 1);
    CHECK(hayro_cmap_encode(&encoder, TEXT("\xE2\x84\xAA"), room, 4, &needed, &offset) == HAYRO_CMAP_REFUSED && offset == 0);
    CHECK(hayro_cmap_encode(&encoder, TEXT("\\"), room, 4, &needed, &offset) == HAYRO_CMAP_REFUSED && offset == 0);
    hayro_cmap_encoder_free(&encoder);
}

// Two CIDs have the same text. The map from Unicode chooses the second one; without it the least CID is taken.
static void a_map_from_unicode_chooses_glyphs(void) {
    hayro_cmap encoding = HAYRO_CMAP_EMPTY, none = HAYRO_CMAP_EMPTY, no_map = HAYRO_CMAP_EMPTY;
    CHECK(hayro_cmap_identity(&encoding, false) == HAYRO_CMAP_OK);
    hayro_cmap collection = map_of(TEXT("beginbfchar <020E> <3042> <034B> <3042> endbfchar"));
    hayro_cmap unicode = map_of(TEXT("begincodespacerange <0000> <FFFF> endcodespacerange "
                                     "begincidchar <3042> 843 endcidchar"));
    hayro_cmap_encoder encoder = HAYRO_CMAP_EMPTY;
    uint8_t room[2];
    size_t needed = 9, offset = 9;
    CHECK(hayro_cmap_encoder_build_with(&encoder, &encoding, &none, &collection, &no_map, false) == HAYRO_CMAP_OK);
    CHECK(hayro_cmap_encode(&encoder, TEXT("\xE3\x81\x82"), room, 2, &needed, &offset) == HAYRO_CMAP_OK);
    CHECK(needed == 2 && same(room, "\x02\x0E", 2));
    CHECK(hayro_cmap_encoder_build_with(&encoder, &encoding, &none, &collection, &unicode, false) == HAYRO_CMAP_OK);
    CHECK(hayro_cmap_encode(&encoder, TEXT("\xE3\x81\x82"), room, 2, &needed, &offset) == HAYRO_CMAP_OK);
    CHECK(needed == 2 && same(room, "\x03\x4B", 2));
    CHECK(hayro_cmap_encoder_build_with(&encoder, &none, &encoding, &collection, &unicode, false) == HAYRO_CMAP_ABSENT);
    CHECK(!encoder.full);
    hayro_cmap_free(&unicode);
    hayro_cmap_free(&collection);
    hayro_cmap_free(&encoding);
}

static void collections_have_maps_from_unicode(void) {
    uint8_t room[16] = {7};
    size_t needed = 9;
    CHECK(hayro_cmap_unicode_name(TEXT("Adobe-Japan1"), HAYRO_CMAP_HORIZONTAL, room, 16, &needed) == HAYRO_CMAP_OK);
    CHECK(needed == 14 && same(room, "UniJIS-UTF16-H\0\0", 16));
    CHECK(hayro_cmap_unicode_name(TEXT("Adobe-Japan1"), HAYRO_CMAP_VERTICAL, room, 16, &needed) == HAYRO_CMAP_OK);
    CHECK(needed == 14 && same(room, "UniJIS-UTF16-V\0\0", 16));
    CHECK(hayro_cmap_unicode_name(TEXT("Adobe-CNS1"), HAYRO_CMAP_NO_MODE, room, 16, &needed) == HAYRO_CMAP_OK);
    CHECK(needed == 14 && same(room, "UniCNS-UTF16-H", 14));
    CHECK(hayro_cmap_unicode_name(TEXT("Adobe-KR"), HAYRO_CMAP_VERTICAL, room, 13, &needed) == HAYRO_CMAP_NO_ROOM);
    CHECK(needed == 14 && same(room, "UniCNS-UTF16-H", 14));
    CHECK(hayro_cmap_unicode_name(TEXT("Adobe-Identity"), HAYRO_CMAP_HORIZONTAL, room, 16, &needed) == HAYRO_CMAP_ABSENT);
    CHECK(needed == 14 && same(room, "UniCNS-UTF16-H", 14));
}

static void an_encoder_needs_an_encoding(void) {
    hayro_cmap_encoder encoder = encoder_of_font();
    hayro_cmap none = HAYRO_CMAP_EMPTY, to_unicode = map_of(TEXT("beginbfchar <41> <0066> endbfchar")), other = none;
    CHECK(hayro_cmap_encoder_build(&encoder, &none, &to_unicode, &other) == HAYRO_CMAP_ABSENT && !encoder.full);
    hayro_cmap_free(&to_unicode);
}

static void a_shared_encoder_outlives_its_first_handle(void) {
    hayro_cmap_encoder encoder = encoder_of_font(), other = HAYRO_CMAP_EMPTY;
    CHECK(hayro_cmap_encoder_share(&encoder, &other) == HAYRO_CMAP_OK);
    hayro_cmap_encoder_free(&encoder);
    uint8_t room[1] = {0};
    size_t needed = 0, offset = 0;
    CHECK(hayro_cmap_encode(&other, TEXT("fi"), room, 1, &needed, &offset) == HAYRO_CMAP_OK && room[0] == 'B');
    CHECK(hayro_cmap_encoder_share(&encoder, &other) == HAYRO_CMAP_OK && !other.full);
}

static void files_are_opened_by_their_names(void) {
    hayro_cmap map = HAYRO_CMAP_EMPTY;
    CHECK(open_name(&map, TEXT("Base")) == HAYRO_CMAP_OK);
    CHECK(hayro_cmap_layers(&map) == 1 && hayro_cmap_writing_mode(&map) == HAYRO_CMAP_VERTICAL);
    uint32_t cid = 0;
    CHECK(open_name(&map, TEXT("Identity-V")) == HAYRO_CMAP_OK);
    CHECK(hayro_cmap_cid(&map, 0x1234, 2, &cid) && cid == 0x1234);
    CHECK(hayro_cmap_writing_mode(&map) == HAYRO_CMAP_VERTICAL);
    CHECK(open_name(&map, TEXT("Identity")) == HAYRO_CMAP_ABSENT);
    CHECK(!hayro_cmap_cid(&map, 0x1234, 2, &cid) && hayro_cmap_layers(&map) == 0);
    hayro_cmap_free(&map);
}

static void names_lead_to_the_file_at_fault(void) {
    hayro_cmap map = HAYRO_CMAP_EMPTY;
    hayro_cmap_bundle none = HAYRO_CMAP_EMPTY;
    hayro_cmap_fault fault;
    uint8_t room[4] = {0};
    size_t needed = 0;
    hayro_cmap_file files[] = {{TEXT("A"), TEXT("/BC usecmap")}, {TEXT("BC"), TEXT("begincidchar <20> /X")}};
    CHECK(hayro_cmap_explain(&map, TEXT("/A usecmap"), &none, files, 2, HAYRO_CMAP_NO_BUDGET, &fault, room,
                             4, &needed) == HAYRO_CMAP_REFUSED);
    CHECK(needed == 3 && same(room, "ABC\0", 4));
    CHECK(fault.names == 2 && fault.name_lens[0] == 1 && fault.name_lens[1] == 2 && fault.name_lens[2] == 0);
    CHECK(fault.cause == HAYRO_CMAP_MALFORMED && fault.reason == HAYRO_CMAP_CID_EXPECTED);
    CHECK(fault.offset == 20);
    hayro_cmap_free(&map);
}

// A file at fault at byte 39, over a file at fault at byte 15, which uses a missing file.
#define SPOILED "/AB usecmap begincidchar <41> 5 <42> /X <43> 7 endcidchar"

// The names that a loader wants, one after another. A name is one byte.
struct asked {
    char names[32];
    size_t len;
};

// A loader of a file over a bundle.
static hayro_cmap_loader loader_of(const char *text, hayro_cmap_bundle *bundle, uint64_t budget) {
    hayro_cmap_loader loader = HAYRO_CMAP_EMPTY;
    // The loader keeps none of these bytes.
    char bytes[128];
    size_t len = strlen(text);
    memcpy(bytes, text, len);
    CHECK(hayro_cmap_load(&loader, hayro_cmap_bytes(bytes), len, bundle, budget) == HAYRO_CMAP_OK);
    memset(bytes, '(', sizeof bytes);
    return loader;
}

// Supplies each wanted file: a file of A to J uses the next one seven times, J has a CID, and M uses S, which is
// malformed. There are no others.
static void supply_files(hayro_cmap_loader *loader, hayro_cmap_bundle *bundle, struct asked *asked) {
    uint8_t name[1];
    size_t len;
    asked->len = 0;
    while (hayro_cmap_wanted(loader, BYTES(name), &len) == HAYRO_CMAP_OK && asked->len < sizeof asked->names) {
        char file[128] = "";
        if (name[0] == 'J') strcpy(file, "begincidchar <41> 7 endcidchar");
        if (name[0] == 'M') strcpy(file, "/S usecmap");
        if (name[0] == 'S') strcpy(file, "begincidchar <41> x endcidchar");
        for (int use = 0; use < 7 && name[0] >= 'A' && name[0] < 'J'; use++)
            sprintf(file + strlen(file), "/%c usecmap ", name[0] + 1);
        asked->names[asked->len++] = (char)name[0];
        CHECK(hayro_cmap_supply(loader, bundle, *file != 0, hayro_cmap_bytes(file), strlen(file)) == HAYRO_CMAP_OK);
        memset(file, '(', sizeof file);
    }
}

static bool were_asked(const struct asked *asked, const char *names) {
    return asked->len == strlen(names) && memcmp(asked->names, names, asked->len) == 0;
}

static void a_loader_wants_each_file_once(void) {
    hayro_cmap map = map_of_file();
    hayro_cmap_bundle none = HAYRO_CMAP_EMPTY;
    struct asked asked;
    hayro_cmap_fault fault;
    uint8_t room[1];
    size_t needed = 7;
    uint32_t cid;
    hayro_cmap_loader loader = loader_of("/A usecmap /C usecmap /A usecmap", &none, HAYRO_CMAP_NO_BUDGET);
    CHECK(hayro_cmap_finish(&map, &loader, &fault, BYTES(room), &needed) == HAYRO_CMAP_ABSENT);
    CHECK(!map.full && loader.full && needed == 7);
    supply_files(&loader, &none, &asked);
    CHECK(were_asked(&asked, "ABCDEFGHIJ"));
    CHECK(hayro_cmap_supply(&loader, &none, 1, TEXT("(")) == HAYRO_CMAP_ABSENT);
    CHECK(hayro_cmap_finish(&map, &loader, &fault, BYTES(room), &needed) == HAYRO_CMAP_OK);
    CHECK(needed == 7 && !loader.full && hayro_cmap_cid(&map, 0x41, 1, &cid) && cid == 7);
    CHECK(hayro_cmap_layers(&map) == 11);

    // An empty handle has nothing to do.
    CHECK(hayro_cmap_wanted(&loader, BYTES(room), &needed) == HAYRO_CMAP_ABSENT);
    CHECK(hayro_cmap_supply(&loader, &none, 1, TEXT("")) == HAYRO_CMAP_ABSENT);
    CHECK(hayro_cmap_finish(&map, &loader, &fault, BYTES(room), &needed) == HAYRO_CMAP_ABSENT && !map.full);
    hayro_cmap_loader_free(&loader);
}

static void a_loader_tells_the_first_fault(void) {
    hayro_cmap map = HAYRO_CMAP_EMPTY;
    hayro_cmap_bundle none = HAYRO_CMAP_EMPTY;
    struct asked asked;
    hayro_cmap_fault fault;
    uint8_t room[2] = "??";
    size_t needed = 7;
    // A malformed file: nothing after it is wanted.
    hayro_cmap_loader loader = loader_of("/M usecmap /A usecmap", &none, HAYRO_CMAP_NO_BUDGET);
    supply_files(&loader, &none, &asked);
    CHECK(were_asked(&asked, "MS"));
    CHECK(hayro_cmap_finish(&map, &loader, &fault, room, 1, &needed) == HAYRO_CMAP_REFUSED);
    CHECK(needed == 2 && same(room, "??", 2) && fault.names == 2 && fault.name_lens[1] == 1);
    CHECK(hayro_cmap_finish(&map, &loader, &fault, BYTES(room), &needed) == HAYRO_CMAP_REFUSED);
    CHECK(needed == 2 && same(room, "MS", 2) && !map.full && loader.full);
    CHECK(fault.cause == HAYRO_CMAP_MALFORMED && fault.reason == HAYRO_CMAP_CID_EXPECTED && fault.offset == 19);
    // The handle holds a loader, which is freed.
    CHECK(hayro_cmap_load(&loader, TEXT("/A usecmap begincidchar"), &none, HAYRO_CMAP_NO_BUDGET) == HAYRO_CMAP_OK);
    CHECK(hayro_cmap_wanted(&loader, BYTES(room), &needed) == HAYRO_CMAP_ABSENT);
    CHECK(hayro_cmap_finish(&map, &loader, &fault, BYTES(room), &needed) == HAYRO_CMAP_REFUSED);
    CHECK(fault.offset == 23 && fault.names == 0 && needed == 0);
    hayro_cmap_loader_free(&loader);
    CHECK(!loader.full);

    // A missing file.
    loader = loader_of("/Z usecmap /A usecmap", &none, HAYRO_CMAP_NO_BUDGET);
    supply_files(&loader, &none, &asked);
    CHECK(were_asked(&asked, "Z"));
    CHECK(hayro_cmap_finish(&map, &loader, &fault, BYTES(room), &needed) == HAYRO_CMAP_REFUSED);
    CHECK(fault.cause == HAYRO_CMAP_NO_FILE && needed == 1 && room[0] == 'Z');
    hayro_cmap_loader_free(&loader);
}

static void a_loader_keeps_to_its_budget(void) {
    hayro_cmap map = HAYRO_CMAP_EMPTY;
    hayro_cmap_bundle none = HAYRO_CMAP_EMPTY;
    struct asked asked;
    hayro_cmap_fault fault;
    uint8_t room[2];
    size_t needed;
    uint32_t cid;
    // 21 bytes, and 30 for each use
    for (uint64_t budget = 80; budget <= 81; budget++) {
        hayro_cmap_loader loader = loader_of("/J usecmap /J usecmap", &none, budget);
        supply_files(&loader, &none, &asked);
        CHECK(were_asked(&asked, "J"));
        hayro_cmap_status status = hayro_cmap_finish(&map, &loader, &fault, BYTES(room), &needed);
        CHECK(status == (budget < 81 ? HAYRO_CMAP_OVER_BUDGET : HAYRO_CMAP_OK));
        if (budget < 81) CHECK(fault.cause == HAYRO_CMAP_PAST_BUDGET && needed == 1 && room[0] == 'J');
        else CHECK(hayro_cmap_cid(&map, 0x41, 1, &cid) && cid == 7);
        hayro_cmap_loader_free(&loader);
    }
    hayro_cmap_free(&map);
}

static void a_loader_has_the_files_of_a_bundle(void) {
    hayro_cmap map = HAYRO_CMAP_EMPTY;
    hayro_cmap_bundle bundle = opened_bundle();
    hayro_cmap_fault fault;
    uint8_t room[16];
    size_t needed;
    uint32_t cid;
    for (int found = 0; found < 2; found++) {
        hayro_cmap_loader loader = loader_of(OVER_IT, &bundle, HAYRO_CMAP_NO_BUDGET);
        room[0] = '?';
        CHECK(hayro_cmap_wanted(&loader, room, 3, &needed) == HAYRO_CMAP_NO_ROOM && needed == 11 && room[0] == '?');
        CHECK(hayro_cmap_wanted(&loader, BYTES(room), &needed) == HAYRO_CMAP_OK && same(room, "83pv-RKSJ-H", 11));
        // The file of the caller comes before the file of the bundle.
        const char *file = found ? "begincidchar <0020> 8 endcidchar" : "(";
        CHECK(hayro_cmap_supply(&loader, &bundle, (uint32_t)found, hayro_cmap_bytes(file), strlen(file))
              == HAYRO_CMAP_OK);
        CHECK(hayro_cmap_finish(&map, &loader, &fault, BYTES(room), &needed) == HAYRO_CMAP_OK);
        CHECK(hayro_cmap_cid(&map, 0x20, 2, &cid) && cid == (found ? 8 : 5));
    }
    // A file in binary form is read by the tables of the bundle.
    hayro_cmap_loader binary = HAYRO_CMAP_EMPTY;
    CHECK(hayro_cmap_load(&binary, BUNDLE + 23, sizeof BUNDLE - 23, &bundle, HAYRO_CMAP_NO_BUDGET) == HAYRO_CMAP_OK);
    CHECK(hayro_cmap_finish(&map, &binary, &fault, BYTES(room), &needed) == HAYRO_CMAP_OK);
    CHECK(hayro_cmap_cid(&map, 0x21, 2, &cid) && cid == 6);
    hayro_cmap_free(&map);
    // A loader that wants a file may be freed.
    hayro_cmap_loader loader = loader_of(OVER_IT, &bundle, HAYRO_CMAP_NO_BUDGET);
    hayro_cmap_loader_free(&loader);
    hayro_cmap_bundle_free(&bundle);
}

static void an_identity_needs_no_file(void) {
    hayro_cmap map = HAYRO_CMAP_EMPTY;
    hayro_cmap_bundle none = HAYRO_CMAP_EMPTY;
    hayro_cmap_fault fault;
    uint8_t room[16];
    size_t needed;
    uint32_t cid;
    for (uint32_t found = HAYRO_CMAP_ELSEWHERE; found <= HAYRO_CMAP_NOWHERE + 1; found++) {
        hayro_cmap_loader loader = loader_of("/Identity-H usecmap", &none, HAYRO_CMAP_NO_BUDGET);
        CHECK(hayro_cmap_wanted(&loader, BYTES(room), &needed) == HAYRO_CMAP_OK && same(room, "Identity-H", 10));
        CHECK(hayro_cmap_supply(&loader, &none, found, TEXT("1 begincidchar <12> 7 endcidchar")) == HAYRO_CMAP_OK);
        hayro_cmap_status status = hayro_cmap_finish(&map, &loader, &fault, BYTES(room), &needed);
        if (found >= HAYRO_CMAP_NOWHERE) {
            CHECK(status == HAYRO_CMAP_REFUSED && fault.cause == HAYRO_CMAP_NO_FILE && needed == 10);
        } else {
            bool given = found == HAYRO_CMAP_GIVEN;
            CHECK(status == HAYRO_CMAP_OK && hayro_cmap_cid(&map, 0x12, given ? 1 : 2, &cid));
            CHECK(cid == (given ? 7 : 0x12));
        }
        hayro_cmap_loader_free(&loader);
    }
    hayro_cmap_free(&map);
}

// A loader of a file that is read past its faults.
static hayro_cmap_loader loader_past_faults(const char *text, hayro_cmap_bundle *bundle, uint64_t budget) {
    hayro_cmap_loader loader = HAYRO_CMAP_EMPTY;
    char bytes[128];
    size_t len = strlen(text);
    memcpy(bytes, text, len);
    CHECK(hayro_cmap_load_past_faults(&loader, hayro_cmap_bytes(bytes), len, bundle, budget) == HAYRO_CMAP_OK);
    memset(bytes, '(', sizeof bytes);
    return loader;
}

// The faults of a map, and the names that lead to them. Places that no call writes stay 0.
struct salvaged {
    hayro_cmap_fault faults[16];
    uint8_t names[64];
    size_t found, needed;
};

static bool have_same_faults(const struct salvaged *one, const struct salvaged *other) {
    return one->found == other->found && one->needed == other->needed && same(one->names, other->names, 64) &&
           memcmp(one->faults, other->faults, sizeof one->faults) == 0;
}

// A loader finds the faults that hayro_cmap_salvage finds, and the same map.
static void a_loader_past_faults_wants_each_file_once(void) {
    static const char *const texts[] = {
        "/M usecmap /A usecmap /Z usecmap /M usecmap /J usecmap <", // M and S are at fault, there is no Z
        "/A usecmap begincidchar <41> /X <42> 8 endcidchar",
        "/Z usecmap /Z usecmap",
        "begincidchar <41> 7 endcidchar",
    };
    static const char *const wanted[] = {"MSABCDEFGHIJZ", "ABCDEFGHIJ", "Z", ""};
    static const size_t faults[] = {3, 1, 1, 0};
    // The files that supply_files supplies.
    char uses[9][128];
    hayro_cmap_file files[12] = {{TEXT("J"), TEXT("begincidchar <41> 7 endcidchar")},
                                 {TEXT("M"), TEXT("/S usecmap")},
                                 {TEXT("S"), TEXT("begincidchar <41> x endcidchar")}};
    static const char names[] = "ABCDEFGHI";
    for (size_t i = 0; i < 9; i++) {
        uses[i][0] = 0;
        for (int use = 0; use < 7; use++) sprintf(uses[i] + strlen(uses[i]), "/%c usecmap ", names[i] + 1);
        hayro_cmap_file file = {hayro_cmap_bytes(names + i), 1, hayro_cmap_bytes(uses[i]), strlen(uses[i])};
        files[3 + i] = file;
    }
    hayro_cmap_bundle none = HAYRO_CMAP_EMPTY;
    for (size_t i = 0; i < 4; i++) {
        hayro_cmap map = HAYRO_CMAP_EMPTY, salvaged = HAYRO_CMAP_EMPTY;
        struct asked asked;
        struct salvaged of_loader = {0}, of_files = {0};
        hayro_cmap_fault fault;
        uint8_t room[1];
        size_t needed = 7;
        uint32_t cid = 0, other = 0;
        hayro_cmap_loader loader = loader_past_faults(texts[i], &none, HAYRO_CMAP_NO_BUDGET);
        supply_files(&loader, &none, &asked);
        CHECK(were_asked(&asked, wanted[i]));
        CHECK(hayro_cmap_found_faults(&loader, of_loader.faults, 16, &of_loader.found, BYTES(of_loader.names),
                                      &of_loader.needed) == HAYRO_CMAP_OK);
        CHECK(hayro_cmap_finish(&map, &loader, &fault, BYTES(room), &needed) == HAYRO_CMAP_OK);
        CHECK(needed == 7 && !loader.full && map.full);
        CHECK(hayro_cmap_salvage(&salvaged, hayro_cmap_bytes(texts[i]), strlen(texts[i]), &none, files, 12,
                                 HAYRO_CMAP_NO_BUDGET, of_files.faults, 16, &of_files.found,
                                 BYTES(of_files.names), &of_files.needed) == HAYRO_CMAP_OK);
        CHECK(have_same_faults(&of_loader, &of_files) && of_loader.found == faults[i]);
        CHECK(hayro_cmap_layers(&map) == hayro_cmap_layers(&salvaged));
        CHECK(hayro_cmap_cid(&map, 0x41, 1, &cid) == hayro_cmap_cid(&salvaged, 0x41, 1, &other) && cid == other);
        CHECK(hayro_cmap_cid(&map, 0x41, 1, &cid) == (i != 2) && hayro_cmap_cid(&map, 0x42, 1, &cid) == (i == 1));
        hayro_cmap_free(&map);
        hayro_cmap_free(&salvaged);
    }
}

static void found_faults_without_room_are_counted(void) {
    hayro_cmap map = HAYRO_CMAP_EMPTY;
    hayro_cmap_bundle none = HAYRO_CMAP_EMPTY;
    struct asked asked;
    struct salvaged found = {0};
    hayro_cmap_fault fault;
    uint8_t room[1];
    size_t needed;
    hayro_cmap_loader loader = loader_past_faults("/Z usecmap /Y usecmap <", &none, HAYRO_CMAP_NO_BUDGET);
    found.found = found.needed = 7;
    CHECK(hayro_cmap_found_faults(&loader, found.faults, 16, &found.found, BYTES(found.names), &found.needed)
          == HAYRO_CMAP_ABSENT);
    CHECK(found.found == 7 && found.needed == 7 && loader.full);
    supply_files(&loader, &none, &asked);
    CHECK(were_asked(&asked, "ZY"));
    // room for two faults, and for no names
    CHECK(hayro_cmap_found_faults(&loader, found.faults, 2, &found.found, found.names, 1, &found.needed)
          == HAYRO_CMAP_OK);
    CHECK(found.found == 3 && found.needed == 2 && found.names[0] == 0 && loader.full);
    CHECK(found.faults[0].cause == HAYRO_CMAP_MALFORMED && found.faults[0].names == 0 && found.faults[0].offset == 22);
    CHECK(found.faults[1].cause == HAYRO_CMAP_NO_FILE && found.faults[1].names == 1 && found.faults[2].cause == 0);
    CHECK(hayro_cmap_found_faults(&loader, found.faults, 3, &found.found, found.names, 2, &found.needed)
          == HAYRO_CMAP_OK);
    CHECK(found.found == 3 && found.needed == 2 && same(found.names, "ZY\0", 3));
    CHECK(found.faults[2].cause == HAYRO_CMAP_NO_FILE && found.faults[3].cause == 0);
    // A file after the last one changes nothing.
    CHECK(hayro_cmap_supply(&loader, &none, 1, TEXT("(")) == HAYRO_CMAP_ABSENT);
    CHECK(hayro_cmap_wanted(&loader, BYTES(room), &needed) == HAYRO_CMAP_ABSENT);
    CHECK(hayro_cmap_found_faults(&loader, found.faults, 0, &found.found, found.names, 0, &found.needed)
          == HAYRO_CMAP_OK && found.found == 3 && found.needed == 2);
    CHECK(hayro_cmap_finish(&map, &loader, &fault, BYTES(room), &needed) == HAYRO_CMAP_OK && map.full && !loader.full);
    hayro_cmap_free(&map);
}

static void other_loaders_find_no_faults(void) {
    hayro_cmap map = HAYRO_CMAP_EMPTY;
    hayro_cmap_bundle none = HAYRO_CMAP_EMPTY;
    struct salvaged found = {0};
    hayro_cmap_fault fault;
    uint8_t room[1];
    size_t needed;
    // a loader that refuses a file at fault, and an empty handle
    hayro_cmap_loader loader = loader_of("<", &none, HAYRO_CMAP_NO_BUDGET);
    for (int i = 0; i < 2; i++) {
        CHECK(hayro_cmap_found_faults(&loader, found.faults, 16, &found.found, BYTES(found.names), &found.needed)
              == HAYRO_CMAP_ABSENT);
        CHECK(found.found == 0 && found.needed == 0 && found.faults[0].cause == 0 && loader.full == (i == 0));
        if (i == 0) CHECK(hayro_cmap_finish(&map, &loader, &fault, BYTES(room), &needed) == HAYRO_CMAP_REFUSED);
        hayro_cmap_loader_free(&loader);
    }
    // A loader past faults that wants a file gives no map, and may be freed, also by the next one.
    loader = loader_past_faults("/Z usecmap", &none, HAYRO_CMAP_NO_BUDGET);
    CHECK(hayro_cmap_finish(&map, &loader, &fault, BYTES(room), &needed) == HAYRO_CMAP_ABSENT && loader.full);
    CHECK(hayro_cmap_load_past_faults(&loader, TEXT("/Y usecmap"), &none, HAYRO_CMAP_NO_BUDGET) == HAYRO_CMAP_OK);
    CHECK(hayro_cmap_wanted(&loader, BYTES(room), &needed) == HAYRO_CMAP_OK && room[0] == 'Y');
    hayro_cmap_loader_free(&loader);
    CHECK(!map.full && !loader.full);
}

// A loader past faults that was supplied without being asked first, over a budget that a file exceeds.
static void a_loader_past_faults_keeps_to_its_budget(void) {
    hayro_cmap map = HAYRO_CMAP_EMPTY;
    hayro_cmap_bundle none = HAYRO_CMAP_EMPTY;
    struct salvaged found = {0};
    hayro_cmap_fault fault;
    uint8_t room[1];
    size_t needed;
    // 32 bytes, of which 21 for the first file; K has 12 bytes, and L then 8
    hayro_cmap_loader loader = loader_past_faults("/K usecmap /L usecmap", &none, 32);
    CHECK(hayro_cmap_supply(&loader, &none, HAYRO_CMAP_GIVEN, TEXT("/J usecmap  ")) == HAYRO_CMAP_OK);
    CHECK(hayro_cmap_supply(&loader, &none, HAYRO_CMAP_GIVEN, TEXT("<")) == HAYRO_CMAP_OK);
    CHECK(hayro_cmap_supply(&loader, &none, HAYRO_CMAP_GIVEN, TEXT("<")) == HAYRO_CMAP_ABSENT);
    CHECK(hayro_cmap_found_faults(&loader, found.faults, 16, &found.found, BYTES(found.names), &found.needed)
          == HAYRO_CMAP_OK);
    CHECK(found.found == 2 && found.needed == 2 && same(found.names, "KL", 2));
    CHECK(found.faults[0].cause == HAYRO_CMAP_PAST_BUDGET && found.faults[1].cause == HAYRO_CMAP_MALFORMED);
    CHECK(hayro_cmap_finish(&map, &loader, &fault, BYTES(room), &needed) == HAYRO_CMAP_OK);
    // the first file over L, which is the last file that it uses
    CHECK(hayro_cmap_layers(&map) == 2);
    hayro_cmap_free(&map);
}

static void files_are_read_past_their_faults(void) {
    hayro_cmap map = HAYRO_CMAP_EMPTY;
    hayro_cmap_bundle none = HAYRO_CMAP_EMPTY;
    hayro_cmap_fault faults[4];
    uint8_t room[6] = {0};
    size_t found = 0, needed = 0;
    hayro_cmap_file file = {TEXT("AB"), TEXT("begincidchar\n<> 8\n<44> 9\nendcidchar /C usecmap")};
    CHECK(hayro_cmap_salvage(&map, TEXT(SPOILED), &none, &file, 1, HAYRO_CMAP_NO_BUDGET, faults, 4, &found,
                             room, 6, &needed) == HAYRO_CMAP_OK);
    CHECK(found == 3 && needed == 5 && same(room, "ABABC\0", 6));
    CHECK(faults[0].cause == HAYRO_CMAP_MALFORMED && faults[0].reason == HAYRO_CMAP_CID_EXPECTED);
    CHECK(faults[0].offset == 39 && faults[0].names == 0);
    CHECK(faults[1].cause == HAYRO_CMAP_MALFORMED && faults[1].reason == HAYRO_CMAP_CODE_LENGTH);
    CHECK(faults[1].offset == 15 && faults[1].names == 1 && faults[1].name_lens[0] == 2);
    CHECK(faults[2].cause == HAYRO_CMAP_NO_FILE && faults[2].names == 2 && faults[2].name_lens[1] == 1);
    uint32_t cid = 0;
    CHECK(hayro_cmap_cid(&map, 0x41, 1, &cid) && cid == 5);
    CHECK(!hayro_cmap_cid(&map, 0x42, 1, &cid));
    CHECK(hayro_cmap_cid(&map, 0x43, 1, &cid) && cid == 7);
    CHECK(hayro_cmap_cid(&map, 0x44, 1, &cid) && cid == 9);
    hayro_cmap_free(&map);
}

static void faults_without_room_are_counted(void) {
    hayro_cmap map = HAYRO_CMAP_EMPTY;
    hayro_cmap_bundle none = HAYRO_CMAP_EMPTY;
    hayro_cmap_fault fault = {0};
    uint8_t room[1] = {7};
    size_t found = 0, needed = 0;
    CHECK(hayro_cmap_salvage(&map, TEXT("/A usecmap /B usecmap"), &none, hayro_cmap_files(NULL), 0,
                             HAYRO_CMAP_NO_BUDGET, &fault, 1, &found, room, 1, &needed) == HAYRO_CMAP_OK);
    CHECK(found == 2 && fault.cause == HAYRO_CMAP_NO_FILE && fault.names == 1);
    CHECK(needed == 2 && room[0] == 7);
    CHECK(hayro_cmap_salvage(&map, TEXT(FILE_TEXT), &none, hayro_cmap_files(NULL), 0, HAYRO_CMAP_NO_BUDGET,
                             &fault, 1, &found, room, 1, &needed) == HAYRO_CMAP_OK);
    CHECK(found == 0 && needed == 0 && hayro_cmap_layers(&map) == 1);
    hayro_cmap_free(&map);
}

static void faults_have_messages(void) {
    hayro_cmap_fault fault = {1, 6, 0, 20, 0, {0}};
    uint8_t room[27] = {0};
    size_t needed = 0;
    CHECK(hayro_cmap_message(&fault, room, 27, &needed) == HAYRO_CMAP_OK && needed == 27);
    CHECK(same(room, "byte 20: a CID was expected", 27));
    fault.segment = 1;
    needed = 7;
    CHECK(hayro_cmap_message(&fault, hayro_cmap_room(NULL), 0, &needed) == HAYRO_CMAP_ABSENT);
    CHECK(needed == 7);
}

// Parts at fault: a longer second code and an empty string are read; a shorter second code and a name are lost.
static void parts_at_fault_are_read(void) {
    static const char file[] = "begincodespacerange <00> <FFFF> <0000> <FF> endcodespacerange "
                               "beginbfchar <41> <> <42> /x endbfchar";
    hayro_cmap map = HAYRO_CMAP_EMPTY;
    hayro_cmap_bundle none = HAYRO_CMAP_EMPTY;
    hayro_cmap_fault faults[4];
    uint8_t room[1];
    size_t found = 0, needed = 0;
    CHECK(hayro_cmap_salvage(&map, TEXT(file), &none, hayro_cmap_files(NULL), 0, HAYRO_CMAP_NO_BUDGET, faults, 4,
                             &found, room, 1, &needed) == HAYRO_CMAP_OK && found == 4);
    CHECK(hayro_cmap_read_as(&faults[0], TEXT(file)) == HAYRO_CMAP_READ_AS_EXTENDED_CODE);
    CHECK(hayro_cmap_read_as(&faults[1], TEXT(file)) == HAYRO_CMAP_READ_AS_NOTHING);
    CHECK(hayro_cmap_read_as(&faults[2], TEXT(file)) == HAYRO_CMAP_READ_AS_EMPTY_TEXT);
    CHECK(hayro_cmap_read_as(&faults[3], TEXT(file)) == HAYRO_CMAP_READ_AS_NOTHING);
    // a fault past the end of the text, and a fault with invalid numbers
    CHECK(hayro_cmap_read_as(&faults[0], TEXT("<00> <FFFF>")) == HAYRO_CMAP_READ_AS_NOTHING);
    faults[0].segment = 1;
    CHECK(hayro_cmap_read_as(&faults[0], TEXT(file)) == HAYRO_CMAP_READ_AS_NOTHING);
    hayro_cmap_free(&map);
}

// A map of codes of one byte, with a text for private use, a text of an odd number of digits, and a good text.
static const char DOUBTFUL_TEXT[] = "1 begincodespacerange <00> <FF> endcodespacerange "
                                    "3 beginbfchar <01> <E000> <02> <20BB7> <03> <0041> endbfchar";

static hayro_cmap doubtful_map(void) {
    hayro_cmap map = HAYRO_CMAP_EMPTY;
    CHECK(hayro_cmap_parse(&map, TEXT(DOUBTFUL_TEXT), TEXT(""), hayro_cmap_files(NULL), 0,
                           HAYRO_CMAP_NO_BUDGET) == HAYRO_CMAP_OK);
    return map;
}

static bool is_finding(const hayro_cmap_finding *found, uint32_t warning, uint64_t count, size_t shown,
                       uint32_t first_shown) {
    return found->warning == warning && found->count == count && found->shown == shown &&
           found->first_shown == first_shown;
}

static bool is_at(const hayro_cmap_finding *found, uint32_t place, uint32_t first, uint32_t last, uint32_t byte_len,
                  size_t offset) {
    return found->place == place && found->first == first && found->last == last &&
           found->byte_len == byte_len && found->offset == offset;
}

static void warnings_are_found(void) {
    hayro_cmap map = doubtful_map();
    hayro_cmap_finding found[5];
    const uint32_t shown[3] = {1, 2, 4};
    size_t needed = 0, offset = (size_t)(strstr(DOUBTFUL_TEXT, "<20BB7>") - DOUBTFUL_TEXT);
    found[4].count = 9;
    CHECK(hayro_cmap_lint(&map, TEXT(DOUBTFUL_TEXT), true, shown, 3, found, 5, &needed) == HAYRO_CMAP_OK);
    CHECK(needed == 4 && found[4].count == 9);
    CHECK(is_finding(&found[0], HAYRO_CMAP_WARNING_PRIVATE_USE, 1, 1, 1));
    CHECK(is_at(&found[0], HAYRO_CMAP_AT_CODE, 1, 1, 1, 0));
    CHECK(is_finding(&found[1], HAYRO_CMAP_WARNING_NO_MAPPING, 253, 1, 4));
    CHECK(is_at(&found[1], HAYRO_CMAP_AT_CODE, 0, 0, 1, 0));
    CHECK(is_finding(&found[2], HAYRO_CMAP_WARNING_ODD_DIGITS, 1, 1, 2));
    CHECK(is_at(&found[2], HAYRO_CMAP_AT_OFFSET, 0, 0, 0, offset));
    CHECK(is_finding(&found[3], HAYRO_CMAP_WARNING_ODD_TEXT, 1, 1, 2));
    CHECK(is_at(&found[3], HAYRO_CMAP_AT_OFFSET, 0, 0, 0, offset));
    CHECK(hayro_cmap_lint(&map, TEXT(""), false, hayro_cmap_shown(NULL), 0, found, 5, &needed) == HAYRO_CMAP_OK);
    CHECK(needed == 0);
    hayro_cmap_free(&map);
}

static void warnings_without_room_are_not_written(void) {
    hayro_cmap map = doubtful_map();
    hayro_cmap_finding found = {9, 9, 9, 9, 9, 9, 9, 9, 9};
    size_t needed = 0;
    CHECK(hayro_cmap_lint(&map, TEXT(DOUBTFUL_TEXT), true, hayro_cmap_shown(NULL), 0, &found, 1, &needed) ==
          HAYRO_CMAP_NO_ROOM);
    CHECK(needed == 4 && is_finding(&found, 9, 9, 9, 9) && is_at(&found, 9, 9, 9, 9, 9));
    hayro_cmap_free(&map);
    CHECK(hayro_cmap_lint(&map, TEXT(DOUBTFUL_TEXT), true, hayro_cmap_shown(NULL), 0, &found, 1, &needed) ==
          HAYRO_CMAP_ABSENT);
    CHECK(needed == 4 && is_finding(&found, 9, 9, 9, 9));
}

static void warnings_are_about_declarations_and_names(void) {
    hayro_cmap map = HAYRO_CMAP_EMPTY;
    hayro_cmap_finding found[3];
    size_t needed = 0;
    CHECK(hayro_cmap_parse(&map, TEXT("/CMapName /A-V def begincidrange <01F0> <0210> 5 endcidrange"), TEXT(""),
                           hayro_cmap_files(NULL), 0, HAYRO_CMAP_NO_BUDGET) == HAYRO_CMAP_OK);
    CHECK(hayro_cmap_lint(&map, TEXT(""), false, hayro_cmap_shown(NULL), 0, found, 3, &needed) == HAYRO_CMAP_OK);
    CHECK(needed == 3 && is_finding(&found[0], HAYRO_CMAP_WARNING_NO_CODESPACE, 1, 0, 0));
    CHECK(is_at(&found[0], HAYRO_CMAP_IN_FILE, 0, 0, 0, 0));
    CHECK(is_finding(&found[1], HAYRO_CMAP_WARNING_CROSSES_ROW, 1, 0, 0));
    CHECK(is_at(&found[1], HAYRO_CMAP_AT_RANGE, 0x1F0, 0x210, 2, 0));
    CHECK(is_finding(&found[2], HAYRO_CMAP_WARNING_MODE_DIFFERS, 1, 0, 0));
    CHECK(is_at(&found[2], HAYRO_CMAP_AT_NAME, 0, 0, 0, 0));
    hayro_cmap_free(&map);
}

static void warnings_have_names(void) {
    static const char *names[] = {
        "nothing-declared", "no-codespace", "outside-codespace", "overlap",      "inverted-range", "crosses-row",
        "last-byte",        "no-text",      "private-use",       "noncharacter", "replacement-character",
        "null-character",   "no-mapping",   "name-differs",      "mode-differs", "count-differs",  "long-section",
        "no-endcmap",       "code-length",  "odd-digits",        "odd-text"};
    uint8_t room[32] = {0};
    size_t needed = 0;
    for (uint32_t warning = HAYRO_CMAP_WARNING_NOTHING_DECLARED; warning <= HAYRO_CMAP_WARNING_ODD_TEXT; warning++) {
        CHECK(hayro_cmap_warning_name(warning, room, sizeof room, &needed) == HAYRO_CMAP_OK);
        CHECK(needed == strlen(names[warning]) && same(room, names[warning], needed));
    }
    CHECK(hayro_cmap_warning_name(HAYRO_CMAP_WARNING_OVERLAP, room, 6, &needed) == HAYRO_CMAP_NO_ROOM && needed == 7);
    CHECK(hayro_cmap_warning_name(HAYRO_CMAP_WARNING_ODD_TEXT + 1, room, 6, &needed) == HAYRO_CMAP_ABSENT);
    CHECK(needed == 7 && same(room, "odd-text", 8));
}

static void uses_are_named(void) {
    hayro_cmap_bundle none = HAYRO_CMAP_EMPTY;
    size_t lens[2] = {0}, names = 0, needed = 0;
    uint8_t room[4] = {0};
    CHECK(hayro_cmap_uses(TEXT("/AB usecmap /C usecmap"), &none, lens, 2, &names, room, 4, &needed) ==
          HAYRO_CMAP_OK);
    CHECK(names == 2 && lens[0] == 2 && lens[1] == 1 && needed == 3 && same(room, "ABC\0", 4));
}

static void uses_with_room_for_fewer_lengths_are_not_written(void) {
    hayro_cmap_bundle none = HAYRO_CMAP_EMPTY;
    size_t len = 7, names = 0, needed = 0;
    uint8_t room[4] = {0};
    CHECK(hayro_cmap_uses(TEXT("/AB usecmap /C usecmap"), &none, &len, 1, &names, room, 4, &needed) ==
          HAYRO_CMAP_NO_ROOM);
    CHECK(names == 2 && needed == 3 && len == 7 && same(room, "\0\0\0\0", 4));
}

static hayro_cmap map_over_base(void) {
    hayro_cmap map = HAYRO_CMAP_EMPTY;
    hayro_cmap_file base = {TEXT("Base"), TEXT(FILE_TEXT)};
    CHECK(hayro_cmap_parse(&map,
                           TEXT("/Base usecmap /CMapName /Top def begincodespacerange <20> <7E> "
                                "endcodespacerange"),
                           TEXT(""), &base, 1, HAYRO_CMAP_NO_BUDGET) == HAYRO_CMAP_OK);
    return map;
}

static void layers_speak_of_themselves(void) {
    hayro_cmap map = map_over_base();
    uint8_t room[6] = {0};
    size_t needed = 0;
    int32_t supplement = 0;
    CHECK(hayro_cmap_layers(&map) == 2);
    CHECK(hayro_cmap_layer_name(&map, 1, room, 6, &needed) == HAYRO_CMAP_OK && same(room, "T\0\0\0\0\0", 6));
    CHECK(hayro_cmap_layer_writing_mode(&map, 1) == HAYRO_CMAP_VERTICAL);
    CHECK(hayro_cmap_layer_registry(&map, 1, room, 6, &needed) == HAYRO_CMAP_OK && same(room, "Adobe", 5));
    CHECK(hayro_cmap_layer_ordering(&map, 1, room, 6, &needed) == HAYRO_CMAP_OK && same(room, "Japan1", 6));
    CHECK(hayro_cmap_layer_supplement(&map, 1, &supplement) && supplement == 6);
    CHECK(hayro_cmap_layer_name(&map, 2, room, 6, &needed) == HAYRO_CMAP_ABSENT);
    CHECK(!hayro_cmap_layer_supplement(&map, 0, &supplement));
    CHECK(hayro_cmap_layer_writing_mode(&map, 0) == HAYRO_CMAP_NO_MODE);
    hayro_cmap_free(&map);
}

static void the_first_writing_mode_counts(void) {
    hayro_cmap map = map_over_base();
    CHECK(hayro_cmap_effective_writing_mode(&map) == HAYRO_CMAP_VERTICAL);
    hayro_cmap_file base = {TEXT("Base"), TEXT(FILE_TEXT)};
    CHECK(hayro_cmap_parse(&map, TEXT("/Base usecmap /WMode 0 def"), TEXT(""), &base, 1, HAYRO_CMAP_NO_BUDGET)
          == HAYRO_CMAP_OK);
    CHECK(hayro_cmap_effective_writing_mode(&map) == HAYRO_CMAP_HORIZONTAL);
    CHECK(hayro_cmap_parse(&map, TEXT(""), TEXT(""), hayro_cmap_files(NULL), 0, HAYRO_CMAP_NO_BUDGET)
          == HAYRO_CMAP_OK);
    CHECK(hayro_cmap_writing_mode(&map) == HAYRO_CMAP_NO_MODE);
    CHECK(hayro_cmap_effective_writing_mode(&map) == HAYRO_CMAP_HORIZONTAL);
    hayro_cmap_free(&map);
    CHECK(hayro_cmap_effective_writing_mode(&map) == HAYRO_CMAP_NO_MODE);
}

static void layers_have_codespace_ranges(void) {
    hayro_cmap map = map_over_base();
    hayro_cmap_codespace ranges[2] = {{0, 0, 0}, {0, 0, 0}};
    size_t needed = 0;
    CHECK(hayro_cmap_codespaces(&map, 0, ranges, 2, &needed) == HAYRO_CMAP_OK && needed == 1);
    CHECK(ranges[0].low == 0x20 && ranges[0].high == 0x7E && ranges[0].byte_len == 1);
    CHECK(ranges[1].byte_len == 0);
    CHECK(hayro_cmap_codespaces(&map, 2, ranges, 2, &needed) == HAYRO_CMAP_ABSENT);
    hayro_cmap_free(&map);
}

// Codes of one byte and of two. The later declaration of 41 decides, and the text of 43 is half a pair of surrogates.
#define DECLARING                                                                                  \
    "begincidrange <20> <7E> 1 <8140> <817E> 633 endcidrange begincidchar <41> 7 endcidchar "      \
    "beginnotdefrange <00> <1F> 99 endnotdefrange "                                                \
    "beginbfrange <41> <42> <0061> <43> <43> <D83D> endbfrange beginbfchar <44> <00660069> endbfchar"

static hayro_cmap map_that_declares(void) {
    hayro_cmap map = HAYRO_CMAP_EMPTY;
    CHECK(hayro_cmap_parse(&map, TEXT(DECLARING), TEXT(""), hayro_cmap_files(NULL), 0,
                           HAYRO_CMAP_NO_BUDGET) == HAYRO_CMAP_OK);
    return map;
}

static bool is_cid_range(const hayro_cmap_cid_range *range, uint32_t first, uint32_t last, uint32_t cid) {
    return range->first == first && range->last == last && range->cid == cid;
}

static void layers_declare_cids(void) {
    hayro_cmap map = map_that_declares();
    hayro_cmap_cid_range ranges[3] = {{8, 8, 8}, {8, 8, 8}, {8, 8, 8}};
    size_t needed = 9;
    CHECK(hayro_cmap_cid_ranges(&map, 0, 1, ranges, 3, &needed) == HAYRO_CMAP_OK && needed == 2);
    CHECK(is_cid_range(&ranges[0], 0x20, 0x7E, 1) && is_cid_range(&ranges[1], 0x41, 0x41, 7));
    CHECK(is_cid_range(&ranges[2], 8, 8, 8));
    CHECK(hayro_cmap_cid_ranges(&map, 0, 2, ranges, 3, &needed) == HAYRO_CMAP_OK && needed == 1);
    CHECK(is_cid_range(&ranges[0], 0x8140, 0x817E, 633));
    CHECK(hayro_cmap_cid_ranges(&map, 0, 0, ranges, 3, &needed) == HAYRO_CMAP_OK && needed == 0);
    CHECK(hayro_cmap_cid_ranges(&map, 0, 5, ranges, 3, &needed) == HAYRO_CMAP_OK && needed == 0);
    CHECK(hayro_cmap_notdef_ranges(&map, 0, 1, ranges, 3, &needed) == HAYRO_CMAP_OK && needed == 1);
    CHECK(is_cid_range(&ranges[0], 0, 0x1F, 99));
    CHECK(hayro_cmap_notdef_ranges(&map, 0, 2, ranges, 3, &needed) == HAYRO_CMAP_OK && needed == 0);
    hayro_cmap_free(&map);
}

static void declarations_without_room_are_not_written(void) {
    hayro_cmap map = map_that_declares();
    hayro_cmap_cid_range cids = {8, 8, 8};
    hayro_cmap_text_range texts[2] = {{8, 8, 8}, {8, 8, 8}};
    uint16_t unit = 8;
    size_t needed = 9;
    CHECK(hayro_cmap_cid_ranges(&map, 0, 1, &cids, 1, &needed) == HAYRO_CMAP_NO_ROOM && needed == 2);
    CHECK(hayro_cmap_notdef_ranges(&map, 0, 1, &cids, 0, &needed) == HAYRO_CMAP_NO_ROOM && needed == 1);
    CHECK(hayro_cmap_text_ranges(&map, 0, texts, 2, &needed) == HAYRO_CMAP_NO_ROOM && needed == 3);
    CHECK(hayro_cmap_text_units(&map, 0, 2, &unit, 1, &needed) == HAYRO_CMAP_NO_ROOM && needed == 2);
    CHECK(hayro_cmap_cid_ranges(&map, 1, 1, &cids, 1, &needed) == HAYRO_CMAP_ABSENT);
    CHECK(hayro_cmap_notdef_ranges(&map, 1, 1, &cids, 1, &needed) == HAYRO_CMAP_ABSENT);
    CHECK(hayro_cmap_text_ranges(&map, 1, texts, 2, &needed) == HAYRO_CMAP_ABSENT);
    CHECK(hayro_cmap_text_units(&map, 0, 3, &unit, 1, &needed) == HAYRO_CMAP_ABSENT);
    CHECK(hayro_cmap_text_units(&map, 1, 0, &unit, 1, &needed) == HAYRO_CMAP_ABSENT);
    CHECK(needed == 2 && unit == 8 && is_cid_range(&cids, 8, 8, 8));
    CHECK(texts[0].first == 8 && texts[0].last == 8 && texts[0].units == 8 && texts[1].units == 8);
    hayro_cmap_free(&map);
}

static void layers_declare_texts(void) {
    hayro_cmap map = map_that_declares();
    hayro_cmap_text_range ranges[4] = {{8, 8, 8}, {8, 8, 8}, {8, 8, 8}, {8, 8, 8}};
    size_t needed = 9;
    CHECK(hayro_cmap_text_ranges(&map, 0, ranges, 4, &needed) == HAYRO_CMAP_OK && needed == 3);
    CHECK(ranges[0].first == 0x41 && ranges[0].last == 0x42 && ranges[0].units == 1);
    CHECK(ranges[1].first == 0x43 && ranges[1].last == 0x43 && ranges[1].units == 1);
    CHECK(ranges[2].first == 0x44 && ranges[2].last == 0x44 && ranges[2].units == 2);
    CHECK(ranges[3].first == 8 && ranges[3].last == 8 && ranges[3].units == 8);
    uint16_t units[3] = {8, 8, 8};
    CHECK(hayro_cmap_text_units(&map, 0, 0, units, 3, &needed) == HAYRO_CMAP_OK && needed == 1);
    CHECK(units[0] == 0x61 && units[1] == 8);
    CHECK(hayro_cmap_text_units(&map, 0, 1, units, 3, &needed) == HAYRO_CMAP_OK && needed == 1);
    CHECK(units[0] == 0xD83D);
    CHECK(hayro_cmap_text_units(&map, 0, 2, units, 3, &needed) == HAYRO_CMAP_OK && needed == 2);
    CHECK(units[0] == 0x66 && units[1] == 0x69 && units[2] == 8);
    hayro_cmap_free(&map);
}

static void lower_layers_declare_too(void) {
    hayro_cmap map = map_over_base();
    hayro_cmap_cid_range cids = {8, 8, 8};
    hayro_cmap_text_range texts = {8, 8, 8};
    uint16_t units[2] = {8, 8};
    size_t needed = 9;
    CHECK(hayro_cmap_cid_ranges(&map, 0, 2, &cids, 1, &needed) == HAYRO_CMAP_OK && needed == 0);
    CHECK(hayro_cmap_cid_ranges(&map, 1, 2, &cids, 1, &needed) == HAYRO_CMAP_OK && needed == 1);
    CHECK(is_cid_range(&cids, 0, 0x1FF, 0));
    CHECK(hayro_cmap_text_ranges(&map, 1, &texts, 1, &needed) == HAYRO_CMAP_OK && needed == 1);
    CHECK(texts.first == 0x41 && texts.last == 0x41 && texts.units == 2);
    CHECK(hayro_cmap_text_units(&map, 1, 0, units, 2, &needed) == HAYRO_CMAP_OK && needed == 2);
    CHECK(units[0] == 0x42 && units[1] == 0x43);
    hayro_cmap_free(&map);
    CHECK(hayro_cmap_cid_ranges(&map, 0, 2, &cids, 1, &needed) == HAYRO_CMAP_ABSENT && needed == 2);
}

static void a_cid_has_its_codes(void) {
    hayro_cmap map = map_that_declares();
    hayro_cmap_code_range ranges[3] = {{8, 9}, {8, 9}, {8, 9}};
    size_t needed = 9;
    CHECK(hayro_cmap_codes_of_cid(&map, 7, 1, ranges, 1, &needed) == HAYRO_CMAP_NO_ROOM && needed == 2);
    CHECK(ranges[0].first == 8 && ranges[0].last == 9);
    CHECK(hayro_cmap_codes_of_cid(&map, 7, 1, ranges, 3, &needed) == HAYRO_CMAP_OK && needed == 2);
    CHECK(ranges[0].first == 0x26 && ranges[0].last == 0x26 && ranges[1].first == 0x41 && ranges[1].last == 0x41);
    CHECK(ranges[2].first == 8 && ranges[2].last == 9);
    CHECK(hayro_cmap_codes_of_cid(&map, 34, 1, ranges, 3, &needed) == HAYRO_CMAP_OK && needed == 0);
    CHECK(hayro_cmap_codes_of_cid(&map, 99, 1, ranges, 3, &needed) == HAYRO_CMAP_OK && needed == 1);
    CHECK(ranges[0].first == 0x00 && ranges[0].last == 0x1F);
    CHECK(hayro_cmap_codes_of_cid(&map, 634, 2, ranges, 3, &needed) == HAYRO_CMAP_OK && needed == 1);
    CHECK(ranges[0].first == 0x8141 && ranges[0].last == 0x8141);
    CHECK(hayro_cmap_codes_of_cid(&map, 7, 5, ranges, 3, &needed) == HAYRO_CMAP_OK && needed == 0);
    hayro_cmap_free(&map);
    CHECK(hayro_cmap_codes_of_cid(&map, 7, 1, ranges, 3, &needed) == HAYRO_CMAP_ABSENT && needed == 0);
}

static hayro_cmap_declaration declaration(uint16_t kind, uint16_t byte_len, uint32_t first, uint32_t last,
                                          uint32_t cid) {
    hayro_cmap_declaration made = {kind, byte_len, first, last, cid, TEXT("")};
    return made;
}

static hayro_cmap_declaration text_declaration(uint32_t first, uint32_t last, const char *text) {
    hayro_cmap_declaration made = declaration(HAYRO_CMAP_TEXT_RANGE, 2, first, last, 0);
    made.text = hayro_cmap_bytes(text);
    made.text_len = strlen(text);
    return made;
}

// Metadata of a file that has none.
static hayro_cmap_facts no_facts(void) {
    hayro_cmap_facts facts = {TEXT(""), TEXT(""), TEXT(""), 0, 0, 0, HAYRO_CMAP_NO_MODE};
    return facts;
}

// The map of a text that was written.
static hayro_cmap map_of_text(const uint8_t *text, size_t len) {
    hayro_cmap map = HAYRO_CMAP_EMPTY;
    CHECK(hayro_cmap_parse(&map, text, len, TEXT(""), hayro_cmap_files(NULL), 0, HAYRO_CMAP_NO_BUDGET) ==
          HAYRO_CMAP_OK);
    return map;
}

static bool has_cid(hayro_cmap *map, uint32_t code, uint8_t byte_len, uint32_t expected) {
    uint32_t cid = 0;
    return hayro_cmap_cid(map, code, byte_len, &cid) && cid == expected;
}

static bool has_text(hayro_cmap *map, uint32_t code, const char *expected) {
    uint8_t room[16];
    size_t needed = 0;
    return hayro_cmap_text(map, code, room, sizeof room, &needed) == HAYRO_CMAP_OK &&
           needed == strlen(expected) && same(room, expected, needed);
}

static void a_file_is_made_of_declarations(void) {
    const hayro_cmap_declaration declarations[] = {
        declaration(HAYRO_CMAP_CODESPACE_RANGE, 2, 0, 0xFFFF, 0),
        declaration(HAYRO_CMAP_CID_RANGE, 2, 0x20, 0x7E, 1),
        declaration(HAYRO_CMAP_CID_RANGE, 2, 0x7F, 0x80, 96),
        declaration(HAYRO_CMAP_NOTDEF_RANGE, 2, 0, 0x1F, 99),
        text_declaration(0x41, 0x42, "fi"),
        text_declaration(0x50, 0x50, "\xF0\x9F\x98\x80"),
    };
    const hayro_cmap_facts facts = {TEXT("Made-V"), TEXT("Adobe"), TEXT("Japan1"), 6, 1, 1, HAYRO_CMAP_VERTICAL};
    uint8_t room[2048] = {7};
    size_t needed = 9, whole = 0;
    CHECK(hayro_cmap_make(&facts, declarations, 6, room, 1, &whole) == HAYRO_CMAP_NO_ROOM && room[0] == 7);
    CHECK(hayro_cmap_make(&facts, declarations, 6, room, whole - 1, &needed) == HAYRO_CMAP_NO_ROOM);
    CHECK(needed == whole && room[0] == 7);
    CHECK(hayro_cmap_make(&facts, declarations, 6, room, whole, &needed) == HAYRO_CMAP_OK && needed == whole);
    CHECK(same(room, "%!PS-Adobe-3.0 Resource-CMap\n", 29) && room[whole] == 0);
    hayro_cmap map = map_of_text(room, needed);
    CHECK(has_cid(&map, 0x41, 2, 0x22) && has_cid(&map, 0x80, 2, 97) && has_cid(&map, 0x1F, 2, 99));
    CHECK(has_text(&map, 0x41, "fi") && has_text(&map, 0x42, "fj") && has_text(&map, 0x50, "\xF0\x9F\x98\x80"));
    hayro_cmap_cid_range ranges[2];
    CHECK(hayro_cmap_cid_ranges(&map, 0, 2, ranges, 2, &needed) == HAYRO_CMAP_OK && needed == 1);
    CHECK(is_cid_range(&ranges[0], 0x20, 0x80, 1));
    uint8_t name[8] = {0};
    int32_t supplement = 0;
    CHECK(hayro_cmap_name(&map, name, 8, &needed) == HAYRO_CMAP_OK && needed == 6 && same(name, "Made-V", 6));
    CHECK(hayro_cmap_ordering(&map, name, 8, &needed) == HAYRO_CMAP_OK && same(name, "Japan1", 6));
    CHECK(hayro_cmap_supplement(&map, &supplement) && supplement == 6);
    CHECK(hayro_cmap_writing_mode(&map) == HAYRO_CMAP_VERTICAL);
    hayro_cmap_free(&map);
}

static void a_writing_mode_has_a_number(void) {
    static const uint16_t others[] = {2, 3, 77, 255, 256, 257, 65535};
    for (size_t i = 0; i < sizeof others / sizeof *others; i++) {
        hayro_cmap_facts facts = no_facts();
        facts.writing_mode = others[i];
        uint8_t room[512];
        size_t needed = 0;
        CHECK(hayro_cmap_make(&facts, hayro_cmap_declarations(NULL), 0, room, 512, &needed) == HAYRO_CMAP_OK);
        hayro_cmap map = map_of_text(room, needed);
        CHECK(hayro_cmap_writing_mode(&map) == HAYRO_CMAP_NO_MODE);
        hayro_cmap_free(&map);
    }
}

static void a_file_may_say_nothing(void) {
    const hayro_cmap_facts facts = no_facts();
    uint8_t room[512];
    size_t needed = 0;
    CHECK(hayro_cmap_make(&facts, hayro_cmap_declarations(NULL), 0, room, 512, &needed) == HAYRO_CMAP_OK);
    hayro_cmap map = map_of_text(room, needed);
    CHECK(hayro_cmap_name(&map, room, 512, &needed) == HAYRO_CMAP_ABSENT);
    CHECK(hayro_cmap_registry(&map, room, 512, &needed) == HAYRO_CMAP_ABSENT);
    CHECK(hayro_cmap_writing_mode(&map) == HAYRO_CMAP_NO_MODE && !has_cid(&map, 0x41, 1, 0));
    hayro_cmap_free(&map);
}

static bool is_refused(const hayro_cmap_facts *facts, hayro_cmap_declaration declared) {
    uint8_t room[512] = {7};
    size_t needed = 9;
    return hayro_cmap_make(facts, &declared, 1, room, 512, &needed) == HAYRO_CMAP_REFUSED && room[0] == 7 &&
           needed == 9;
}

static void what_no_file_says_is_refused(void) {
    hayro_cmap_facts facts = no_facts();
    CHECK(is_refused(&facts, declaration(4, 2, 0, 1, 0)));
    CHECK(is_refused(&facts, declaration(HAYRO_CMAP_CID_RANGE, 0, 0, 1, 0)));
    CHECK(is_refused(&facts, declaration(HAYRO_CMAP_CID_RANGE, 5, 0, 1, 0)));
    CHECK(is_refused(&facts, declaration(HAYRO_CMAP_CID_RANGE, 258, 0, 1, 0)));
    CHECK(is_refused(&facts, declaration(HAYRO_CMAP_CID_RANGE, 1, 0x100, 0x100, 0)));
    CHECK(is_refused(&facts, declaration(HAYRO_CMAP_CODESPACE_RANGE, 1, 0, 0x100, 0)));
    CHECK(is_refused(&facts, text_declaration(0x41, 0x41, "")));
    CHECK(is_refused(&facts, text_declaration(0x41, 0x41, "\xC3")));
    CHECK(!is_refused(&facts, text_declaration(0x41, 0x41, "\xC3\xA9")));
    facts.name = hayro_cmap_bytes("A B");
    facts.name_len = 3;
    CHECK(!is_refused(&facts, declaration(HAYRO_CMAP_CID_RANGE, 2, 0, 1, 0)));
    facts.has_name = 1;
    CHECK(is_refused(&facts, declaration(HAYRO_CMAP_CID_RANGE, 2, 0, 1, 0)));
}

#define BASE                                                                                       \
    "begincodespacerange <00> <80> <8140> <9FFC> endcodespacerange "                               \
    "begincidrange <8140> <81FC> 633 <20> <7E> 1 endcidrange beginbfchar <8140> <3000> endbfchar"

// The map of a file over a file with the name Base.
static hayro_cmap map_over(const char *text, const char *base) {
    const hayro_cmap_file file = {TEXT("Base"), hayro_cmap_bytes(base), strlen(base)};
    hayro_cmap map = HAYRO_CMAP_EMPTY;
    CHECK(hayro_cmap_parse(&map, hayro_cmap_bytes(text), strlen(text), TEXT(""), &file, 1, HAYRO_CMAP_NO_BUDGET) ==
          HAYRO_CMAP_OK);
    return map;
}

static void a_map_is_written_as_one_file(void) {
    hayro_cmap map = map_over("/Base usecmap /CMapName /Top def begincidchar <8141> 7887 endcidchar", BASE);
    uint8_t room[1024] = {7};
    size_t needed = 0, whole = 0;
    CHECK(hayro_cmap_write(&map, hayro_cmap_chosen(NULL), 0, room, 1, &whole) == HAYRO_CMAP_NO_ROOM);
    CHECK(room[0] == 7 && whole > 1);
    CHECK(hayro_cmap_write(&map, hayro_cmap_chosen(NULL), 0, room, 1024, &needed) == HAYRO_CMAP_OK);
    CHECK(needed == whole);
    hayro_cmap flat = map_of_text(room, needed);
    CHECK(hayro_cmap_layers(&map) == 2 && hayro_cmap_layers(&flat) == 1);
    CHECK(has_cid(&flat, 0x8140, 2, 633) && has_cid(&flat, 0x8141, 2, 7887) && has_cid(&flat, 0x8142, 2, 635));
    CHECK(has_cid(&flat, 0x20, 1, 1) && has_text(&flat, 0x8140, "\xE3\x80\x80"));
    CHECK(hayro_cmap_name(&flat, room, 1024, &needed) == HAYRO_CMAP_OK && needed == 3 && same(room, "Top", 3));
    hayro_cmap_free(&flat);
    hayro_cmap_free(&map);
    needed = 9;
    CHECK(hayro_cmap_write(&map, hayro_cmap_chosen(NULL), 0, room, 1024, &needed) == HAYRO_CMAP_ABSENT);
    CHECK(needed == 9);
}

static void a_map_is_written_for_some_codes(void) {
    hayro_cmap map = map_over("/Base usecmap begincidchar <8141> 7887 endcidchar", BASE);
    hayro_cmap_codes codes[2] = {{0x8141, 0x8142, 2}, {0x41, 0x41, 1}};
    uint8_t room[1024];
    size_t needed = 0;
    CHECK(hayro_cmap_write(&map, codes, 2, room, 1024, &needed) == HAYRO_CMAP_OK);
    hayro_cmap some = map_of_text(room, needed);
    uint32_t cid = 8;
    CHECK(has_cid(&some, 0x8141, 2, 7887) && has_cid(&some, 0x8142, 2, 635) && has_cid(&some, 0x41, 1, 34));
    CHECK(!hayro_cmap_cid(&some, 0x8140, 2, &cid) && !hayro_cmap_cid(&some, 0x42, 1, &cid) && cid == 8);
    CHECK(hayro_cmap_text(&some, 0x8140, room, 1024, &needed) == HAYRO_CMAP_ABSENT);
    hayro_cmap_free(&some);
    needed = 9;
    codes[1].byte_len = 5;
    CHECK(hayro_cmap_write(&map, codes, 2, room, 1024, &needed) == HAYRO_CMAP_REFUSED && needed == 9);
    CHECK(has_cid(&map, 0x8140, 2, 633));
    hayro_cmap_free(&map);
}

// The upper layer gives 41 the Unicode number of its text; in one file of both layers its CID would be 5.
static void a_map_that_no_file_answers_is_not_written(void) {
    hayro_cmap map = map_over("/Base usecmap beginbfchar <41> <0062> endbfchar", "begincidchar <41> 5 endcidchar");
    const hayro_cmap_codes codes[] = {{0x41, 0x41, 1}}, others[] = {{0x41, 0x41, 2}};
    uint8_t room[1024];
    size_t needed = 9;
    CHECK(has_cid(&map, 0x41, 1, 0x62));
    CHECK(hayro_cmap_write(&map, hayro_cmap_chosen(NULL), 0, room, 1024, &needed) == HAYRO_CMAP_REFUSED);
    CHECK(hayro_cmap_write(&map, codes, 1, room, 1024, &needed) == HAYRO_CMAP_REFUSED && needed == 9);
    CHECK(hayro_cmap_write(&map, others, 1, room, 1024, &needed) == HAYRO_CMAP_OK);
    hayro_cmap_free(&map);
}

static void the_library_has_its_version(void) {
    uint8_t room[16] = {0};
    size_t needed = 0;
    static const char proved[] = HAYRO_CMAP_VERSION, plain[] = HAYRO_CMAP_VERSION "+plain";
    CHECK(hayro_cmap_version(room, 16, &needed) == HAYRO_CMAP_OK);
    CHECK(needed == sizeof proved - 1 || needed == sizeof plain - 1);
    CHECK(same(room, plain, needed));
}

int main(void) {
    codes_have_cids();
    codes_have_texts();
    files_speak_of_themselves();
    what_is_longer_than_its_room_is_not_written();
    a_shared_map_outlives_its_first_handle();
    a_bundle_is_read_once_for_several_maps();
    a_shared_bundle_outlives_its_first_handle();
    bytes_that_are_no_bundle_leave_none();
    a_bundle_has_its_files();
    statuses_say_why_there_is_no_map();
    a_file_of_a_bundle_counts_when_it_is_opened();
    an_identity_counts_177_bytes();
    an_identity_answers_the_code();
    a_string_is_cut_up_to_the_room();
    a_string_may_end_before_its_last_code();
    a_use_of_an_identity_needs_no_file();
    texts_come_from_the_code_or_the_cid();
    a_string_is_extracted_up_to_the_rooms();
    texts_have_strings();
    texts_without_a_string_are_refused();
    bytes_stand_for_characters_without_a_string();
    a_text_is_folded();
    half_codes_stand_for_no_character();
    pieces_have_grades();
    texts_without_pieces_are_refused();
    exact_codes_are_read_as_their_pieces();
    a_map_from_unicode_chooses_glyphs();
    collections_have_maps_from_unicode();
    an_encoder_needs_an_encoding();
    a_shared_encoder_outlives_its_first_handle();
    files_are_opened_by_their_names();
    names_lead_to_the_file_at_fault();
    a_loader_wants_each_file_once();
    a_loader_tells_the_first_fault();
    a_loader_keeps_to_its_budget();
    a_loader_has_the_files_of_a_bundle();
    an_identity_needs_no_file();
    a_loader_past_faults_wants_each_file_once();
    found_faults_without_room_are_counted();
    other_loaders_find_no_faults();
    a_loader_past_faults_keeps_to_its_budget();
    files_are_read_past_their_faults();
    faults_without_room_are_counted();
    faults_have_messages();
    parts_at_fault_are_read();
    warnings_are_found();
    warnings_without_room_are_not_written();
    warnings_are_about_declarations_and_names();
    warnings_have_names();
    uses_are_named();
    uses_with_room_for_fewer_lengths_are_not_written();
    layers_speak_of_themselves();
    the_first_writing_mode_counts();
    layers_have_codespace_ranges();
    layers_declare_cids();
    declarations_without_room_are_not_written();
    layers_declare_texts();
    lower_layers_declare_too();
    a_cid_has_its_codes();
    a_file_is_made_of_declarations();
    a_writing_mode_has_a_number();
    a_file_may_say_nothing();
    what_no_file_says_is_refused();
    a_map_is_written_as_one_file();
    a_map_is_written_for_some_codes();
    a_map_that_no_file_answers_is_not_written();
    the_library_has_its_version();
    puts(failed ? "failed" : "ok");
    return failed;
}
