/* What the library of plain Rust does where a pointer is null: it changes nothing, and gives HAYRO_CMAP_ABSENT, false, 0
 * or HAYRO_CMAP_NO_MODE. With a length of 0 null is as good as any pointer. */
#include "hayro_cmap.h"
#include <stdio.h>
#include <string.h>

static int failed;
#define CHECK(holds) ((holds) ? 0 : (failed = 1, printf("%s:%d: %s\n", __FILE__, __LINE__, #holds)))
#define IS_ABSENT(call) CHECK((call) == HAYRO_CMAP_ABSENT)

int main(void) {
    static const char text[] = "/CMapName /A def begincodespacerange <00> <FF> endcodespacerange "
                               "begincidrange <20> <7E> 1 endcidrange beginbfchar <41> <0041> endbfchar";
    const uint8_t *data = (const uint8_t *)text;
    const size_t len = sizeof text - 1;
    hayro_cmap map = HAYRO_CMAP_EMPTY, other = HAYRO_CMAP_EMPTY;
    hayro_cmap_bundle bundle = HAYRO_CMAP_EMPTY, copy = HAYRO_CMAP_EMPTY;
    hayro_cmap_encoder encoder = HAYRO_CMAP_EMPTY, twin = HAYRO_CMAP_EMPTY;
    hayro_cmap_loader loader = HAYRO_CMAP_EMPTY;
    hayro_cmap_fault fault, before;
    hayro_cmap_extracted extracted = {7, 7, 7};
    hayro_cmap_character character;
    hayro_cmap_code code;
    hayro_cmap_finding finding;
    hayro_cmap_piece piece;
    uint8_t room[64];
    uint16_t units[4];
    uint32_t cid = 7;
    int32_t supplement = 7;
    size_t needed = 7, made = 7, taken = 7;
    memset(&fault, 9, sizeof fault);
    before = fault;

    /* null with the length 0 */
    CHECK(hayro_cmap_parse(&map, data, len, NULL, 0, NULL, 0, HAYRO_CMAP_NO_BUDGET) == HAYRO_CMAP_OK);
    CHECK(hayro_cmap_parse(&other, NULL, 0, NULL, 0, NULL, 0, HAYRO_CMAP_NO_BUDGET) == HAYRO_CMAP_OK);
    CHECK(hayro_cmap_name(&map, NULL, 0, &needed) == HAYRO_CMAP_NO_ROOM && needed == 1);
    CHECK(hayro_cmap_decode(&map, NULL, 0, NULL, 0, &made, &taken) == HAYRO_CMAP_OK && made == 0 && taken == 0);
    CHECK(hayro_cmap_bundle_open(&bundle, NULL, 0) == HAYRO_CMAP_NOT_A_BUNDLE);
    CHECK(hayro_cmap_cids(&map, 0x41, 1, 0, NULL, 0));
    CHECK(hayro_cmap_encoder_build(&encoder, &map, &other, &(hayro_cmap)HAYRO_CMAP_EMPTY) == HAYRO_CMAP_OK);
    CHECK(hayro_cmap_encode(&encoder, NULL, 0, NULL, 0, &needed, &made) == HAYRO_CMAP_OK && needed == 0);
    CHECK(hayro_cmap_encode_pieces(&encoder, NULL, 0, NULL, 0, &needed, &made) == HAYRO_CMAP_OK && needed == 0);
    hayro_cmap_file file = {NULL, 0, NULL, 0};
    CHECK(hayro_cmap_parse(&other, data, len, NULL, 0, &file, 1, HAYRO_CMAP_NO_BUDGET) == HAYRO_CMAP_OK);
    CHECK(hayro_cmap_load(&loader, NULL, 0, &bundle, HAYRO_CMAP_NO_BUDGET) == HAYRO_CMAP_OK);
    CHECK(hayro_cmap_load(&loader, (const uint8_t *)"/A usecmap", 10, &bundle, HAYRO_CMAP_NO_BUDGET) == HAYRO_CMAP_OK);
    CHECK(hayro_cmap_wanted(&loader, NULL, 0, &needed) == HAYRO_CMAP_NO_ROOM && needed == 1);
    CHECK(hayro_cmap_supply(&loader, &bundle, 0, NULL, 0) == HAYRO_CMAP_OK);
    CHECK(hayro_cmap_finish(&other, &loader, &fault, NULL, 0, &needed) == HAYRO_CMAP_REFUSED && needed == 1);
    CHECK(hayro_cmap_load_past_faults(&loader, NULL, 0, &bundle, HAYRO_CMAP_NO_BUDGET) == HAYRO_CMAP_OK);
    CHECK(hayro_cmap_found_faults(&loader, NULL, 0, &made, NULL, 0, &needed) == HAYRO_CMAP_OK && made == 0 && needed == 0);
    CHECK(hayro_cmap_load(&loader, (const uint8_t *)"/A usecmap", 10, &bundle, HAYRO_CMAP_NO_BUDGET) == HAYRO_CMAP_OK);
    CHECK(hayro_cmap_parse(&other, data, len, NULL, 0, NULL, 0, HAYRO_CMAP_NO_BUDGET) == HAYRO_CMAP_OK);
    fault = before;
    hayro_cmap_facts facts = {NULL, 0, NULL, 0, NULL, 0, 0, 0, 0, HAYRO_CMAP_NO_MODE};
    CHECK(hayro_cmap_make(&facts, NULL, 0, NULL, 0, &needed) == HAYRO_CMAP_NO_ROOM && needed > 0);

    /* null with another length, and null handles */
    needed = made = taken = 7;
    IS_ABSENT(hayro_cmap_parse(NULL, data, len, NULL, 0, NULL, 0, HAYRO_CMAP_NO_BUDGET));
    IS_ABSENT(hayro_cmap_parse(&other, NULL, 1, NULL, 0, NULL, 0, HAYRO_CMAP_NO_BUDGET));
    IS_ABSENT(hayro_cmap_parse(&other, data, len, NULL, 1, NULL, 0, HAYRO_CMAP_NO_BUDGET));
    IS_ABSENT(hayro_cmap_parse(&other, data, len, NULL, 0, NULL, 1, HAYRO_CMAP_NO_BUDGET));
    IS_ABSENT(hayro_cmap_parse_over(&other, data, len, NULL, NULL, 0, HAYRO_CMAP_NO_BUDGET));
    IS_ABSENT(hayro_cmap_explain(&other, data, len, &bundle, NULL, 0, HAYRO_CMAP_NO_BUDGET, NULL, room, 64, &needed));
    IS_ABSENT(hayro_cmap_explain(&other, data, len, &bundle, NULL, 0, HAYRO_CMAP_NO_BUDGET, &fault, room, 64, NULL));
    IS_ABSENT(hayro_cmap_salvage(&other, data, len, &bundle, NULL, 0, HAYRO_CMAP_NO_BUDGET, &fault, 1, NULL, room, 64, &needed));
    IS_ABSENT(hayro_cmap_load(NULL, data, len, &bundle, HAYRO_CMAP_NO_BUDGET));
    IS_ABSENT(hayro_cmap_load(&loader, NULL, 1, &bundle, HAYRO_CMAP_NO_BUDGET));
    IS_ABSENT(hayro_cmap_load(&loader, data, len, NULL, HAYRO_CMAP_NO_BUDGET));
    IS_ABSENT(hayro_cmap_load_past_faults(NULL, data, len, &bundle, HAYRO_CMAP_NO_BUDGET));
    IS_ABSENT(hayro_cmap_load_past_faults(&loader, NULL, 1, &bundle, HAYRO_CMAP_NO_BUDGET));
    IS_ABSENT(hayro_cmap_load_past_faults(&loader, data, len, NULL, HAYRO_CMAP_NO_BUDGET));
    IS_ABSENT(hayro_cmap_wanted(NULL, room, 64, &needed));
    IS_ABSENT(hayro_cmap_wanted(&loader, NULL, 64, &needed));
    IS_ABSENT(hayro_cmap_wanted(&loader, room, 64, NULL));
    IS_ABSENT(hayro_cmap_supply(NULL, &bundle, 1, data, len));
    IS_ABSENT(hayro_cmap_supply(&loader, NULL, 1, data, len));
    IS_ABSENT(hayro_cmap_supply(&loader, &bundle, 1, NULL, 1));
    IS_ABSENT(hayro_cmap_found_faults(NULL, &fault, 1, &made, room, 64, &needed));
    IS_ABSENT(hayro_cmap_found_faults(&loader, NULL, 1, &made, room, 64, &needed));
    IS_ABSENT(hayro_cmap_found_faults(&loader, &fault, 1, NULL, room, 64, &needed));
    IS_ABSENT(hayro_cmap_found_faults(&loader, &fault, 1, &made, NULL, 64, &needed));
    IS_ABSENT(hayro_cmap_found_faults(&loader, &fault, 1, &made, room, 64, NULL));
    IS_ABSENT(hayro_cmap_finish(NULL, &loader, &fault, room, 64, &needed));
    IS_ABSENT(hayro_cmap_finish(&other, NULL, &fault, room, 64, &needed));
    IS_ABSENT(hayro_cmap_finish(&other, &loader, NULL, room, 64, &needed));
    IS_ABSENT(hayro_cmap_finish(&other, &loader, &fault, NULL, 64, &needed));
    IS_ABSENT(hayro_cmap_finish(&other, &loader, &fault, room, 64, NULL));
    CHECK(hayro_cmap_wanted(&loader, room, 64, &made) == HAYRO_CMAP_OK && made == 1 && room[0] == 'A');
    made = 7;
    IS_ABSENT(hayro_cmap_message(NULL, room, 64, &needed));
    CHECK(hayro_cmap_read_as(NULL, data, len) == HAYRO_CMAP_READ_AS_NOTHING);
    CHECK(hayro_cmap_read_as(&fault, NULL, len) == HAYRO_CMAP_READ_AS_NOTHING);
    IS_ABSENT(hayro_cmap_lint(NULL, data, len, false, NULL, 0, &finding, 1, &needed));
    IS_ABSENT(hayro_cmap_lint(&map, NULL, len, false, NULL, 0, &finding, 1, &needed));
    IS_ABSENT(hayro_cmap_lint(&map, data, len, false, NULL, 1, &finding, 1, &needed));
    IS_ABSENT(hayro_cmap_lint(&map, data, len, false, NULL, 0, NULL, 1, &needed));
    IS_ABSENT(hayro_cmap_lint(&map, data, len, false, NULL, 0, &finding, 1, NULL));
    IS_ABSENT(hayro_cmap_warning_name(1, NULL, 64, &needed));
    IS_ABSENT(hayro_cmap_warning_name(1, room, 64, NULL));
    IS_ABSENT(hayro_cmap_open(NULL, data, 1, &bundle, NULL, 0, HAYRO_CMAP_NO_BUDGET));
    IS_ABSENT(hayro_cmap_uses(data, len, NULL, NULL, 0, &made, room, 64, &needed));
    IS_ABSENT(hayro_cmap_bundle_open(NULL, data, len));
    IS_ABSENT(hayro_cmap_bundle_share(&bundle, NULL));
    IS_ABSENT(hayro_cmap_bundle_share(NULL, &copy));
    IS_ABSENT(hayro_cmap_bundle_file(NULL, data, 1, room, 64, &needed));
    IS_ABSENT(hayro_cmap_identity(NULL, true));
    IS_ABSENT(hayro_cmap_share(&map, NULL));
    IS_ABSENT(hayro_cmap_share(NULL, &other));
    CHECK(other.full && !memcmp(&fault, &before, sizeof fault));
    CHECK(!hayro_cmap_cid(NULL, 0x41, 1, &cid) && !hayro_cmap_cid(&map, 0x41, 1, NULL));
    CHECK(!hayro_cmap_cid_strict(NULL, 0x41, 1, &cid) && !hayro_cmap_cids(NULL, 0, 1, 0, &cid, 1));
    CHECK(!hayro_cmap_cids(&map, 0, 1, 0, NULL, 1) && cid == 7);
    IS_ABSENT(hayro_cmap_decode(NULL, data, len, &code, 1, &made, &taken));
    IS_ABSENT(hayro_cmap_decode(&map, data, len, &code, 1, &made, NULL));
    IS_ABSENT(hayro_cmap_extract(&map, NULL, &other, data, len, &character, 1, room, 64, &extracted));
    CHECK(extracted.made == 7 && made == 7 && taken == 7);
    IS_ABSENT(hayro_cmap_text(NULL, 0x41, room, 64, &needed));
    IS_ABSENT(hayro_cmap_text(&map, 0x41, NULL, 64, &needed));
    IS_ABSENT(hayro_cmap_name(NULL, room, 64, &needed));
    IS_ABSENT(hayro_cmap_registry(NULL, room, 64, &needed));
    IS_ABSENT(hayro_cmap_ordering(NULL, room, 64, &needed));
    IS_ABSENT(hayro_cmap_layer_name(NULL, 0, room, 64, &needed));
    IS_ABSENT(hayro_cmap_layer_registry(NULL, 0, room, 64, &needed));
    IS_ABSENT(hayro_cmap_layer_ordering(NULL, 0, room, 64, &needed));
    CHECK(!hayro_cmap_supplement(NULL, &supplement) && !hayro_cmap_layer_supplement(NULL, 0, &supplement));
    CHECK(hayro_cmap_writing_mode(NULL) == HAYRO_CMAP_NO_MODE && hayro_cmap_layers(NULL) == 0);
    CHECK(hayro_cmap_layer_writing_mode(NULL, 0) == HAYRO_CMAP_NO_MODE);
    IS_ABSENT(hayro_cmap_codespaces(NULL, 0, NULL, 0, &needed));
    IS_ABSENT(hayro_cmap_cid_ranges(NULL, 0, 1, NULL, 0, &needed));
    IS_ABSENT(hayro_cmap_notdef_ranges(NULL, 0, 1, NULL, 0, &needed));
    IS_ABSENT(hayro_cmap_text_ranges(NULL, 0, NULL, 0, &needed));
    IS_ABSENT(hayro_cmap_text_units(NULL, 0, 0, units, 4, &needed));
    IS_ABSENT(hayro_cmap_codes_of_cid(NULL, 1, 1, NULL, 0, &needed));
    IS_ABSENT(hayro_cmap_make(NULL, NULL, 0, room, 64, &needed));
    IS_ABSENT(hayro_cmap_write(NULL, NULL, 0, room, 64, &needed));
    IS_ABSENT(hayro_cmap_encoder_build(NULL, &map, &other, &(hayro_cmap)HAYRO_CMAP_EMPTY));
    IS_ABSENT(hayro_cmap_encoder_build_with(&twin, &map, &other, &(hayro_cmap)HAYRO_CMAP_EMPTY, NULL, false));
    IS_ABSENT(hayro_cmap_encoder_share(NULL, &twin));
    IS_ABSENT(hayro_cmap_encode(NULL, data, 1, room, 64, &needed, &made));
    IS_ABSENT(hayro_cmap_encode_lossy(&encoder, data, 1, NULL, 1, room, 64, &needed));
    IS_ABSENT(hayro_cmap_encode_pieces(NULL, data, 1, &piece, 1, &needed, &made));
    IS_ABSENT(hayro_cmap_encode_pieces(&encoder, data, 1, NULL, 1, &needed, &made));
    IS_ABSENT(hayro_cmap_fold(NULL, 1, room, 64, &needed, &made));
    IS_ABSENT(hayro_cmap_fold(data, 1, room, 64, NULL, &made));
    IS_ABSENT(hayro_cmap_unicode_name(NULL, 1, 0, room, 64, &needed));
    IS_ABSENT(hayro_cmap_version(NULL, 64, &needed));
    CHECK(needed == 7 && made == 7 && supplement == 7);
    hayro_cmap_free(NULL);
    hayro_cmap_bundle_free(NULL);
    hayro_cmap_encoder_free(NULL);
    hayro_cmap_loader_free(NULL);

    hayro_cmap_free(&map);
    hayro_cmap_free(&other);
    hayro_cmap_encoder_free(&encoder);
    hayro_cmap_loader_free(&loader);
    puts(failed ? "failed" : "ok");
    return failed;
}
