/* Reads a file past its faults, at once and by a loader, finds what looks wrong in another file, and repeats calls for
 * which memory ran out: calls that take memory and that no example makes. If memory runs out again, it reports this,
 * with status 1. */
#include <hayro_cmap.h>
#include <stdio.h>
#include <string.h>

#define TEXT(literal) hayro_cmap_bytes(literal), sizeof(literal) - 1

/* Reads a file at fault over another file at fault, which uses a missing file. */
static hayro_cmap_status read_past_faults(hayro_cmap *map) {
    hayro_cmap_bundle none = HAYRO_CMAP_EMPTY;
    hayro_cmap_file file = {TEXT("AB"), TEXT("begincidchar <> 8 <44> 9 endcidchar /C usecmap")};
    hayro_cmap_fault faults[4];
    uint8_t room[8];
    size_t found, needed;
    hayro_cmap_status status =
        hayro_cmap_salvage(map, TEXT("/AB usecmap begincidchar <41> 5 <42> /X endcidchar"), &none, &file, 1,
                           HAYRO_CMAP_NO_BUDGET, faults, 4, &found, room, sizeof room, &needed);
    uint32_t cid;
    if (status == HAYRO_CMAP_OK && hayro_cmap_cid(map, 0x41, 1, &cid)) printf("%zu faults, CID %u\n", found, cid);
    return status;
}

/* Finds what looks wrong in a file: it has no codespace range, its range crosses a row, and its name is for vertical
 * writing. */
static hayro_cmap_status find_warnings(hayro_cmap *map) {
    hayro_cmap_status status =
        hayro_cmap_parse(map, TEXT("/CMapName /A-V def begincidrange <01F0> <0210> 5 endcidrange"), TEXT(""),
                         hayro_cmap_files(NULL), 0, HAYRO_CMAP_NO_BUDGET);
    if (status != HAYRO_CMAP_OK) return status;
    hayro_cmap_finding found[3];
    size_t needed;
    status = hayro_cmap_lint(map, TEXT(""), false, hayro_cmap_shown(NULL), 0, found, 3, &needed);
    if (status == HAYRO_CMAP_OK) printf("%zu warnings\n", needed);
    return status;
}

/* The faults and the CID of a file that is loaded past its faults. A call for which memory ran out is repeated once: it
 * then gives what it would have given. */
static hayro_cmap_status load_past_faults(hayro_cmap *map, hayro_cmap_loader *loader) {
    hayro_cmap_bundle none = HAYRO_CMAP_EMPTY;
    hayro_cmap_fault fault, faults[4];
    uint8_t name[2], room[8];
    size_t len, found, needed;
    uint32_t cid;
    hayro_cmap_status status = hayro_cmap_load_past_faults(
        loader, TEXT("/AB usecmap begincidchar <41> 5 <42> /X endcidchar"), &none, HAYRO_CMAP_NO_BUDGET);
    if (status != HAYRO_CMAP_OK) return status;
    for (;;) {
        status = hayro_cmap_wanted(loader, name, sizeof name, &len);
        if (status == HAYRO_CMAP_NO_MEMORY) status = hayro_cmap_wanted(loader, name, sizeof name, &len);
        if (status != HAYRO_CMAP_OK) break;
        uint32_t has = len == 2 && memcmp(name, "AB", 2) == 0;
        status = hayro_cmap_supply(loader, &none, has, TEXT("begincidchar <> 8 <44> 9 endcidchar /C usecmap"));
        if (status == HAYRO_CMAP_NO_MEMORY)
            status = hayro_cmap_supply(loader, &none, has, TEXT("begincidchar <> 8 <44> 9 endcidchar /C usecmap"));
        if (status != HAYRO_CMAP_OK) return status;
    }
    if (status != HAYRO_CMAP_ABSENT) return status;
    status = hayro_cmap_found_faults(loader, faults, 4, &found, room, sizeof room, &needed);
    if (status == HAYRO_CMAP_NO_MEMORY)
        status = hayro_cmap_found_faults(loader, faults, 4, &found, room, sizeof room, &needed);
    if (status == HAYRO_CMAP_OK) status = hayro_cmap_finish(map, loader, &fault, room, sizeof room, &needed);
    if (status == HAYRO_CMAP_OK && hayro_cmap_cid(map, 0x41, 1, &cid)) printf("%zu faults, CID %u\n", found, cid);
    return status;
}

/* Supplies the file AB. If memory runs out, the file is still wanted, and is supplied once more. */
static hayro_cmap_status supply_file(hayro_cmap_loader *loader) {
    hayro_cmap_bundle none = HAYRO_CMAP_EMPTY;
    hayro_cmap_status status = HAYRO_CMAP_NO_MEMORY;
    for (int count = 0; count < 2 && status == HAYRO_CMAP_NO_MEMORY; count++) {
        uint8_t name[2];
        size_t len = 0;
        if (hayro_cmap_wanted(loader, name, sizeof name, &len) != HAYRO_CMAP_OK || memcmp(name, "AB", 2) != 0)
            return HAYRO_CMAP_ABSENT;
        status = hayro_cmap_supply(loader, &none, 1, TEXT("begincidchar <41> 7 endcidchar"));
    }
    return status;
}

/* Loads a file over the file AB. */
static hayro_cmap_status load_file(hayro_cmap *map, hayro_cmap_loader *loader) {
    hayro_cmap_bundle none = HAYRO_CMAP_EMPTY;
    hayro_cmap_fault fault;
    uint8_t room[2];
    size_t needed;
    hayro_cmap_status status = hayro_cmap_load(loader, TEXT("/AB usecmap"), &none, HAYRO_CMAP_NO_BUDGET);
    if (status == HAYRO_CMAP_OK) status = supply_file(loader);
    if (status == HAYRO_CMAP_OK) status = hayro_cmap_finish(map, loader, &fault, room, sizeof room, &needed);
    uint32_t cid;
    if (status == HAYRO_CMAP_OK && hayro_cmap_cid(map, 0x41, 1, &cid)) printf("CID %u\n", cid);
    return status;
}

int main(void) {
    hayro_cmap map = HAYRO_CMAP_EMPTY;
    hayro_cmap_loader loader = HAYRO_CMAP_EMPTY;
    hayro_cmap_status status = read_past_faults(&map);
    if (status == HAYRO_CMAP_OK) status = find_warnings(&map);
    if (status == HAYRO_CMAP_OK) status = load_file(&map, &loader);
    if (status == HAYRO_CMAP_OK) status = load_past_faults(&map, &loader);
    hayro_cmap_loader_free(&loader);
    hayro_cmap_free(&map);
    if (status == HAYRO_CMAP_OK) return 0;
    fputs(status == HAYRO_CMAP_NO_MEMORY ? "no memory\n" : "another status\n", stderr);
    return status == HAYRO_CMAP_NO_MEMORY ? 1 : 2;
}
