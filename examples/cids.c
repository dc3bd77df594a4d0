/* Prints the codes of a string with their CIDs, by the CMap file on the standard input. */
#include <hayro_cmap.h>
#include <stdio.h>

static uint8_t file[1 << 20];

int main(void) {
    const uint8_t string[] = {0x93, 0xFA, 0x96, 0x7B, 0x8C, 0xEA};
    size_t len = fread(file, 1, sizeof file, stdin);
    hayro_cmap map = HAYRO_CMAP_EMPTY;
    if (hayro_cmap_parse(&map, file, len, hayro_cmap_bytes(NULL), 0, hayro_cmap_files(NULL), 0,
                         HAYRO_CMAP_NO_BUDGET) != HAYRO_CMAP_OK)
        return 1;
    hayro_cmap_code codes[sizeof string];
    size_t made, taken;
    hayro_cmap_decode(&map, string, sizeof string, codes, sizeof string, &made, &taken);
    for (size_t i = 0; i < made; i++) printf("%X %u\n", codes[i].code, codes[i].cid);
    hayro_cmap_free(&map);
    return 0;
}
