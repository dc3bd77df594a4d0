/* Makes the ToUnicode CMap of a font that has some glyphs of another one.
 *
 *     to_unicode CODE=TEXT..
 *
 * It prints a CMap file by which each code of two bytes, in hexadecimal digits, has its text, such as for
 * `to_unicode 1=R 2=é 3=s 4=ffi`. Texts are in UTF-8. */
#include <hayro_cmap.h>
#include <stdio.h>
#include <stdlib.h>
#include <string.h>

static _Noreturn void fail(const char *why) {
    fprintf(stderr, "to_unicode: %s\n", why);
    exit(1);
}

static void *allocated(size_t len) {
    void *bytes = malloc(len + 1);
    if (!bytes) fail("out of memory");
    return bytes;
}

static hayro_cmap_declaration declaration(uint16_t kind, uint32_t first, uint32_t last, const char *text) {
    hayro_cmap_declaration made = {
        kind, 2, first, last, 0, hayro_cmap_bytes(text), text ? strlen(text) : 0};
    return made;
}

/* The declaration of a word, such as 2=é. */
static hayro_cmap_declaration text_of(const char *word) {
    char *end;
    unsigned long code = strtoul(word, &end, 16);
    if (end == word || *end != '=' || code > 0xFFFF) fail("CODE=TEXT was expected");
    return declaration(HAYRO_CMAP_TEXT_RANGE, (uint32_t)code, (uint32_t)code, end + 1);
}

int main(int words, char **word) {
    size_t len = (size_t)words;
    hayro_cmap_declaration *declarations = allocated(len * sizeof *declarations);
    declarations[0] = declaration(HAYRO_CMAP_CODESPACE_RANGE, 0, 0xFFFF, NULL);
    for (size_t i = 1; i < len; i++) declarations[i] = text_of(word[i]);
    const uint8_t *name = hayro_cmap_bytes("Adobe-Identity-UCS"), *registry = hayro_cmap_bytes("Adobe"),
                  *ordering = hayro_cmap_bytes("UCS");
    hayro_cmap_facts facts = {name, 18, registry, 5, ordering, 3, 0, 1, 1, HAYRO_CMAP_NO_MODE};
    size_t needed = 0;
    hayro_cmap_status status =
        hayro_cmap_make(&facts, declarations, len, hayro_cmap_room(NULL), 0, &needed);
    uint8_t *room = allocated(needed);
    if (status == HAYRO_CMAP_NO_ROOM)
        status = hayro_cmap_make(&facts, declarations, len, room, needed, &needed);
    if (status == HAYRO_CMAP_NO_MEMORY) fail("out of memory");
    if (status != HAYRO_CMAP_OK) fail("a text is empty or isn't UTF-8");
    fwrite(room, 1, needed, stdout);
    free(room);
    free(declarations);
}
