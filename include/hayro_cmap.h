/* CMap files map the character codes of a composite font to CIDs and to Unicode text.
 *
 *     hayro_cmap map = HAYRO_CMAP_EMPTY;
 *     uint32_t cid;
 *     if (hayro_cmap_parse(&map, data, data_len, hayro_cmap_bytes(NULL), 0,
 *                          hayro_cmap_files(NULL), 0, HAYRO_CMAP_NO_BUDGET) == HAYRO_CMAP_OK
 *         && hayro_cmap_cid(&map, 0x3042, 2, &cid))
 *         printf("%u\n", cid);
 *     hayro_cmap_free(&map);
 *
 * The library is one of two builds of the same sources; `pkg-config --variable=build hayro_cmap` prints
 * which one. In the build `proved`, every call is proved to return on any bytes, and docs/PROVED.md lists
 * what is proved of its answers. In the build `plain`, of plain Rust, the same is tested.
 *
 * The caller must keep these rules. Nothing checks them, except null pointers in the plain library:
 *
 * - A handle of a map, a bundle, an encoder or a loader begins as HAYRO_CMAP_EMPTY, and only the calls below
 *   change it. Other values, such as a `full` that is neither 0 nor 1, are undefined behaviour. A handle isn't
 *   copied: two copies would free one map twice. It may be moved to another place in memory, between
 *   calls, if the old place is never used again, or is set to HAYRO_CMAP_EMPTY.
 * - One call at a time uses a handle: even a lookup in a map, reading a file over a bundle, or encoding a
 *   text counts as a write to the handle, though not to the map, the bundle or the encoder. Any number of
 *   threads may use one map, bundle or encoder at once, each through a handle of its own, which
 *   hayro_cmap_share, hayro_cmap_bundle_share and hayro_cmap_encoder_share make. A loader has one handle. A
 *   handle may move to another thread if a lock, or the start or the join of a thread, orders the calls.
 * - No pointer is null, not even with the length 0; this includes pointers in a hayro_cmap_file, a
 *   hayro_cmap_declaration and a hayro_cmap_facts. If a pointer may be null, hayro_cmap_bytes,
 *   hayro_cmap_files, hayro_cmap_room, hayro_cmap_declarations, hayro_cmap_chosen and hayro_cmap_shown
 *   replace it.
 *   In the proved library a null pointer is undefined behaviour; the plain one checks for it. With the
 *   length 0, and in a hayro_cmap_file, a hayro_cmap_declaration or a hayro_cmap_facts with any length, null
 *   then stands for no items. For any other null pointer the call writes nothing, and gives
 *   HAYRO_CMAP_ABSENT, false, 0 or HAYRO_CMAP_NO_MODE by its type.
 *   Each pointer points to as many items as its length, aligned as their type requires; together they
 *   have at most PTRDIFF_MAX bytes.
 * - A buffer, and the target of a pointer to which a call only writes (`cid`, `supplement`, `needed`,
 *   `offset`, `made`, `taken`, `found` of hayro_cmap_salvage and hayro_cmap_found_faults, `names`,
 *   `extracted`, and `fault` of hayro_cmap_explain and hayro_cmap_finish), may hold anything, such as an
 *   uninitialised variable or a fresh block of malloc: no answer depends on it.
 *   Places that a call doesn't write stay as they are.
 * - If a call writes to the target of one parameter, this target doesn't overlap the target of another
 *   one. The bytes of a file, of a bundle and of names are read only during the call, and nobody writes to
 *   them meanwhile. After the call they need not stay.
 * - Each handle that isn't empty is freed once, or memory is lost. Freeing an empty handle does nothing.
 * - malloc, realloc and free come from one allocator, which aligns blocks as C requires.
 * - No call is made from a signal handler, nor in the forked child of a process with threads. */
#ifndef HAYRO_CMAP_H
#define HAYRO_CMAP_H

#include <stdbool.h>
#include <stddef.h>
#include <stdint.h>

#ifdef __cplusplus
extern "C" {
#endif

/* The version of this header; hayro_cmap_version gives the version of the library. */
#define HAYRO_CMAP_VERSION "1.0.0"
/* The first number of the version. */
#define HAYRO_CMAP_VERSION_MAJOR 1
/* The second number of the version. */
#define HAYRO_CMAP_VERSION_MINOR 0
/* The third number of the version. */
#define HAYRO_CMAP_VERSION_PATCH 0

/* A map, or none. */
typedef struct hayro_cmap {
    bool full;
    void *map;
} hayro_cmap;

/* A bundle, or none: predefined CMap files, which other files use by name, and the tables of the binary
 * form. */
typedef struct hayro_cmap_bundle {
    bool full;
    void *bundle;
} hayro_cmap_bundle;

/* An encoder of a font, or none: it finds the string of codes for a text. */
typedef struct hayro_cmap_encoder {
    bool full;
    void *encoder;
} hayro_cmap_encoder;

/* A loader, or none: it reads a file over files that the caller looks up. */
typedef struct hayro_cmap_loader {
    bool full;
    void *loader;
} hayro_cmap_loader;

/* A handle without a map, a bundle, an encoder or a loader. */
#define HAYRO_CMAP_EMPTY {false, NULL}

/* A file and the name by which other files use it. */
typedef struct hayro_cmap_file {
    const uint8_t *name;
    size_t name_len;
    const uint8_t *bytes;
    size_t bytes_len;
} hayro_cmap_file;

/* A code of a string, with its CID. */
typedef struct hayro_cmap_code {
    uint32_t code;        /* the number of its bytes, big-endian */
    uint32_t cid;         /* its CID, or 0 if it has none */
    uint8_t byte_len;     /* how many bytes it has, 1 to 4 */
    uint8_t in_codespace; /* 1 if it lies in a codespace range, else 0 */
    uint8_t has_cid;      /* 1 if it has a CID, else 0 */
    uint8_t cut_short;    /* 1 if the string ends before the code does, else 0 */
} hayro_cmap_code;

/* A code of a string, with its CID and its text. */
typedef struct hayro_cmap_character {
    hayro_cmap_code code; /* the code, and the CID that the map declares for it */
    uint32_t has_text;    /* 1 if it has a text, else 0 */
    size_t text_start;    /* the offset of its text in the buffer for texts */
    size_t text_len;      /* how many bytes its text has in UTF-8; 0 if it has none */
} hayro_cmap_character;

/* How far a string is extracted. */
typedef struct hayro_cmap_extracted {
    size_t made;  /* how many codes are written */
    size_t taken; /* how many bytes of the string these codes have */
    size_t used;  /* how many bytes their texts have in UTF-8 */
} hayro_cmap_extracted;

/* A codespace range: codes of `byte_len` bytes, each byte between the bytes of `low` and `high` at its place. */
typedef struct hayro_cmap_codespace {
    uint32_t low;
    uint32_t high;
    uint32_t byte_len; /* how many bytes the codes have, 1 to 4 */
} hayro_cmap_codespace;

/* A declaration of CIDs for the codes from `first` to `last`; for none if `first` is greater. */
typedef struct hayro_cmap_cid_range {
    uint32_t first;
    uint32_t last;
    uint32_t cid; /* the CID of `first` */
} hayro_cmap_cid_range;

/* A declaration of texts for the codes from `first` to `last`; for none if `first` is greater. */
typedef struct hayro_cmap_text_range {
    uint32_t first;
    uint32_t last;
    size_t units; /* how many units of UTF-16 the text of `first` has */
} hayro_cmap_text_range;

/* The codes from `first` to `last`. */
typedef struct hayro_cmap_code_range {
    uint32_t first;
    uint32_t last;
} hayro_cmap_code_range;

/* How well a code stands for a piece of a text, best first. */
typedef enum hayro_cmap_grade {
    HAYRO_CMAP_GRADE_STATED = 0,     /* the ToUnicode CMap has the piece as the text of the code */
    HAYRO_CMAP_GRADE_CANONICAL = 1,  /* the code has the CID that the map from Unicode gives to the character */
    HAYRO_CMAP_GRADE_COLLECTION = 2, /* the map of the collection has the piece as the text of the code's CID */
    HAYRO_CMAP_GRADE_ALIKE = 3,      /* the code shows a text that looks or means the same; or a variation
                                        selector gets no code */
    HAYRO_CMAP_GRADE_NATIONAL = 4    /* the code is the byte of an ASCII character that a national version
                                        of ISO 646 shows as another character */
} hayro_cmap_grade;

/* A piece of a text, and its code in the string. */
typedef struct hayro_cmap_piece {
    size_t text_len;   /* how many bytes the piece has in UTF-8 */
    uint32_t code_len; /* how many bytes its code has, 1 to 4; 0 for a variation selector without a code */
    uint32_t grade;    /* a hayro_cmap_grade */
} hayro_cmap_piece;

/* The codes from `first` to `last`, of `byte_len` bytes. */
typedef struct hayro_cmap_codes {
    uint32_t first;
    uint32_t last;
    uint32_t byte_len; /* how many bytes the codes have, 1 to 4 */
} hayro_cmap_codes;

/* What a declaration gives its codes. */
typedef enum hayro_cmap_kind {
    HAYRO_CMAP_CODESPACE_RANGE = 0, /* a codespace range: each byte between the bytes of `first` and `last` */
    HAYRO_CMAP_CID_RANGE = 1,       /* CIDs, which count on from `cid` */
    HAYRO_CMAP_NOTDEF_RANGE = 2,    /* the CID `cid` for each code that has no other */
    HAYRO_CMAP_TEXT_RANGE = 3       /* texts, whose last unit of UTF-16 counts on from the last one of `text` */
} hayro_cmap_kind;

/* A declaration of a file that is made, for the codes from `first` to `last`; for none if `first` is
 * greater. */
typedef struct hayro_cmap_declaration {
    uint16_t kind;     /* a hayro_cmap_kind */
    uint16_t byte_len; /* how many bytes the codes have, 1 to 4 */
    uint32_t first;
    uint32_t last;
    uint32_t cid;        /* the CID of `first`, or for a notdef of all codes; ignored for other kinds */
    const uint8_t *text; /* the text of `first`, in UTF-8; ignored for other kinds */
    size_t text_len;
} hayro_cmap_declaration;

/* The metadata of a file that is made. */
typedef struct hayro_cmap_facts {
    const uint8_t *name; /* its name, such as UniJIS-UTF16-H */
    size_t name_len;
    const uint8_t *registry; /* the registry of its character collection, such as Adobe */
    size_t registry_len;
    const uint8_t *ordering; /* the ordering of the collection, such as Japan1 */
    size_t ordering_len;
    int32_t supplement;
    uint8_t has_name;       /* 0 if it has no name */
    uint8_t has_collection; /* 0 if it has no character collection */
    uint16_t writing_mode;  /* a hayro_cmap_mode; any other number stands for HAYRO_CMAP_NO_MODE */
} hayro_cmap_facts;

/* How a call ends. It is an int of 32 bits. */
typedef enum hayro_cmap_status {
    HAYRO_CMAP_OK = 0,           /* there is an answer, and it is written */
    HAYRO_CMAP_REFUSED = 1,      /* the file, or one that it uses, is outside the grammar or missing;
                                    or no file can express the answer; or the text can't be encoded */
    HAYRO_CMAP_NO_MEMORY = 2,    /* out of memory: an allocation failed */
    HAYRO_CMAP_OVER_BUDGET = 3,  /* the opened files have more bytes than the budget */
    HAYRO_CMAP_NOT_A_BUNDLE = 4, /* the bundle is invalid */
    HAYRO_CMAP_ABSENT = 5,       /* there is no answer */
    HAYRO_CMAP_NO_ROOM = 6       /* the answer is longer than its buffer */
} hayro_cmap_status;

/* What a caller of hayro_cmap_supply has of the wanted file. */
typedef enum hayro_cmap_supplied {
    HAYRO_CMAP_ELSEWHERE = 0, /* nothing: the file of the bundle counts, otherwise Identity-H and Identity-V
                                 need no file */
    HAYRO_CMAP_GIVEN = 1,     /* its bytes */
    HAYRO_CMAP_NOWHERE = 2    /* nothing, and no file has the name; any other number stands for this one */
} hayro_cmap_supplied;

/* The writing mode that a file gives. */
typedef enum hayro_cmap_mode {
    HAYRO_CMAP_HORIZONTAL = 0,
    HAYRO_CMAP_VERTICAL = 1,
    HAYRO_CMAP_NO_MODE = 2 /* the file gives none, or there is no map */
} hayro_cmap_mode;

/* The cause of a refusal: what is wrong with the file at fault. */
typedef enum hayro_cmap_cause {
    HAYRO_CMAP_MALFORMED = 1,    /* it is outside the grammar */
    HAYRO_CMAP_NO_FILE = 2,      /* no file has its name */
    HAYRO_CMAP_CHAIN_LENGTH = 3, /* it would be the seventeenth of a chain */
    HAYRO_CMAP_PAST_BUDGET = 4   /* it has more bytes than are left of the budget */
} hayro_cmap_cause;

/* What is wrong at the place where reading a malformed file stopped. No reason has the number 1. */
typedef enum hayro_cmap_reason {
    HAYRO_CMAP_NO_REASON = 0,
    HAYRO_CMAP_END_WITHIN_SECTION = 2, /* the file ends within a section */
    HAYRO_CMAP_CODE_EXPECTED = 3,      /* another token than a code */
    HAYRO_CMAP_CODE_LENGTH = 4,        /* a code of no or of more than four bytes */
    HAYRO_CMAP_UNEQUAL_LENGTHS = 5,    /* the ends of a codespace range have unequal lengths */
    HAYRO_CMAP_CID_EXPECTED = 6,       /* another token than a CID */
    HAYRO_CMAP_TEXT_EXPECTED = 7,      /* another token than the text of a code */
    HAYRO_CMAP_BRACKET_EXPECTED = 8,   /* another token than the ] after the texts of a range */
    HAYRO_CMAP_USE_WITHOUT_NAME = 9,   /* usecmap without a name before it */
    HAYRO_CMAP_HEADER = 10,            /* no whole binary file of version 1 */
    HAYRO_CMAP_SEGMENT_LENGTH = 11,    /* the last segment of a binary file is cut short */
    HAYRO_CMAP_SEGMENT_TYPE = 12,      /* a segment of an unknown type */
    HAYRO_CMAP_FIELD = 13,             /* a field of a segment is cut short */
    HAYRO_CMAP_ENTRY = 14,             /* an entry of a segment is cut short */
    HAYRO_CMAP_CODE_TOO_LARGE = 15,    /* a code of an entry of a segment passes 32 bits */
    HAYRO_CMAP_CID_TOO_LARGE = 16,     /* a CID of a binary file passes 32 bits */
    HAYRO_CMAP_UNCLOSED_STRING = 17,   /* a string isn't closed */
    HAYRO_CMAP_WRONG_DIGIT = 18,       /* a hexadecimal string has a byte that is no digit */
    HAYRO_CMAP_STRAY_DELIMITER = 19    /* a ) or > stands alone */
} hayro_cmap_reason;

/* A segment of a binary file, by what it holds. */
typedef enum hayro_cmap_segment {
    HAYRO_CMAP_NO_SEGMENT = 0,
    HAYRO_CMAP_CIDS = 1,
    HAYRO_CMAP_TEXTS = 2,
    HAYRO_CMAP_NOTDEFS = 3,
    HAYRO_CMAP_MODE = 4,
    HAYRO_CMAP_CODESPACES = 5,
    HAYRO_CMAP_COLLECTION = 6
} hayro_cmap_segment;

/* The most names that lead to a file at fault. */
#define HAYRO_CMAP_MOST_NAMES 16

/* Why a file gives no map. */
typedef struct hayro_cmap_fault {
    uint32_t cause;   /* a hayro_cmap_cause */
    uint16_t reason;  /* for a malformed file a hayro_cmap_reason, else 0 */
    uint16_t segment; /* with the reasons 13 to 15 a hayro_cmap_segment, else 0 */
    size_t offset;    /* for a malformed file where reading stopped, in bytes; else 0 */
    size_t names;     /* how many names lead to the file at fault; 0 for the file itself */
    size_t name_lens[HAYRO_CMAP_MOST_NAMES]; /* how many bytes each of them has; the others are 0 */
} hayro_cmap_fault;

/* What a part at fault is read as, if a text is read past its faults. */
typedef enum hayro_cmap_reading {
    HAYRO_CMAP_READ_AS_NOTHING = 0,      /* it is lost, or the bytes before the fault don't show what it is read as */
    HAYRO_CMAP_READ_AS_EMPTY_TEXT = 1,   /* an empty string as the empty text: its code has no text */
    HAYRO_CMAP_READ_AS_EXTENDED_CODE = 2 /* a longer second code as the end of a codespace range whose first code has
                                            leading bytes 0 */
} hayro_cmap_reading;

/* What can look wrong in a file that has a map. hayro_cmap_warning_name gives the name of a warning, as in
 * `cmap check --lint`. */
typedef enum hayro_cmap_warning {
    HAYRO_CMAP_WARNING_NOTHING_DECLARED = 0,       /* no codespace range, no declaration, no other file */
    HAYRO_CMAP_WARNING_NO_CODESPACE = 1,           /* no layer has a codespace range */
    HAYRO_CMAP_WARNING_OUTSIDE_CODESPACE = 2,      /* codes with a CID or a notdef in no codespace range */
    HAYRO_CMAP_WARNING_OVERLAP = 3,                /* codes with two declarations of one kind that disagree */
    HAYRO_CMAP_WARNING_INVERTED_RANGE = 4,         /* declarations with the first code above the last */
    HAYRO_CMAP_WARNING_CROSSES_ROW = 5,            /* ranges whose ends differ in another byte than the last */
    HAYRO_CMAP_WARNING_LAST_BYTE = 6,              /* texts of a range whose last byte counts on past 255 */
    HAYRO_CMAP_WARNING_NO_TEXT = 7,                /* declarations of texts that give none for a code */
    HAYRO_CMAP_WARNING_PRIVATE_USE = 8,            /* texts with characters for private use */
    HAYRO_CMAP_WARNING_NONCHARACTER = 9,           /* texts with noncharacters */
    HAYRO_CMAP_WARNING_REPLACEMENT_CHARACTER = 10, /* texts with U+FFFD */
    HAYRO_CMAP_WARNING_NULL_CHARACTER = 11,        /* texts with U+0000 */
    HAYRO_CMAP_WARNING_NO_MAPPING = 12,            /* codes of one or two bytes without a text */
    HAYRO_CMAP_WARNING_NAME_DIFFERS = 13,          /* a name that isn't the file's name; never found here */
    HAYRO_CMAP_WARNING_MODE_DIFFERS = 14,          /* a name in -V, and the writing mode isn't vertical */
    HAYRO_CMAP_WARNING_COUNT_DIFFERS = 15,         /* sections with a wrong number of entries before them */
    HAYRO_CMAP_WARNING_LONG_SECTION = 16,          /* sections with more than 100 entries */
    HAYRO_CMAP_WARNING_NO_ENDCMAP = 17,            /* no endcmap after begincmap */
    HAYRO_CMAP_WARNING_CODE_LENGTH = 18,           /* codes of a length that no codespace range has */
    HAYRO_CMAP_WARNING_ODD_DIGITS = 19,            /* hexadecimal strings with an odd number of digits */
    HAYRO_CMAP_WARNING_ODD_TEXT = 20               /* destinations with an odd number of bytes */
} hayro_cmap_warning;

/* The first place that a warning concerns. */
typedef enum hayro_cmap_place {
    HAYRO_CMAP_IN_FILE = 0,  /* in the file as a whole */
    HAYRO_CMAP_AT_CODE = 1,  /* at the code `first` */
    HAYRO_CMAP_AT_RANGE = 2, /* at a declaration for the codes from `first` to `last` */
    HAYRO_CMAP_AT_NAME = 3,  /* at the name that the file gives itself */
    HAYRO_CMAP_AT_OFFSET = 4 /* at the byte at `offset` */
} hayro_cmap_place;

/* A warning about a file, with the codes or places that it concerns. */
typedef struct hayro_cmap_finding {
    uint64_t count;       /* how many codes, declarations, sections or strings; 1 for the file */
    size_t shown;         /* how many of the shown codes */
    size_t offset;        /* at an offset: where the first section or string begins, in bytes; else 0 */
    uint32_t warning;     /* a hayro_cmap_warning */
    uint32_t place;       /* a hayro_cmap_place */
    uint32_t first;       /* at a code or a range; else 0 */
    uint32_t last;        /* the same; at a code it is `first` */
    uint32_t byte_len;    /* at a code or a range: how many bytes its codes have, 1 to 4; else 0 */
    uint32_t first_shown; /* the lowest of the shown codes; 0 if `shown` is 0 */
} hayro_cmap_finding;

/* Casts a pointer to a type, without a warning of C++ compilers about C casts. */
#ifdef __cplusplus
#define HAYRO_CMAP_AS(type, pointer) static_cast<type>(pointer)
#else
#define HAYRO_CMAP_AS(type, pointer) ((type)(pointer))
#endif

/* The pointer to bytes itself; if it is null, a pointer for use with the length 0. */
static inline const uint8_t *hayro_cmap_bytes(const void *bytes) {
    static const uint8_t none = 0;
    return bytes ? HAYRO_CMAP_AS(const uint8_t *, bytes) : &none;
}

/* The same for files. */
static inline const hayro_cmap_file *hayro_cmap_files(const hayro_cmap_file *files) {
    static const hayro_cmap_file none = {NULL, 0, NULL, 0};
    return files ? files : &none;
}

/* The same for declarations. */
static inline const hayro_cmap_declaration *
hayro_cmap_declarations(const hayro_cmap_declaration *declarations) {
    static const hayro_cmap_declaration none = {0, 0, 0, 0, 0, NULL, 0};
    return declarations ? declarations : &none;
}

/* The same for the codes of hayro_cmap_write. */
static inline const hayro_cmap_codes *hayro_cmap_chosen(const hayro_cmap_codes *codes) {
    static const hayro_cmap_codes none = {0, 0, 0};
    return codes ? codes : &none;
}

/* The same for the shown codes of hayro_cmap_lint. */
static inline const uint32_t *hayro_cmap_shown(const uint32_t *codes) {
    static const uint32_t none = 0;
    return codes ? codes : &none;
}

/* The same for a buffer. */
static inline uint8_t *hayro_cmap_room(void *room) {
    static uint8_t none;
    return room ? HAYRO_CMAP_AS(uint8_t *, room) : &none;
}

#undef HAYRO_CMAP_AS

/* No budget. */
#define HAYRO_CMAP_NO_BUDGET UINT64_MAX

/* Reads the CMap file `data`, a text or, with a bundle, also a binary file.
 *
 * A used file is the first of `files` with the name, otherwise the file of the bundle; Identity-H and
 * Identity-V need no file. The file is refused if it or a file that it uses is outside the grammar, if a
 * use has no file, and if the sixteenth file of a chain uses another one. A bundle of the length 0 means no
 * bundle.
 *
 * The opened files together may have at most `budget` bytes: `data`, and each file that is used, as often
 * as it is used. Files of the bundle count only if they are used. If no file has their names, Identity-H
 * and Identity-V count 177 bytes each.
 *
 * The map that the handle held is freed. With HAYRO_CMAP_OK the handle has the new map, else it is empty.
 * The status is one of the first five of hayro_cmap_status. */
hayro_cmap_status hayro_cmap_parse(hayro_cmap *map, const uint8_t *data, size_t data_len,
                                   const uint8_t *bundle, size_t bundle_len,
                                   const hayro_cmap_file *files, size_t files_len,
                                   uint64_t budget);

/* Reads the CMap file `data` as hayro_cmap_parse does, over an open bundle; an empty handle stands for no
 * bundle. The status is one of the first four of hayro_cmap_status. */
hayro_cmap_status hayro_cmap_parse_over(hayro_cmap *map, const uint8_t *data, size_t data_len,
                                        hayro_cmap_bundle *bundle,
                                        const hayro_cmap_file *files, size_t files_len,
                                        uint64_t budget);

/* Reads the CMap file `data` as hayro_cmap_parse_over does, and reports why there is no map.
 *
 * With HAYRO_CMAP_REFUSED and HAYRO_CMAP_OVER_BUDGET `fault` is the reason. The names that lead to the file
 * at fault, each used by the file before it, are written to `room` one after another, whole or not at
 * all; `fault` has their lengths, and `needed` is their number of bytes, which exceeds `room_len` if they
 * aren't written. With other statuses nothing is written. If a text is malformed before its end, no text
 * that begins with the same bytes, up to and including the one at `offset`, is a CMap file. */
hayro_cmap_status hayro_cmap_explain(hayro_cmap *map, const uint8_t *data, size_t data_len,
                                     hayro_cmap_bundle *bundle,
                                     const hayro_cmap_file *files, size_t files_len,
                                     uint64_t budget, hayro_cmap_fault *fault,
                                     uint8_t *room, size_t room_len, size_t *needed);

/* Begins to read the CMap file `data` over files that the caller looks up, such as over a network. A loop
 * supplies each file that is wanted; hayro_cmap_finish then gives the map:
 *
 *     while (hayro_cmap_wanted(&loader, name, sizeof name, &name_len) == HAYRO_CMAP_OK) {
 *         bool found = look_up(name, name_len, &file, &file_len);
 *         if (hayro_cmap_supply(&loader, &bundle, found, file, file_len) != HAYRO_CMAP_OK) break;
 *     }
 *
 * Each name is wanted once, however often it is used, and each file is parsed once. Names are wanted in the
 * order in which the files are opened: a file before the files that it uses, and no name after a fault. A name
 * that the bundle has is wanted too, and so are Identity-H and Identity-V. The budget is the same as for
 * hayro_cmap_parse.
 *
 * The loader keeps no bytes of the caller, and no bundle: binary files are read by the tables of `bundle`, which
 * must be the same bundle, or none, at each call for a loader. The loader that the handle held is freed. With
 * HAYRO_CMAP_OK the handle has the new one, even if the file is malformed, which hayro_cmap_finish reports. The
 * other status is HAYRO_CMAP_NO_MEMORY, and the handle is empty. */
hayro_cmap_status hayro_cmap_load(hayro_cmap_loader *loader, const uint8_t *data, size_t data_len,
                                  hayro_cmap_bundle *bundle, uint64_t budget);

/* Begins to read the CMap file `data` as hayro_cmap_load does, and reads it, and the files that it uses, past their
 * faults. hayro_cmap_finish then gives the map of hayro_cmap_salvage over the supplied files, and
 * hayro_cmap_found_faults the faults. Names are wanted after a fault too, but none after a chain that is too long. */
hayro_cmap_status hayro_cmap_load_past_faults(hayro_cmap_loader *loader, const uint8_t *data, size_t data_len,
                                              hayro_cmap_bundle *bundle, uint64_t budget);

/* The name of the file that is wanted next, written like the text of hayro_cmap_text. HAYRO_CMAP_ABSENT if no
 * file is wanted, or the handle is empty. HAYRO_CMAP_NO_MEMORY only for a loader past faults, which may have to find
 * out what is wanted; nothing is written, and the call may be repeated. */
hayro_cmap_status hayro_cmap_wanted(hayro_cmap_loader *loader, uint8_t *room, size_t room_len,
                                    size_t *needed);

/* Supplies the wanted file. `found` is a hayro_cmap_supplied, or true if `file` is the file and false if the
 * caller has none. Except with HAYRO_CMAP_GIVEN, `file` is ignored. hayro_cmap_finish reports that a name has no
 * file, and past faults hayro_cmap_found_faults.
 *
 * With HAYRO_CMAP_OK another name may be wanted. With HAYRO_CMAP_NO_MEMORY the same name is still wanted, and the
 * call may be repeated. HAYRO_CMAP_ABSENT if no file is wanted, or the handle is empty; the loader is unchanged. */
hayro_cmap_status hayro_cmap_supply(hayro_cmap_loader *loader, hayro_cmap_bundle *bundle, uint32_t found,
                                    const uint8_t *file, size_t file_len);

/* The faults that a loader past faults found in files that are all supplied, written as by hayro_cmap_salvage. The
 * loader is unchanged: a call with longer buffers gives all faults and names. hayro_cmap_finish then gives the map,
 * and frees the faults.
 *
 * HAYRO_CMAP_ABSENT if a file is still wanted, if the loader is one of hayro_cmap_load, or if the handle is empty.
 * With this status and with HAYRO_CMAP_NO_MEMORY, the only other one, nothing is written. */
hayro_cmap_status hayro_cmap_found_faults(hayro_cmap_loader *loader,
                                          hayro_cmap_fault *faults, size_t faults_len, size_t *found,
                                          uint8_t *room, size_t room_len, size_t *needed);

/* Gives the map of a file whose used files are all supplied, or reports why there is none; a file that is read past
 * its faults has one.
 *
 * The map that the handle `map` held is freed. With HAYRO_CMAP_OK `map` has the new map, and the loader's handle is
 * empty. With HAYRO_CMAP_REFUSED and HAYRO_CMAP_OVER_BUDGET `fault` and the names are written as by
 * hayro_cmap_explain, and the loader is unchanged: a call with a longer buffer gives all names. With
 * HAYRO_CMAP_NO_MEMORY the loader's handle is empty. HAYRO_CMAP_ABSENT if a file is still wanted, or the loader's
 * handle is empty; the loader is unchanged. Except with HAYRO_CMAP_OK, `map` is empty. */
hayro_cmap_status hayro_cmap_finish(hayro_cmap *map, hayro_cmap_loader *loader, hayro_cmap_fault *fault,
                                    uint8_t *room, size_t room_len, size_t *needed);

/* Empties the handle, and frees the loader. A file may then still be wanted. */
void hayro_cmap_loader_free(hayro_cmap_loader *loader);

/* Reads the CMap file `data`, and the files that it uses, past their faults. It gives the map of everything
 * else, and each fault; the faults of each file are listed once. For a file that hayro_cmap_explain accepts,
 * the map is the same and there is no fault. For any other file, the first fault is one for which
 * hayro_cmap_explain refuses the file; in a text in rows it may be an earlier one. docs/FORMATS.md defines
 * how reading goes on, and what a text in rows is.
 *
 * With HAYRO_CMAP_OK the handle has a map. `found` is the number of faults, and `faults` begins with as
 * many of them as fit. The names that lead to the files at fault are written to `room`, the names of the
 * first fault first, all or none of them; `needed` is their number of bytes. With HAYRO_CMAP_NO_MEMORY,
 * the only other status, the handle is empty and nothing is written. */
hayro_cmap_status hayro_cmap_salvage(hayro_cmap *map, const uint8_t *data, size_t data_len,
                                     hayro_cmap_bundle *bundle,
                                     const hayro_cmap_file *files, size_t files_len,
                                     uint64_t budget,
                                     hayro_cmap_fault *faults, size_t faults_len, size_t *found,
                                     uint8_t *room, size_t room_len, size_t *needed);

/* What is wrong, in English, such as "byte 27: a CID was expected", written like the text of
 * hayro_cmap_text. HAYRO_CMAP_ABSENT if no cause has the numbers of `fault`; fields that a cause doesn't
 * have must be 0. The names are ignored. */
hayro_cmap_status hayro_cmap_message(const hayro_cmap_fault *fault, uint8_t *room, size_t room_len,
                                     size_t *needed);

/* What the part at a fault of hayro_cmap_salvage is read as. `text` is the file at fault. A string that begins a line
 * gives HAYRO_CMAP_READ_AS_NOTHING, since its fault may be that the entry before it is short. */
hayro_cmap_reading hayro_cmap_read_as(const hayro_cmap_fault *fault, const uint8_t *text, size_t text_len);

/* What looks wrong in a file that has a map: the warnings of `cmap check --lint`, each at most once, in
 * the order of hayro_cmap_warning. docs/COMMAND.md describes them. `text` is the file, if it is a text;
 * without bytes there is no warning about the spelling of a text. `to_unicode` tells that the map is a
 * ToUnicode CMap.
 *
 * `shown` has the numbers of the codes that are shown with the font, in ascending order, each once. A
 * finding counts the shown codes that it concerns. A declaration concerns the codes between its ends; with
 * HAYRO_CMAP_WARNING_NO_TEXT only the codes without a text. A string concerns the codes of its entry, and a
 * text in a list only its own code.
 *
 * With HAYRO_CMAP_OK the findings are at the head of `findings`, and `needed` is their number. With
 * HAYRO_CMAP_NO_ROOM `needed` is their number, and `findings` is unchanged. An empty handle gives
 * HAYRO_CMAP_ABSENT; then, and with HAYRO_CMAP_NO_MEMORY, nothing is written. */
hayro_cmap_status hayro_cmap_lint(hayro_cmap *map, const uint8_t *text, size_t text_len,
                                  bool to_unicode, const uint32_t *shown, size_t shown_len,
                                  hayro_cmap_finding *findings, size_t findings_len, size_t *needed);

/* The name of a hayro_cmap_warning, such as no-codespace, written like the text of hayro_cmap_text.
 * HAYRO_CMAP_ABSENT for a number that no warning has. */
hayro_cmap_status hayro_cmap_warning_name(uint32_t warning, uint8_t *room, size_t room_len,
                                          size_t *needed);

/* Reads the file of this name as hayro_cmap_parse_over does, so that the map has its metadata: the first of
 * `files` with the name, otherwise the file of the bundle. If neither has one, Identity-H and Identity-V are
 * made without a file, and any other name gives HAYRO_CMAP_ABSENT. */
hayro_cmap_status hayro_cmap_open(hayro_cmap *map, const uint8_t *name, size_t name_len,
                                  hayro_cmap_bundle *bundle,
                                  const hayro_cmap_file *files, size_t files_len,
                                  uint64_t budget);

/* The names of the files that the CMap file `data` uses, in the order of the uses; the files themselves
 * aren't needed. A binary file is read by the tables of the bundle; an empty handle stands for no bundle.
 *
 * With HAYRO_CMAP_OK `room` begins with the names, one after another, and `name_lens` with their lengths;
 * `names` is their number, and `needed` their number of bytes. With HAYRO_CMAP_NO_ROOM one of the two is
 * too short: only `names` and `needed` are written. With HAYRO_CMAP_REFUSED (`data` is outside the
 * grammar) and HAYRO_CMAP_NO_MEMORY nothing is written. */
hayro_cmap_status hayro_cmap_uses(const uint8_t *data, size_t data_len, hayro_cmap_bundle *bundle,
                                  size_t *name_lens, size_t name_lens_len, size_t *names,
                                  uint8_t *room, size_t room_len, size_t *needed);

/* Opens a bundle, and copies its files, so that its bytes need not stay. The bundle that the handle held is
 * freed. HAYRO_CMAP_OK; or HAYRO_CMAP_NO_MEMORY or HAYRO_CMAP_NOT_A_BUNDLE, and an empty handle. */
hayro_cmap_status hayro_cmap_bundle_open(hayro_cmap_bundle *bundle, const uint8_t *bytes,
                                         size_t bytes_len);

/* Gives the handle `other` the same bundle, as hayro_cmap_share does with a map. */
hayro_cmap_status hayro_cmap_bundle_share(hayro_cmap_bundle *bundle, hayro_cmap_bundle *other);

/* Empties the handle, and frees the bundle if no other handle has it. Maps that were read over it
 * stay. */
void hayro_cmap_bundle_free(hayro_cmap_bundle *bundle);

/* The bytes of the file of this name in a bundle, written like the text of hayro_cmap_text.
 * HAYRO_CMAP_ABSENT if the bundle has none, or only the ten bytes that stand for a missing file, `bcmap`,
 * four bytes 0 and the byte 10; and if the handle is empty. */
hayro_cmap_status hayro_cmap_bundle_file(hayro_cmap_bundle *bundle, const uint8_t *name,
                                         size_t name_len, uint8_t *room, size_t room_len,
                                         size_t *needed);

/* Makes the predefined CMap Identity-H, or Identity-V: codes of two bytes are CIDs. The map that the handle
 * held is freed. HAYRO_CMAP_OK, or HAYRO_CMAP_NO_MEMORY and an empty handle. */
hayro_cmap_status hayro_cmap_identity(hayro_cmap *map, bool vertical);

/* Gives the handle `other` the same map, such as for lookups in another thread: nothing is copied, and the
 * map is freed with its last handle. The map that `other` held is freed; if `map` is empty, `other`
 * becomes empty. HAYRO_CMAP_OK, or HAYRO_CMAP_NO_MEMORY and an empty `other`. */
hayro_cmap_status hayro_cmap_share(hayro_cmap *map, hayro_cmap *other);

/* Empties the handle, and frees the map if no other handle has it. */
void hayro_cmap_free(hayro_cmap *map);

/* Whether a code of `byte_len` bytes, big-endian, has a CID, which is then written to `cid`. Codespace
 * ranges are ignored. An empty handle has no CID. */
bool hayro_cmap_cid(hayro_cmap *map, uint32_t code, uint8_t byte_len, uint32_t *cid);

/* The same for a code in a codespace range of its length, byte by byte; other codes have no CID. */
bool hayro_cmap_cid_strict(hayro_cmap *map, uint32_t code, uint8_t byte_len, uint32_t *cid);

/* Fills `cids` with the CIDs of the codes of `byte_len` bytes from `first` on, each as hayro_cmap_cid gives
 * it, with `absent` for a code that has none and for items after the code 2^32 - 1. It returns whether the
 * handle has a map; without one nothing is written. A table of all codes of two bytes takes 256 KB. */
bool hayro_cmap_cids(hayro_cmap *map, uint32_t first, uint8_t byte_len, uint32_t absent,
                     uint32_t *cids, size_t cids_len);

/* Cuts a string into codes, one after another, each with the CID that hayro_cmap_cid gives.
 * hayro_cmap_cid_strict gives the same if `in_codespace` is 1, otherwise none.
 *
 * As many codes as fit are written to the head of `codes`, and the rest of it is unchanged; `made` is their
 * number, and `taken` their number of bytes in the string. With HAYRO_CMAP_OK these are all codes. With
 * HAYRO_CMAP_NO_ROOM the buffer is full, and a call with the rest of the string continues. An empty handle
 * gives HAYRO_CMAP_ABSENT, and both numbers are 0. */
hayro_cmap_status hayro_cmap_decode(hayro_cmap *map, const uint8_t *text, size_t text_len,
                                    hayro_cmap_code *codes, size_t codes_len, size_t *made,
                                    size_t *taken);

/* Cuts a string of a font into codes, one after another, each with its CID and its text, as in ISO
 * 32000-1, 9.10.2. `encoding` is the map of the font's CMap, `to_unicode` the map of its ToUnicode CMap, and
 * `collection` a map from CIDs to Unicode, such as Adobe-Japan1-UCS2. The last two handles are empty if
 * there is no such map. The three handles are different: if one map serves twice, hayro_cmap_share makes
 * another handle of it.
 *
 * hayro_cmap_decode cuts the string into the same codes. The CID is the one that the map declares, never the
 * Unicode number that hayro_cmap_cid gives for a code that has nothing else. The text is the text of the code
 * in `to_unicode`, otherwise the text of the CID in `collection`; otherwise there is none.
 *
 * As many codes as fit are written to the head of `characters`, and their texts, in UTF-8 and one after
 * another, to the head of `text`; the rest of both is unchanged. `extracted` tells how far the call went; a
 * call with the rest of the string continues. With HAYRO_CMAP_OK the string is finished. With
 * HAYRO_CMAP_NO_ROOM one of the buffers is full: if nothing was made though `characters` isn't full, `text`
 * is too short for the next text. With HAYRO_CMAP_NO_MEMORY memory ran out for the next code, whose text
 * has more than one character. An empty `encoding` gives HAYRO_CMAP_ABSENT, and the numbers of `extracted`
 * are 0. */
hayro_cmap_status hayro_cmap_extract(hayro_cmap *encoding, hayro_cmap *to_unicode,
                                     hayro_cmap *collection, const uint8_t *string, size_t string_len,
                                     hayro_cmap_character *characters, size_t characters_len,
                                     uint8_t *text, size_t text_len, hayro_cmap_extracted *extracted);

/* The text of a code, in UTF-8 and without a zero byte at its end.
 *
 * With HAYRO_CMAP_OK its bytes are at the head of the buffer `room`, and `needed` is their number. With
 * HAYRO_CMAP_NO_ROOM `needed` is their number, and the buffer is unchanged. Otherwise the status is
 * HAYRO_CMAP_ABSENT or, only for a text of more than one character, HAYRO_CMAP_NO_MEMORY, and nothing is
 * written. */
hayro_cmap_status hayro_cmap_text(hayro_cmap *map, uint32_t code, uint8_t *room, size_t room_len,
                                  size_t *needed);

/* The name of the file, written like the text of hayro_cmap_text. */
hayro_cmap_status hayro_cmap_name(hayro_cmap *map, uint8_t *room, size_t room_len,
                                  size_t *needed);

/* The registry of the file's character collection, such as Adobe, written in the same way. */
hayro_cmap_status hayro_cmap_registry(hayro_cmap *map, uint8_t *room, size_t room_len,
                                      size_t *needed);

/* The ordering of the file's character collection, such as Japan1, written in the same way. */
hayro_cmap_status hayro_cmap_ordering(hayro_cmap *map, uint8_t *room, size_t room_len,
                                      size_t *needed);

/* Whether the file has a character collection, whose supplement is then written to `supplement`. */
bool hayro_cmap_supplement(hayro_cmap *map, int32_t *supplement);

/* The writing mode of the file. */
hayro_cmap_mode hayro_cmap_writing_mode(hayro_cmap *map);

/* The number of layers of the map, 1 to 16: layer 0 is the file itself, layer 1 the file that it is based
 * on, and so on. An empty handle has none. */
size_t hayro_cmap_layers(hayro_cmap *map);

/* The name of the file of a layer, written like the text of hayro_cmap_text. hayro_cmap_name and the four calls
 * after it give the metadata of layer 0. This call and the next four give the metadata of any layer; a missing
 * layer has none. */
hayro_cmap_status hayro_cmap_layer_name(hayro_cmap *map, size_t layer, uint8_t *room,
                                        size_t room_len, size_t *needed);

/* The registry of a layer's character collection, written in the same way. */
hayro_cmap_status hayro_cmap_layer_registry(hayro_cmap *map, size_t layer, uint8_t *room,
                                            size_t room_len, size_t *needed);

/* The ordering of a layer's character collection, written in the same way. */
hayro_cmap_status hayro_cmap_layer_ordering(hayro_cmap *map, size_t layer, uint8_t *room,
                                            size_t room_len, size_t *needed);

/* Whether a layer has a character collection, whose supplement is then written to `supplement`. */
bool hayro_cmap_layer_supplement(hayro_cmap *map, size_t layer, int32_t *supplement);

/* The writing mode of a layer. */
hayro_cmap_mode hayro_cmap_layer_writing_mode(hayro_cmap *map, size_t layer);

/* The writing mode of a font's strings: the mode of the first layer that gives one, otherwise
 * HAYRO_CMAP_HORIZONTAL; HAYRO_CMAP_NO_MODE if there is no map. */
static inline hayro_cmap_mode hayro_cmap_effective_writing_mode(hayro_cmap *map) {
    const size_t layers = hayro_cmap_layers(map);
    for (size_t layer = 0; layer < layers; layer++) {
        const hayro_cmap_mode mode = hayro_cmap_layer_writing_mode(map, layer);
        if (mode != HAYRO_CMAP_NO_MODE) return mode;
    }
    return layers > 0 ? HAYRO_CMAP_HORIZONTAL : HAYRO_CMAP_NO_MODE;
}

/* The codespace ranges of a layer, in order. With HAYRO_CMAP_OK they are at the head of `ranges`, and
 * `needed` is their number. With HAYRO_CMAP_NO_ROOM `needed` is their number, and `ranges` is unchanged. A
 * missing layer gives HAYRO_CMAP_ABSENT, and nothing is written. */
hayro_cmap_status hayro_cmap_codespaces(hayro_cmap *map, size_t layer,
                                        hayro_cmap_codespace *ranges, size_t ranges_len,
                                        size_t *needed);

/* The declarations of CIDs of a layer for codes of `byte_len` bytes, in the order of its file; written like
 * codespace ranges. From code to code the CID of a declaration counts on. If several declarations contain a
 * code, the last one decides. For a length outside 1 to 4 there are none. */
hayro_cmap_status hayro_cmap_cid_ranges(hayro_cmap *map, size_t layer, uint8_t byte_len,
                                        hayro_cmap_cid_range *ranges, size_t ranges_len,
                                        size_t *needed);

/* The same for declarations of notdefs, whose codes all have the same CID. */
hayro_cmap_status hayro_cmap_notdef_ranges(hayro_cmap *map, size_t layer, uint8_t byte_len,
                                           hayro_cmap_cid_range *ranges, size_t ranges_len,
                                           size_t *needed);

/* The declarations of texts of a layer, in the order of its file; written like codespace ranges.
 * hayro_cmap_text_units gives the text of each. */
hayro_cmap_status hayro_cmap_text_ranges(hayro_cmap *map, size_t layer,
                                         hayro_cmap_text_range *ranges, size_t ranges_len,
                                         size_t *needed);

/* The units of UTF-16 that the declaration at this index of hayro_cmap_text_ranges gives to its first
 * code, written like codespace ranges; from code to code the last unit counts on. They are as the file has
 * them, so a surrogate may stand alone. HAYRO_CMAP_ABSENT if there is no such declaration. */
hayro_cmap_status hayro_cmap_text_units(hayro_cmap *map, size_t layer, size_t index,
                                        uint16_t *units, size_t units_len, size_t *needed);

/* All codes that have this CID, as hayro_cmap_cid gives it for codes of `byte_len` bytes: ranges in order,
 * each as long as possible; none for a length outside 1 to 4. They include declared codes that don't fit
 * in `byte_len` bytes. With HAYRO_CMAP_OK they are at the head of `ranges`, and `needed` is their number, 0
 * if no code has the CID. With HAYRO_CMAP_NO_ROOM `needed` is their number, and `ranges` is unchanged. An
 * empty handle gives HAYRO_CMAP_ABSENT; then, and with HAYRO_CMAP_NO_MEMORY, nothing is written. */
hayro_cmap_status hayro_cmap_codes_of_cid(hayro_cmap *map, uint32_t cid, uint8_t byte_len,
                                          hayro_cmap_code_range *ranges, size_t ranges_len,
                                          size_t *needed);

/* Makes a CMap file from these declarations, in their order, and from its metadata: its text, in the fewest
 * declarations that give each code the same. Codes of texts are written with the length of the declarations
 * of texts, if all have one length; otherwise with the least length for which the code lies between the lowest
 * and the highest code of the codespace ranges of this length, or two bytes if there is no such length; and
 * with four bytes if a code doesn't fit in these.
 *
 * With HAYRO_CMAP_OK the text is at the head of the buffer `room`, and `needed` is its number of bytes. With
 * HAYRO_CMAP_NO_ROOM `needed` is this number, and the buffer is unchanged. With HAYRO_CMAP_REFUSED a
 * declaration is of no kind, its codes have no length of 1 to 4 bytes, or its text is empty or isn't UTF-8;
 * or no text can express the file: its name has a byte that no name has, such as a blank, or a code doesn't
 * fit in its length. Then, and with HAYRO_CMAP_NO_MEMORY, nothing is written. */
hayro_cmap_status hayro_cmap_make(const hayro_cmap_facts *facts,
                                  const hayro_cmap_declaration *declarations,
                                  size_t declarations_len, uint8_t *room, size_t room_len,
                                  size_t *needed);

/* Writes the map as the text of one CMap file, which uses no other and has the answers of the map for each
 * code. With `codes`, it has answers only for these codes; a length of 0 stands for all codes. The text has a
 * line for each row of 256 codes: CIDs for all codes of four bytes take half a gigabyte, whatever the budget
 * of the map was.
 *
 * The text is written like the text of hayro_cmap_make. With HAYRO_CMAP_REFUSED no single file has these
 * answers, for example because a layer gives a code a text of one character above a layer that gives it a
 * CID; or no text can express the file; or `codes` have a length outside 1 to 4. An empty handle gives
 * HAYRO_CMAP_ABSENT. Then, and with HAYRO_CMAP_NO_MEMORY, nothing is written. */
hayro_cmap_status hayro_cmap_write(hayro_cmap *map, const hayro_cmap_codes *codes, size_t codes_len,
                                   uint8_t *room, size_t room_len, size_t *needed);

/* Makes the encoder of a font. `encoding`, `to_unicode` and `collection` are the maps of the font, as for
 * hayro_cmap_extract; the encoder doesn't keep them. A simple font has codes of one byte: its `encoding` is the
 * map of a file with only the codespace range from 00 to FF.
 *
 * The encoder that the handle held is freed. With HAYRO_CMAP_OK the handle has the new one, else it is empty. An
 * empty `encoding` gives HAYRO_CMAP_ABSENT; the other status is HAYRO_CMAP_NO_MEMORY. */
hayro_cmap_status hayro_cmap_encoder_build(hayro_cmap_encoder *encoder, hayro_cmap *encoding,
                                           hayro_cmap *to_unicode, hayro_cmap *collection);

/* The same with a map from Unicode to CIDs, such as UniJIS-UTF16-H, which chooses the glyphs of characters; its
 * handle is empty if there is no such map. hayro_cmap_unicode_name gives its name. The four handles are different.
 *
 * An `exact` encoder chooses only codes whose text, as hayro_cmap_extract gives it, is the piece for which they
 * stand: no grade is then HAYRO_CMAP_GRADE_ALIKE or HAYRO_CMAP_GRADE_NATIONAL. */
hayro_cmap_status hayro_cmap_encoder_build_with(hayro_cmap_encoder *encoder, hayro_cmap *encoding,
                                                hayro_cmap *to_unicode, hayro_cmap *collection,
                                                hayro_cmap *unicode, bool exact);

/* The name of the map from Unicode, in UTF-16, to the CIDs of a character collection. `collection` is its registry
 * and ordering, joined, such as Adobe-Japan1, whose map is UniJIS-UTF16-H, or UniJIS-UTF16-V if `mode` is
 * HAYRO_CMAP_VERTICAL. If the name of the font's CMap begins with Uni, use that CMap itself.
 *
 * The name is written like the text of hayro_cmap_text. HAYRO_CMAP_ABSENT except for Japan1, GB1, CNS1, Korea1,
 * KR and Japan2 of Adobe. */
hayro_cmap_status hayro_cmap_unicode_name(const uint8_t *collection, size_t collection_len, uint32_t mode,
                                          uint8_t *room, size_t room_len, size_t *needed);

/* Gives the handle `other` the same encoder, as hayro_cmap_share does with a map. */
hayro_cmap_status hayro_cmap_encoder_share(hayro_cmap_encoder *encoder, hayro_cmap_encoder *other);

/* Empties the handle, and frees the encoder if no other handle has it. */
void hayro_cmap_encoder_free(hayro_cmap_encoder *encoder);

/* The string of the font for a text in UTF-8: the codes of its pieces. A piece is a letter (a character and the
 * marks after it), if the letter has a code and the rest can be encoded; otherwise a part of the letter, and as a
 * last resort more than the letter. The code of a piece lies in a codespace range, is no notdef, and has the best
 * hayro_cmap_grade. Of several codes with one grade up to HAYRO_CMAP_GRADE_COLLECTION the shortest is taken, and of
 * these the least. There are two exceptions for HAYRO_CMAP_GRADE_CANONICAL: the character itself, in the form of the
 * map from Unicode, comes first; and if the collection's map reads the glyph as another character, the last code of
 * the glyph is taken. The time grows with the characters of the text, times at most the number of characters of the
 * longest text of a code.
 *
 * With HAYRO_CMAP_OK the string is at the head of the buffer `room`, and `needed` is its number of bytes. With
 * HAYRO_CMAP_NO_ROOM `needed` is this number, and the buffer is unchanged. With HAYRO_CMAP_REFUSED the text can't be
 * encoded, and only `offset` is written: the end, in bytes, of the longest prefix that can be encoded, or, if the
 * text isn't UTF-8, of the longest prefix that is UTF-8. An empty handle gives HAYRO_CMAP_ABSENT. Then, and with
 * HAYRO_CMAP_NO_MEMORY, nothing is written. */
hayro_cmap_status hayro_cmap_encode(hayro_cmap_encoder *encoder, const uint8_t *text, size_t text_len,
                                    uint8_t *room, size_t room_len, size_t *needed, size_t *offset);

/* The pieces of a text, one after another, whose codes hayro_cmap_encode gives. They are written like the
 * string of hayro_cmap_encode, with pieces instead of bytes. */
hayro_cmap_status hayro_cmap_encode_pieces(hayro_cmap_encoder *encoder, const uint8_t *text,
                                           size_t text_len, hayro_cmap_piece *pieces,
                                           size_t pieces_len, size_t *needed, size_t *offset);

/* The string of a text as far as it can be encoded: the longest prefix that can be, then the bytes of `missing` for
 * the character after it, such as 3F for a question mark, and so on for the rest of the text. It is written like the
 * string of hayro_cmap_encode. `missing` must be empty or whole codes of the font, since other bytes may change how
 * later bytes are read. With HAYRO_CMAP_REFUSED `missing` has other bytes, or the text isn't UTF-8, and nothing is
 * written; an empty text is refused only for `missing`. */
hayro_cmap_status hayro_cmap_encode_lossy(hayro_cmap_encoder *encoder, const uint8_t *text,
                                          size_t text_len, const uint8_t *missing, size_t missing_len,
                                          uint8_t *room, size_t room_len, size_t *needed);

/* A text in UTF-8 in the characters that are usually written for what it shows, so that it can be searched and split.
 * Texts of fonts, such as from hayro_cmap_extract, may have other characters:
 * - variation selectors, which are dropped;
 * - presentation forms of Latin, Armenian, Hebrew and Arabic letters (U+FB00 to U+FDFF, U+FE70 to U+FEFF), and Kangxi
 *   radicals (U+2F00 to U+2FDF), which become the letters or the ideograph to which the Unicode Standard decomposes
 *   them;
 * - spaces of other widths (U+00A0, U+2000 to U+200A, U+202F, U+205F), which become U+0020; punctuation for vertical
 *   writing (U+FE10 to U+FE19, U+FE30 to U+FE48), which becomes the punctuation for horizontal writing; and the
 *   half-width bar U+FFE8, which becomes U+007C.
 *
 * It is written like the string of hayro_cmap_encode; with HAYRO_CMAP_REFUSED the text isn't UTF-8. */
hayro_cmap_status hayro_cmap_fold(const uint8_t *text, size_t text_len, uint8_t *room, size_t room_len,
                                  size_t *needed, size_t *offset);

/* The version of the library, such as 1.0.0, or 1.0.0+plain of the library in plain Rust, written like the text of
   hayro_cmap_text. */
hayro_cmap_status hayro_cmap_version(uint8_t *room, size_t room_len, size_t *needed);

#ifdef __cplusplus
}
#endif

#endif
