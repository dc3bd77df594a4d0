/* Looks up every code of two bytes in four threads at once, each by its own handle of one map.
 *
 *     threads FILE [BASE..]
 *
 * Each thread counts the codes with a CID, and the program prints the counts. FILE may use each BASE by the last
 * part of its path. */
#include "hayro_cmap.h"
#include <pthread.h>
#include <stdio.h>
#include <stdlib.h>
#include <string.h>

/* The number of threads, the most bytes of all files, and the most files. */
enum { THREADS = 4, MOST = 1 << 20, MOST_FILES = 16 };

struct task {
    pthread_t thread;
    hayro_cmap map;
    uint32_t count;
};

static _Noreturn void fail(const char *why) {
    fprintf(stderr, "threads: %s\n", why);
    exit(1);
}

/* Reads a file to the rest of a buffer. It returns the file, named by the last part of its path. */
static hayro_cmap_file read_file(const char *path, uint8_t *left, size_t left_len) {
    const char *slash = strrchr(path, '/'), *name = slash ? slash + 1 : path;
    FILE *in = fopen(path, "rb");
    if (!in) fail("a file can't be opened");
    hayro_cmap_file file = {(const uint8_t *)name, strlen(name), left, fread(left, 1, left_len, in)};
    if (!feof(in)) fail("the files are too long, or can't be read");
    fclose(in);
    return file;
}

/* Reads the map of the first file over the others. */
static void read_map(hayro_cmap *map, char **paths, int len) {
    static uint8_t room[MOST];
    hayro_cmap_file files[MOST_FILES];
    uint8_t *left = room;
    for (int i = 0; i < len; i++) {
        files[i] = read_file(paths[i], left, (size_t)(room + MOST - left));
        left += files[i].bytes_len;
    }
    hayro_cmap_status status =
        hayro_cmap_parse(map, files[0].bytes, files[0].bytes_len, hayro_cmap_bytes(NULL), 0, files + 1,
                         (size_t)len - 1, HAYRO_CMAP_NO_BUDGET);
    if (status != HAYRO_CMAP_OK) fail(status == HAYRO_CMAP_NO_MEMORY ? "out of memory" : "refused");
}

static void *count_codes(void *argument) {
    struct task *task = argument;
    uint32_t cid;
    for (uint32_t code = 0; code <= 0xFFFF; code++)
        task->count += hayro_cmap_cid(&task->map, code, 2, &cid);
    hayro_cmap_free(&task->map);
    return NULL;
}

int main(int argc, char **argv) {
    if (argc < 2 || argc > 1 + MOST_FILES) fail("usage: threads FILE [BASE..]");
    hayro_cmap map = HAYRO_CMAP_EMPTY;
    read_map(&map, argv + 1, argc - 1);
    static struct task tasks[THREADS];
    for (int i = 0; i < THREADS; i++) {
        tasks[i].map = (hayro_cmap)HAYRO_CMAP_EMPTY;
        if (hayro_cmap_share(&map, &tasks[i].map) != HAYRO_CMAP_OK) fail("out of memory");
        if (pthread_create(&tasks[i].thread, NULL, count_codes, &tasks[i]) != 0)
            fail("a thread can't be started");
    }
    hayro_cmap_free(&map);
    for (int i = 0; i < THREADS; i++) {
        pthread_join(tasks[i].thread, NULL);
        printf("%u\n", tasks[i].count);
    }
    return 0;
}
