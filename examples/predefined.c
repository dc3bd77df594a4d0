/* Prints the paths of predefined CMap files.
 *
 *     predefined NAME..
 *
 * The library opens no files by itself. A program that needs a predefined CMap finds its file as here, reads
 * it, and passes it with the files that it uses, as decode.c does with the files of a folder. */
#include <glob.h>
#include <stdbool.h>
#include <stdio.h>
#include <stdlib.h>
#include <string.h>
#include <sys/stat.h>

static bool is_file(const char *path) {
    struct stat found;
    return stat(path, &found) == 0 && S_ISREG(found.st_mode);
}

/* Writes the path of the first file of a pattern. It returns whether there is one, and its path fits. */
static bool take_file(const char *pattern, char *path, size_t path_len) {
    glob_t found;
    if (glob(pattern, 0, NULL, &found) != 0) return false;
    size_t at = 0;
    while (at < found.gl_pathc && !is_file(found.gl_pathv[at])) at++;
    bool fits = at < found.gl_pathc && strlen(found.gl_pathv[at]) < path_len;
    if (fits) strcpy(path, found.gl_pathv[at]);
    globfree(&found);
    return fits;
}

/* Finds the predefined CMap file of a name, in the folders of the environment variable CMAP_PATH or, without
 * it, in the folders of the system, and in their subfolders. It returns whether there is one. A name may come
 * from a file, and mustn't lead out of these folders. */
static bool find_predefined(const char *name, char *path, size_t path_len) {
    const char *folders = getenv("CMAP_PATH");
    if (!folders) folders = "/usr/share/poppler/cMap:/var/lib/ghostscript/CMap:/usr/share/fonts/cmap";
    if (!*name || *name == '.' || strpbrk(name, "/*?[\\")) return false;
    for (size_t len; *folders; folders += len + (folders[len] == ':')) {
        len = strcspn(folders, ":");
        for (int below = 0; len > 0 && below < 2; below++) {
            char pattern[4096];
            const char *subfolders = below ? "*/" : "";
            int made = snprintf(pattern, sizeof pattern, "%.*s/%s%s", (int)len, folders, subfolders, name);
            if (made < 0 || (size_t)made >= sizeof pattern) return false;
            if (take_file(pattern, path, path_len)) return true;
        }
    }
    return false;
}

int main(int argc, char **argv) {
    int missing = 0;
    for (int i = 1; i < argc; i++) {
        char path[4096];
        if (find_predefined(argv[i], path, sizeof path)) puts(path);
        else missing += fprintf(stderr, "%s: no such predefined CMap\n", argv[i]) > 0;
    }
    return missing > 0;
}
