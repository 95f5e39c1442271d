/* volumes DUMP FOLDER: finds the image in a dump and its geometry, lists its volumes, and writes the contents of each
 * to FOLDER/volume_N.bin. The dump has no out-of-band bytes.
 *
 *     c/build.sh
 *     cc -Ic/out -o volumes c/examples/volumes.c c/out/libubi.a
 */
#include "ubi.h"

#include <stdio.h>
#include <stdlib.h>
#include <string.h>

/* All bytes of a file, in a buffer of one byte more, so that it is never empty. */
static uint8_t *load(const char *path, size_t *len) {
    FILE *file = fopen(path, "rb");
    if (!file || fseek(file, 0, SEEK_END)) return NULL;
    *len = (size_t)ftell(file);
    rewind(file);
    uint8_t *data = malloc(*len + 1);
    if (data && fread(data, 1, *len, file) != *len) return NULL;
    fclose(file);
    return data;
}

/* Prints an answer of `len` bytes, at most `room` of which are in `text`, that says why there is no other answer. */
static int refused(uint32_t status, const uint8_t *text, size_t room, size_t len) {
    if (status == UBI_NO_MEMORY) fprintf(stderr, "out of memory\n");
    else fwrite(text, 1, len < room ? len : room, stderr);
    return 1;
}

/* The number after a word in the first line of an answer, or another number if the word isn't there. */
static size_t number_of(const char *text, const char *word, size_t other) {
    const char *end = strchr(text, '\n'), *at = strstr(text, word);
    return at && end && at < end ? (size_t)strtoull(at + strlen(word), NULL, 10) : other;
}

/* Writes the contents of a volume: it asks for their length first, and then for their bytes. */
static int write_volume(const struct ubi_sizes *sizes, const uint8_t *image, size_t image_len, unsigned number,
                        const char *folder) {
    uint8_t nothing, *bytes;
    size_t len, again;
    char path[4096];
    if (ubi_read(sizes, image, image_len, number, &nothing, 0, &len) == UBI_NO_MEMORY) return 1;
    if (!(bytes = malloc(len + 1))) return 1;
    uint32_t status = ubi_read(sizes, image, image_len, number, bytes, len, &again);
    int failed = status != UBI_DONE && refused(status, bytes, len, again);
    if (!failed) {
        snprintf(path, sizeof path, "%s/volume_%u.bin", folder, number);
        FILE *file = fopen(path, "wb");
        failed = !file || fwrite(bytes, 1, len, file) != len || fclose(file);
    }
    free(bytes);
    return failed;
}

/* Lists the volumes of the image in a dump, and writes the contents of each. */
static int write_volumes(const uint8_t *dump, size_t dump_len, const char *folder) {
    static uint8_t text[65536];
    const size_t room = sizeof text - 1;
    size_t len;
    uint32_t status = ubi_geometry(dump, dump_len, text, room, &len);
    if (status != UBI_DONE) return refused(status, text, room, len);
    text[len < room ? len : room] = 0;
    const char *line = (char *)text;
    struct ubi_sizes sizes = {.pebs = UBI_MOST_PEBS};
    if (sscanf(line, "--peb %u --page %u --vid %u --data %u", &sizes.peb_size, &sizes.page, &sizes.vid_offset,
               &sizes.data_offset) != 4)
        return 1;
    if (number_of(line, " --oob ", 0)) {
        fprintf(stderr, "the dump has out-of-band bytes\n");
        return 1;
    }
    const uint8_t *image = dump + number_of(line, " --start ", 0);
    const size_t image_len = number_of(line, " --length ", dump_len);

    status = ubi_list(&sizes, image, image_len, text, room, &len);
    if (status != UBI_DONE || len > room) return refused(status, text, room, len);
    text[len] = 0;
    fputs((char *)text, stdout);
    for (line = strstr(line, "\nvolume "); line; line = strstr(line + 1, "\nvolume ")) {
        unsigned number = (unsigned)strtoul(line + strlen("\nvolume "), NULL, 10);
        if (write_volume(&sizes, image, image_len, number, folder)) return 1;
    }
    return 0;
}

int main(int argc, char **argv) {
    size_t dump_len;
    uint8_t *dump;
    if (argc != 3 || !(dump = load(argv[1], &dump_len))) return 2;
    int failed = write_volumes(dump, dump_len, argv[2]);
    free(dump);
    return failed;
}
