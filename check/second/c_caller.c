/* Makes the calls of ubi.h that its input asks for, and writes their answers: for c_calls.py.
 *
 * Each line of the input is CALL ROOM PAGES_ROOM PEB PAGE VID DATA PEBS A B C X Y BAD KEEP REFUSED: the call, the
 * numbers of bytes of out and pages, the sizes, three files (or '-'), two numbers, the bad eraseblocks as 3,9 (or '-'),
 * whether blank ones are kept, and which allocation is refused, or 0. For each it writes a line STATUS LEN KEPT
 * PAGES_LEN NANOSECONDS: KEPT is 1 if everything that was passed is as it was, except what the call may write, and the
 * last is how long the call took. Then it writes the first bytes of out and of pages: those of the answer that fit, or
 * all of them if memory ran out. Each buffer has exactly as many bytes as its length says, so that a checker of memory
 * sees any other byte that is touched. If B is A, both are passed as one.
 *
 * It is linked with -Wl,--wrap=malloc,--wrap=realloc, so that allocations can be refused. */
#include "ubi.h"

#include <stdio.h>
#include <stdlib.h>
#include <string.h>
#include <time.h>

enum { FILLER = 0xA5 };

/* Bytes that are passed, and a copy of them. */
struct bytes {
    uint8_t *data, *copy;
    size_t len;
};

/* How many allocations there are up to the one that is refused, or 0. */
static unsigned allocations;

void *__real_malloc(size_t len);
void *__real_realloc(void *data, size_t len);

void *__wrap_malloc(size_t len) {
    return allocations && --allocations == 0 ? NULL : __real_malloc(len);
}

void *__wrap_realloc(void *data, size_t len) {
    return allocations && --allocations == 0 ? NULL : __real_realloc(data, len);
}

static void *some(size_t len) {
    void *data = malloc(len);
    if (!data && !(data = malloc(1))) exit(3);
    return data;
}

static struct bytes load(const char *path) {
    struct bytes b = {0};
    if (strcmp(path, "-")) {
        FILE *file = fopen(path, "rb");
        if (!file || fseek(file, 0, SEEK_END)) exit(4);
        b.len = (size_t)ftell(file);
        rewind(file);
        b.data = some(b.len);
        if (fread(b.data, 1, b.len, file) != b.len) exit(4);
        fclose(file);
    } else {
        b.data = some(0);
    }
    b.copy = some(b.len);
    memcpy(b.copy, b.data, b.len);
    return b;
}

/* The numbers in a list, in just as many bytes as they need, and a copy of them. */
static struct bytes numbers_in(const char *list) {
    struct bytes b = {0};
    for (const char *at = list; *at; at++) b.len += *at == ',';
    b.len = strcmp(list, "-") ? (b.len + 1) * sizeof(uint32_t) : 0;
    b.data = some(b.len);
    b.copy = some(b.len);
    for (size_t at = 0; at < b.len; at += sizeof(uint32_t)) {
        char *end;
        uint32_t number = (uint32_t)strtoul(list, &end, 10);
        memcpy(b.data + at, &number, sizeof number);
        list = end + 1;
    }
    memcpy(b.copy, b.data, b.len);
    return b;
}

static int is_kept(struct bytes b) {
    int same = !memcmp(b.data, b.copy, b.len);
    free(b.data);
    free(b.copy);
    return same;
}

static uint8_t *room(size_t len) {
    uint8_t *data = some(len);
    memset(data, FILLER, len);
    return data;
}

static uint64_t now(void) {
    struct timespec t;
    clock_gettime(CLOCK_MONOTONIC, &t);
    return (uint64_t)t.tv_sec * 1000000000u + (uint64_t)t.tv_nsec;
}

/* How many bytes of an answer fit. */
static size_t filled(size_t answer_len, size_t len) {
    return answer_len < len ? answer_len : len;
}

static int is_rest_kept(const uint8_t *data, size_t from, size_t len) {
    for (size_t at = from; at < len; at++)
        if (data[at] != FILLER) return 0;
    return 1;
}

int main(void) {
    char call[32], a_path[4096], b_path[4096], c_path[4096], bad_list[4096];
    size_t out_len, pages_room;
    struct ubi_sizes s;
    uint32_t x, y;
    unsigned keep, refused;
    while (scanf("%31s %zu %zu %u %u %u %u %u %4095s %4095s %4095s %u %u %4095s %u %u", call, &out_len, &pages_room,
                 &s.peb_size, &s.page, &s.vid_offset, &s.data_offset, &s.pebs, a_path, b_path, c_path, &x, &y, bad_list,
                 &keep, &refused) == 16) {
        int is_one = !strcmp(a_path, b_path);
        struct bytes a = load(a_path), b = is_one ? a : load(b_path), c = load(c_path),
                     bad = numbers_in(bad_list);
        const uint32_t *blocks = (const uint32_t *)(void *)bad.data;
        size_t bads = bad.len / sizeof *blocks;
        struct ubi_sizes before = s;
        uint8_t *out = room(out_len), *pages = room(pages_room);
        size_t len = 7, pages_len = 0;
        uint32_t status = 99;
        uint64_t start = now();
        allocations = refused;
        if (!strcmp(call, "geometry")) status = ubi_geometry(a.data, a.len, out, out_len, &len);
        if (!strcmp(call, "check")) status = ubi_check(&s, a.data, a.len, out, out_len, &len);
        if (!strcmp(call, "list")) status = ubi_list(&s, a.data, a.len, out, out_len, &len);
        if (!strcmp(call, "show")) status = ubi_show(&s, a.data, a.len, x, out, out_len, &len);
        if (!strcmp(call, "map")) status = ubi_map(&s, a.data, a.len, out, out_len, &len);
        if (!strcmp(call, "read")) status = ubi_read(&s, a.data, a.len, x, out, out_len, &len);
        if (!strcmp(call, "normalise")) status = ubi_normalise(&s, a.data, a.len, out, out_len, &len);
        if (!strcmp(call, "same")) status = ubi_same(&s, a.data, a.len, b.data, b.len, out, out_len, &len);
        if (!strcmp(call, "diff")) status = ubi_diff(&s, a.data, a.len, b.data, b.len, out, out_len, &len);
        if (!strcmp(call, "change"))
            status = ubi_change(&s, a.data, a.len, blocks, bads, keep, x, y, b.data, b.len, out, out_len, &len, pages,
                                pages_room, &pages_len);
        if (!strcmp(call, "rename"))
            status = ubi_rename(&s, a.data, a.len, blocks, bads, keep, x, b.data, b.len, out, out_len, &len, pages,
                                pages_room, &pages_len);
        if (!strcmp(call, "update"))
            status = ubi_update(&s, a.data, a.len, blocks, bads, keep, b.data, b.len, c.data, c.len, out, out_len, &len,
                                pages, pages_room, &pages_len);
        allocations = 0;
        uint64_t took = now() - start;
        size_t here = status == UBI_NO_MEMORY ? out_len : filled(len, out_len);
        size_t there = status == UBI_NO_MEMORY ? pages_room : filled(pages_len, pages_room);
        int kept = is_kept(a) & (is_one || is_kept(b)) & is_kept(c) & is_kept(bad) & !memcmp(&s, &before, sizeof s)
            & is_rest_kept(out, here, out_len) & is_rest_kept(pages, there, pages_room);
        printf("%u %zu %d %zu %llu\n", status, len, kept, pages_len, (unsigned long long)took);
        fwrite(out, 1, here, stdout);
        fwrite(pages, 1, there, stdout);
        fflush(stdout);
        free(out);
        free(pages);
    }
    return 0;
}
