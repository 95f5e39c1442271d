/* UBI images in memory: the proved core of ubi_tool, for C. docs/C.md says more.
 *
 * Each call returns a status: UBI_DONE; UBI_REFUSED if an image is refused, a volume can't be read, an edit can't be planned, or two
 * images differ; UBI_LIMIT if the sizes are no geometry; UBI_NO_MEMORY if memory ran out. It puts the first bytes of its answer into
 * out, as many as there is room for, and the number of bytes of the whole answer into *len, as snprintf does: so a call with too
 * small a buffer says which size is needed. out_len may be 0.
 *
 * The answer is what ubi_tool prints, in whole lines without a zero byte at the end. If the status of ubi_read or ubi_normalise is
 * UBI_DONE, the answer is the bytes of the file that ubi_tool writes. If the status is UBI_NO_MEMORY, *len is 0 and out is as it was;
 * but ubi_read and ubi_normalise may then have put first bytes of their answer into it.
 *
 * What the caller must ensure, since nothing checks it here:
 *   - No pointer is NULL, not even one with the length 0, and each points to as many bytes as its length says.
 *   - out, *len, pages and *pages_len overlap nothing else that is passed. Images may overlap each other.
 *   - During the call no one writes what is passed, and no one reads out, *len, pages and *pages_len.
 *   - malloc, realloc and free belong to one allocator, and behave like those of the C library. No call is made from a signal
 *     handler, or from the forked child of a process with threads.
 *
 * No call keeps anything, and none writes anything but out, up to out_len bytes, *len, and pages and *pages_len likewise. Calls from
 * several threads may run at the same time. A call frees the memory that it allocates before it returns.
 */
#ifndef UBI_H
#define UBI_H

#include <stdbool.h>
#include <stddef.h>
#include <stdint.h>

#ifdef __cplusplus
extern "C" {
#endif

/* The status that a call returns. */
enum { UBI_DONE = 0, UBI_REFUSED = 1, UBI_LIMIT = 2, UBI_NO_MEMORY = 3 };

/* The greatest number of eraseblocks that a device can have: for `pebs`, if the number isn't known. */
#define UBI_MOST_PEBS 1048576u

/* The numbers of a geometry. */
struct ubi_sizes {
    uint32_t peb_size;    /* bytes of an eraseblock */
    uint32_t page;        /* bytes of a page, the smallest that can be programmed */
    uint32_t vid_offset;  /* the offset of the volume-identifier header in an eraseblock */
    uint32_t data_offset; /* the offset of the data in an eraseblock */
    uint32_t pebs;        /* eraseblocks of the device: an image has no more */
};

/* The geometries that the headers of a dump give, most likely one: a line for each, such as "--peb 131072 --page 2048 --vid 2048
 * --data 4096", with " --oob N" if N out-of-band bytes follow each page, and " --start N --length N" if the image is only a part of
 * the bytes. UBI_REFUSED if none can be found. */
uint32_t ubi_geometry(const uint8_t *image, size_t image_len, uint8_t *out, size_t out_len, size_t *len);

/* The number of eraseblocks in each state, and the numbers of the image. UBI_REFUSED, and the line of the cause, if the image is
 * refused; the same holds for all calls below. */
uint32_t ubi_check(const struct ubi_sizes *sizes, const uint8_t *image, size_t image_len, uint8_t *out, size_t out_len, size_t *len);

/* The sizes of the device, and a line for each volume. */
uint32_t ubi_list(const struct ubi_sizes *sizes, const uint8_t *image, size_t image_len, uint8_t *out, size_t out_len, size_t *len);

/* The two headers of an eraseblock: what each is, and its bytes. This also works for an image that is refused, unless the cause is its
 * length. */
uint32_t ubi_show(const struct ubi_sizes *sizes, const uint8_t *image, size_t image_len, uint32_t block, uint8_t *out, size_t out_len,
    size_t *len);

/* A letter for each eraseblock, in rows of 64 after the number of the first. If the image is refused, the letters are those of the
 * headers alone, and the line of the refusal follows the rows. */
uint32_t ubi_map(const struct ubi_sizes *sizes, const uint8_t *image, size_t image_len, uint8_t *out, size_t out_len, size_t *len);

/* The bytes of the volume with this number. */
uint32_t ubi_read(const struct ubi_sizes *sizes, const uint8_t *image, size_t image_len, uint32_t id, uint8_t *out, size_t out_len,
    size_t *len);

/* The normal image: one that means the same, and is the same for all images that do. It has at most two eraseblocks more than the
 * image, so image_len + 2 * peb_size bytes are enough room. If out is too small, the image is made twice, to count its bytes. */
uint32_t ubi_normalise(const struct ubi_sizes *sizes, const uint8_t *image, size_t image_len, uint8_t *out, size_t out_len, size_t *len);

/* Whether two images mean the same: UBI_DONE, and "same"; or UBI_REFUSED, and "different" or the line of the one that is refused. */
uint32_t ubi_same(const struct ubi_sizes *sizes, const uint8_t *left, size_t left_len, const uint8_t *right, size_t right_len,
    uint8_t *out, size_t out_len, size_t *len);

/* The differences of two images, a line for each, and then the answer of ubi_same. */
uint32_t ubi_diff(const struct ubi_sizes *sizes, const uint8_t *left, size_t left_len, const uint8_t *right, size_t right_len,
    uint8_t *out, size_t out_len, size_t *len);

/* The plan that gives the logical eraseblock lnum of the dynamic volume id new bytes, such that the image means the old or the new
 * wherever the power fails: in out a line for each step, such as "erase block=3" or "program block=7 page=2", and in pages the bytes
 * of the pages that the steps program, in the order of the steps, each page bytes long. pages is filled as out is, and *pages_len is
 * the number of bytes of all pages. If the status isn't UBI_DONE, there are no pages.
 *
 * bad has the numbers of the chip's bad eraseblocks, in any order; bads says how many there are. No step works on one of them, and each
 * reads 0xFF, whatever the image has there. For a chip that has some, a plan without them erases what must not be erased. The call holds
 * a copy of the image if bads isn't 0. If keep_blank is true, no step works on an eraseblock that is blank throughout either (docs/CHANGE.md
 * says when to want that). */
uint32_t ubi_change(const struct ubi_sizes *sizes, const uint8_t *image, size_t image_len, const uint32_t *bad, size_t bads,
    bool keep_blank, uint32_t id, uint32_t lnum, const uint8_t *bytes, size_t bytes_len, uint8_t *out, size_t out_len, size_t *len,
    uint8_t *pages, size_t pages_room, size_t *pages_len);

/* The plan that gives the volume id a new name, likewise. The name is written as ubi_list shows names: each byte as it is, or as \x
 * and two hexadecimal digits. */
uint32_t ubi_rename(const struct ubi_sizes *sizes, const uint8_t *image, size_t image_len, const uint32_t *bad, size_t bads,
    bool keep_blank, uint32_t id, const uint8_t *name, size_t name_len, uint8_t *out, size_t out_len, size_t *len, uint8_t *pages,
    size_t pages_room, size_t *pages_len);

/* The plan that edits whole volumes, all in one step, likewise: the image means what it meant, or what all edits make of it. edits is a
 * text with a line for each, done in this order:
 *
 *   rename NAME=NEW     the volume NAME gets the name NEW
 *   resize NAME=SIZE    it gets room for SIZE bytes, as 64KiB or 0x10000
 *   remove NAME         it is removed
 *   write NAME=LENGTH   its contents are the next LENGTH bytes of contents, a number in decimal digits
 *
 * Each line ends with a line feed, which may be left out after the last. Names are those that the volumes have in the image, written as
 * ubi_list shows them, and NAME ends at the first '='. A text without lines is allowed: the volume table is written again.
 *
 * A line for each volume that is written comes first in out, such as "volume 2 replaces 0 lebs=3 name=kernel", and then "steps N" and the
 * lines of the steps. UBI_REFUSED and "refused E1 BadEdit line=N" if line N, counted from 1, is none of these or wants more contents than
 * are left, or if contents are left after line N - 1, the last; this is judged before the image. */
uint32_t ubi_update(const struct ubi_sizes *sizes, const uint8_t *image, size_t image_len, const uint32_t *bad, size_t bads,
    bool keep_blank, const uint8_t *edits, size_t edits_len, const uint8_t *contents, size_t contents_len, uint8_t *out, size_t out_len,
    size_t *len, uint8_t *pages, size_t pages_room, size_t *pages_len);

#ifdef __cplusplus
}
#endif
#endif
