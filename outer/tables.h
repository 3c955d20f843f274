/* Page tables by the nested kernel's calls. Each function answers NK_ACCEPTED, or the number of the rule that was
 * broken (nk.h): the value of the call that decided, or its own where it refuses before any call. */
#ifndef TABLES_H
#define TABLES_H

#include <stdint.h>

#include "nk.h"

/* The memory as kernel_main is given it, the next frame that was never taken, and the frame that was given back last,
 * or the number of frames where none is left of these. */
struct memory {
        nk_frame first_free;
        uint64_t frames;
        nk_frame next;
        nk_frame given_back;
};

/* An entry of a page table. */
struct place {
        nk_frame table;
        unsigned index;
};

struct memory memory_at_start(nk_frame first_free, uint64_t frames);

/* A free frame: one that was given back, the last first, and else the next that was never taken. The number of frames,
 * which is none, where none is left. A frame that was never taken holds zeros, and so does a table's that was given
 * back; one of data holds what it held when it was given back, but for its first eight bytes, which are zeros. */
nk_frame take_frame(struct memory *memory);

/* Gives a frame back that take_frame gave, and that nothing maps any more but the direct map. Refused are a frame that
 * take_frame didn't give (NK_BAD_FRAME), and one that the direct map doesn't let be written, a table or a declared page
 * say (NK_NOT_DATA). Till it is taken again its first eight bytes are the list's: who writes them loses the frames that
 * were given back before. A frame that is given back twice isn't noticed: from then on take_frame gives it again and
 * again, to holders that don't know of each other. */
uint64_t give_frame(struct memory *memory, nk_frame frame);

/* The bytes of a frame in the direct map. */
void *frame_bytes(nk_frame frame);

/* Drops what the processor keeps of a page: call 3 leaves that. */
void forget_page(nk_address address);

/* The direct map's level 3 table, and its leaf of a frame. */
nk_frame direct_map_table(const struct memory *memory);
struct place direct_map_leaf(const struct memory *memory, nk_frame frame);

/* By call 3: the direct map's leaf of a frame lets it be read alone, or written again. */
uint64_t make_read_only(const struct memory *memory, nk_frame frame);
uint64_t make_writable(const struct memory *memory, nk_frame frame);

/* By calls 3 and 2: a free frame is made read-only, and becomes an empty table. Where call 2 is refused it can be
 * written again. The undoing, by calls 4 and 3: an empty table that nothing links is a frame of data again, can be
 * written, and is given back where take_frame gave it: so it isn't given back once more. */
uint64_t declare_table(const struct memory *memory, unsigned level, nk_frame frame);
uint64_t undo_table(struct memory *memory, nk_frame table);

/* By call 3: an entry becomes a link, a leaf, or empty. Of a page whose leaf changes the kernel drops what the
 * processor keeps, by forget_page: so a page is unmapped by undo_entry(leaf_of_page(root, address)), and that. */
uint64_t link_table(struct place place, nk_frame lower);
uint64_t write_leaf(struct place place, nk_frame frame, unsigned rights);
uint64_t undo_entry(struct place place);

/* An entry as it stands, read through the direct map. */
nk_entry read_entry(struct place place);

/* A new root in a free frame, with the direct map linked; the nested kernel gives it the kernel slot. By call 5 it is
 * loaded. */
uint64_t make_root(struct memory *memory, nk_frame *root);
uint64_t load_root(nk_frame root);

/* Undoes a root, and all tables below it but the direct map's; no other root may link one of these. Their frames are
 * given back. What their leaves named stays as it is. Of the root in use the answer is NK_STILL_LINKED, without a
 * call: without the direct map's link, which goes first, the kernel would reach no table any more. */
uint64_t undo_root(struct memory *memory, nk_frame root);

/* Maps a page to a frame below a root, with the rights of nk.h, and takes frames for the tables that are missing. What
 * the page was mapped to before is replaced. Before a frame is taken NK_NOT_CANONICAL refuses an address that isn't
 * canonical, and NK_KERNEL_SLOT one in the kernel slot. A page of the direct map isn't refused: its tables are those of
 * every root that links them, and frame_bytes of its own frame then leads to another. */
uint64_t map_page(struct memory *memory, nk_frame root, nk_address address, nk_frame frame, unsigned rights);

/* Of a page that map_page has mapped below this root, the entry in the table of a level, 4 to 1: a link, and at level 1
 * the leaf. Its place names the table of that level. */
struct place entry_of_page(nk_frame root, nk_address address, unsigned level);
struct place leaf_of_page(nk_frame root, nk_address address);

#endif
