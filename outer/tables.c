#include "tables.h"

struct memory memory_at_start(nk_frame first_free, uint64_t frames)
{
        struct memory memory = {first_free, frames, first_free, frames};
        return memory;
}

void *frame_bytes(nk_frame frame)
{
        nk_address address = NK_DIRECT_MAP + frame * NK_PAGE;
        /* Where the compiler knew the address, it might take the MOV with a 64-bit offset (A0 to A3), which the machine
         * doesn't have: so it is kept from knowing. */
        __asm__("" : "+r"(address));
        return (void *)address;
}

/* A frame that was given back has in its first eight bytes the one that was given back before it. */
nk_frame take_frame(struct memory *memory)
{
        nk_frame frame = memory->given_back;
        if (frame == memory->frames)
                return memory->next < memory->frames ? memory->next++ : memory->frames;
        nk_frame *before = frame_bytes(frame);
        memory->given_back = *before;
        *before = 0;
        return frame;
}

void forget_page(nk_address address)
{
        __asm__ volatile("invlpg (%0)" : : "r"(address) : "memory");
}

/* The direct map's tables are the last frames before the first free one: one of level 3, one of level 2, and those of
 * level 1 (docs/MACHINE.md, 3). */
static uint64_t count_direct_leaves(const struct memory *memory)
{
        return (memory->frames + NK_ENTRIES - 1) / NK_ENTRIES;
}

nk_frame direct_map_table(const struct memory *memory)
{
        return memory->first_free - count_direct_leaves(memory) - 2;
}

struct place direct_map_leaf(const struct memory *memory, nk_frame frame)
{
        struct place place;
        place.table = memory->first_free - count_direct_leaves(memory) + frame / NK_ENTRIES;
        place.index = (unsigned)(frame % NK_ENTRIES);
        return place;
}

/* Only a frame of data can have a writable leaf, but for the trap stack, which take_frame never gives. */
uint64_t give_frame(struct memory *memory, nk_frame frame)
{
        if (frame < memory->first_free || frame >= memory->next)
                return NK_BAD_FRAME;
        if (!(read_entry(direct_map_leaf(memory, frame)) & NK_WRITABLE))
                return NK_NOT_DATA;
        *(nk_frame *)frame_bytes(frame) = memory->given_back;
        memory->given_back = frame;
        return NK_ACCEPTED;
}

/* A frame past memory has no leaf in the direct map, so that no table would be the one that holds it. */
static uint64_t write_direct_leaf(const struct memory *memory, nk_frame frame, unsigned rights)
{
        if (frame >= memory->frames)
                return NK_BAD_FRAME;
        uint64_t answer = write_leaf(direct_map_leaf(memory, frame), frame, rights);
        forget_page(NK_DIRECT_MAP + frame * NK_PAGE);
        return answer;
}

uint64_t make_read_only(const struct memory *memory, nk_frame frame)
{
        return write_direct_leaf(memory, frame, NK_CAN_READ);
}

uint64_t make_writable(const struct memory *memory, nk_frame frame)
{
        return write_direct_leaf(memory, frame, NK_CAN_WRITE);
}

uint64_t declare_table(const struct memory *memory, unsigned level, nk_frame frame)
{
        uint64_t answer = make_read_only(memory, frame);
        if (answer != NK_ACCEPTED)
                return answer;
        answer = nk_declare_table(level, frame).value;
        /* Of a frame that isn't data this is refused in its turn, and changes nothing. */
        if (answer != NK_ACCEPTED)
                make_writable(memory, frame);
        return answer;
}

uint64_t undo_table(struct memory *memory, nk_frame table)
{
        uint64_t answer = nk_remove_table(table).value;
        if (answer == NK_ACCEPTED)
                answer = make_writable(memory, table);
        /* This is refused of a frame that take_frame didn't give, which isn't its to give again. */
        if (answer == NK_ACCEPTED)
                give_frame(memory, table);
        return answer;
}

uint64_t link_table(struct place place, nk_frame lower)
{
        return nk_write_entry(place.table, place.index, nk_link(lower)).value;
}

uint64_t write_leaf(struct place place, nk_frame frame, unsigned rights)
{
        return nk_write_entry(place.table, place.index, nk_leaf(frame, rights)).value;
}

uint64_t undo_entry(struct place place)
{
        return nk_write_entry(place.table, place.index, 0).value;
}

nk_entry read_entry(struct place place)
{
        return ((const volatile nk_entry *)frame_bytes(place.table))[place.index];
}

uint64_t make_root(struct memory *memory, nk_frame *root)
{
        struct place direct_map;
        *root = take_frame(memory);
        uint64_t answer = declare_table(memory, 4, *root);
        if (answer != NK_ACCEPTED)
                return answer;
        direct_map.table = *root;
        direct_map.index = NK_DIRECT_MAP_INDEX;
        return link_table(direct_map, direct_map_table(memory));
}

uint64_t load_root(nk_frame root)
{
        return nk_load_root(root).value;
}

/* Where a table of a level, 4 to 1, has the entry of an address. */
static struct place place_in(nk_frame table, unsigned level, nk_address address)
{
        struct place place;
        place.table = table;
        place.index = (unsigned)(address >> (12 + 9 * (level - 1))) % NK_ENTRIES;
        return place;
}

static nk_frame linked_table(struct place place)
{
        return (read_entry(place) & NK_FRAME_BITS) / NK_PAGE;
}

static uint64_t link_new_table(struct memory *memory, struct place place, unsigned level)
{
        nk_frame table = take_frame(memory);
        uint64_t answer = declare_table(memory, level, table);
        if (answer == NK_ACCEPTED)
                return link_table(place, table);
        give_frame(memory, table);
        return answer;
}

/* Bits 63 to 47 are equal. */
static int is_canonical(nk_address address)
{
        uint64_t upper = address >> 47;
        return upper == 0 || upper == 0x1FFFF;
}

uint64_t map_page(struct memory *memory, nk_frame root, nk_address address, nk_frame frame, unsigned rights)
{
        struct place place = place_in(root, 4, address);
        if (!is_canonical(address))
                return NK_NOT_CANONICAL;
        if (place.index == NK_KERNEL_SLOT_INDEX)
                return NK_KERNEL_SLOT;
        for (unsigned level = 3; level >= 1; level--) {
                if (!(read_entry(place) & NK_PRESENT)) {
                        uint64_t answer = link_new_table(memory, place, level);
                        if (answer != NK_ACCEPTED)
                                return answer;
                }
                place = place_in(linked_table(place), level, address);
        }
        uint64_t answer = write_leaf(place, frame, rights);
        forget_page(address);
        return answer;
}

struct place entry_of_page(nk_frame root, nk_address address, unsigned level)
{
        struct place place = place_in(root, 4, address);
        for (unsigned lower = 3; lower >= level; lower--)
                place = place_in(linked_table(place), lower, address);
        return place;
}

struct place leaf_of_page(nk_frame root, nk_address address)
{
        return entry_of_page(root, address, 1);
}

/* The root's last entry is the nested kernel's, and no call changes it. */
static uint64_t undo_tables(struct memory *memory, nk_frame table, unsigned level)
{
        unsigned entries = level == 4 ? NK_KERNEL_SLOT_INDEX : NK_ENTRIES;
        for (struct place place = {table, 0}; place.index < entries; place.index++) {
                if (!(read_entry(place) & NK_PRESENT))
                        continue;
                nk_frame lower = linked_table(place);
                uint64_t answer = undo_entry(place);
                if (answer == NK_ACCEPTED && level > 1)
                        answer = undo_tables(memory, lower, level - 1);
                if (answer != NK_ACCEPTED)
                        return answer;
        }
        return undo_table(memory, table);
}

/* CR3 holds the root's address. */
static nk_frame root_in_use(void)
{
        nk_address root;
        __asm__ volatile("movq %%cr3, %0" : "=r"(root));
        return root / NK_PAGE;
}

uint64_t undo_root(struct memory *memory, nk_frame root)
{
        struct place direct_map = {root, NK_DIRECT_MAP_INDEX};
        if (root == root_in_use())
                return NK_STILL_LINKED;
        uint64_t answer = undo_entry(direct_map);
        return answer == NK_ACCEPTED ? undo_tables(memory, root, 4) : answer;
}
