#include "programs.h"

/* A frame that was given back holds what another left there: so what the program doesn't fill is cleared. */
static void fill_page(const struct program *program, nk_address page, char *bytes)
{
        uint64_t size = page < program->zeros ? program->zeros - page : 0;
        if (size > NK_PAGE)
                size = NK_PAGE;
        __builtin_memcpy(bytes, (const char *)program + (page - program->start), size);
        __builtin_memset(bytes + size, 0, NK_PAGE - size);
}

static uint64_t map_filled_page(struct memory *memory, nk_frame root, const struct program *program, nk_address page)
{
        unsigned rights = page < program->data ? NK_CAN_EXECUTE : NK_CAN_WRITE;
        nk_frame frame = take_frame(memory);
        if (frame == memory->frames)
                return NK_BAD_FRAME;
        fill_page(program, page, frame_bytes(frame));
        uint64_t answer = map_page(memory, root, page, frame, rights | NK_FOR_USER);
        if (answer != NK_ACCEPTED)
                give_frame(memory, frame);
        return answer;
}

static uint64_t unmap_pages(struct memory *memory, nk_frame root, nk_address page, nk_address end)
{
        for (; page < end; page += NK_PAGE) {
                struct place leaf = leaf_of_page(root, page);
                nk_frame frame = (read_entry(leaf) & NK_FRAME_BITS) / NK_PAGE;
                uint64_t answer = undo_entry(leaf);
                forget_page(page);
                if (answer == NK_ACCEPTED)
                        answer = give_frame(memory, frame);
                if (answer != NK_ACCEPTED)
                        return answer;
        }
        return NK_ACCEPTED;
}

uint64_t map_program(struct memory *memory, nk_frame root, const struct program *program)
{
        for (nk_address page = program->start; page < program->end; page += NK_PAGE) {
                uint64_t answer = map_filled_page(memory, root, program, page);
                if (answer != NK_ACCEPTED) {
                        unmap_pages(memory, root, program->start, page);
                        return answer;
                }
        }
        return NK_ACCEPTED;
}

uint64_t unmap_program(struct memory *memory, nk_frame root, const struct program *program)
{
        return unmap_pages(memory, root, program->start, program->end);
}
