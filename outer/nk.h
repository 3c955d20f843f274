/* What an outer kernel knows of the machine and of the nested kernel: the layout, the bits of an entry, the calls as
 * functions, the rules that they are answered by. C11 and C++11, and the numbers alone for assembly. The sections
 * named are those of docs/MACHINE.md. */
#ifndef NK_H
#define NK_H

#ifdef __ASSEMBLER__
#define NK_NUMBER(number) number
#else
#include <stdint.h>
#define NK_NUMBER(number) ((uint64_t)number##ull)
#endif

/* The linear layout (4). */
#define NK_IMAGE NK_NUMBER(0xFFFFFFFF80000000)         /* an image's pages stand from here.. */
#define NK_IMAGE_END NK_NUMBER(0xFFFFFFFFC0000000)     /* ..and end at most here */
#define NK_DIRECT_MAP NK_NUMBER(0xFFFF800000000000)    /* physical address 0 */
#define NK_DESCRIPTORS NK_NUMBER(0xFFFFFF8000000000)   /* the descriptor table, read-only */
#define NK_TASK_STATE NK_NUMBER(0xFFFFFF8000000400)    /* the task-state segment, read-only */
#define NK_GATE NK_NUMBER(0xFFFFFF8000001000)          /* what a call of the nested kernel calls */
#define NK_HANDLER_SLOT NK_NUMBER(0xFFFFFF8000002000)  /* the trap handler's address, which call 1 sets */
#define NK_TRAP_STACK NK_NUMBER(0xFFFFFF8000003000)    /* its lowest byte */
#define NK_TRAP_STACK_END NK_NUMBER(0xFFFFFF8000004000)
#define NK_POOL NK_NUMBER(0xFFFFFF8000010000)          /* regions that call 7 allocates, read-only */
#define NK_POOL_SIZE 65536
#define NK_PAGE 4096
#define NK_ENTRIES 512                                 /* of a page table */
#define NK_DIRECT_MAP_INDEX 256                        /* the root's entries of direct map and kernel slot */
#define NK_KERNEL_SLOT_INDEX 511

/* The processor at the entry (12.1). RDI is the first free frame, RSI the number of frames; every other general
 * register but RSP is 0, CR2 is 0, and no translation is kept. */
#define NK_START_RSP NK_TRAP_STACK_END
#define NK_START_RFLAGS 2
#define NK_START_CR0 NK_NUMBER(0x80010001)
#define NK_START_CR4 NK_NUMBER(0x100020)
#define NK_START_EFER NK_NUMBER(0xD00)
#define NK_START_ROOT 5                                /* the frame of the opening's root page table */
#define NK_START_IDT_LIMIT 767

/* The selectors that deliveries push and IRETQ takes (13), and the flag that lets interrupts come. */
#define NK_SUPERVISOR_CS 0x08
#define NK_SUPERVISOR_SS 0x10
#define NK_USER_CS 0x1B
#define NK_USER_SS 0x23
#define NK_INTERRUPT_FLAG 0x200

/* Vectors (13, 4.1): a plan's are 32 to 47, and 3, 4 and 47 may be raised at CPL 3 by INT. */
#define NK_DIVIDE_ERROR 0
#define NK_BREAKPOINT 3
#define NK_UNDEFINED 6
#define NK_STACK_FAULT 12
#define NK_PROTECTION 13
#define NK_PAGE_FAULT 14
#define NK_FIRST_IRQ 32
#define NK_USER_VECTOR 47

/* Ports (11.6): what is written to the console, the next byte of INPUT, and 1 while one is left. */
#define NK_CONSOLE_PORT 0xE9
#define NK_INPUT_PORT 0xEA
#define NK_INPUT_LEFT_PORT 0xEB

/* The bits of an entry (14.3). A present entry has A set, and a leaf D where it has R/W; bits 9 to 11 are the outer
 * kernel's own. A link is a present entry of level 4, 3 or 2, a leaf one of level 1. */
#define NK_PRESENT NK_NUMBER(0x1)
#define NK_WRITABLE NK_NUMBER(0x2)
#define NK_USER NK_NUMBER(0x4)
#define NK_ACCESSED NK_NUMBER(0x20)
#define NK_DIRTY NK_NUMBER(0x40)
#define NK_LARGE NK_NUMBER(0x80)                       /* never admitted */
#define NK_GLOBAL NK_NUMBER(0x100)                     /* never admitted */
#define NK_OWN_BITS NK_NUMBER(0xE00)
#define NK_FRAME_BITS NK_NUMBER(0x000FFFFFFFFFF000)
#define NK_NOT_EXECUTABLE NK_NUMBER(0x8000000000000000)
#define NK_LINK_BITS NK_NUMBER(0x27)
#define NK_LEAF_BITS NK_NUMBER(0x21)
#define NK_WRITABLE_LEAF_BITS NK_NUMBER(0x63)

/* A call pushes sixteen bytes on the stack in use, the return address and the flags (5). Code that is compiled with a
 * red zone keeps data in the 128 bytes below RSP, so a call steps over them; code that is compiled with -mno-red-zone
 * defines this as 0, as outer/build does. */
#ifndef NK_RED_ZONE
#define NK_RED_ZONE 128
#endif

#ifndef __ASSEMBLER__

/* The calls (14.3). */
enum nk_number {
        NK_SET_HANDLER = 1,
        NK_DECLARE_TABLE = 2,
        NK_WRITE_ENTRY = 3,
        NK_REMOVE_TABLE = 4,
        NK_LOAD_ROOT = 5,
        NK_DECLARE_PAGES = 6,
        NK_ALLOCATE = 7,
        NK_FREE = 8,
        NK_WRITE = 9
};

/* The policies of a region. */
enum nk_policy { NK_WRITE_ONCE = 1, NK_APPEND_ONLY = 2, NK_NO_WRITE = 3, NK_WRITE_LOG = 4 };

/* An answer below 256 is one of these: the first rule that the call breaks, or 0. They are named as the rules are, but
 * for rule 23, NoWrite, whose name is the policy's. */
enum nk_rule {
        NK_ACCEPTED = 0,
        NK_BAD_CALL = 1,
        NK_BAD_FRAME = 2,
        NK_BAD_LEVEL = 3,
        NK_NOT_DATA = 4,
        NK_STILL_LOOSE = 5,
        NK_NOT_TABLE = 6,
        NK_BAD_INDEX = 7,
        NK_KERNEL_SLOT = 8,
        NK_BAD_BITS = 9,
        NK_BAD_TARGET = 10,
        NK_TOO_FREE = 11,
        NK_STILL_LINKED = 12,
        NK_NOT_EMPTY = 13,
        NK_NOT_ROOT = 14,
        NK_BAD_RANGE = 15,
        NK_BAD_POLICY = 16,
        NK_TOO_MANY_REGIONS = 17,
        NK_NO_ROOM = 18,
        NK_BAD_REGION = 19,
        NK_NOT_ALLOCATED = 20,
        NK_OUT_OF_BOUNDS = 21,
        NK_BAD_SOURCE = 22,
        NK_NO_WRITE_ALLOWED = 23,
        NK_WRITTEN_ONCE = 24,
        NK_NOT_AT_END = 25,
        NK_LOG_FULL = 26,
        NK_NOT_CANONICAL = 27
};

#define NK_FIRST_REGION 256

/* What a rule says is broken, for a message. */
static inline const char *nk_rule_text(uint64_t rule)
{
        static const char *const texts[28] = {
                "accepted",
                "BadCall: there is no call of this number",
                "BadFrame: the frame isn't in memory",
                "BadLevel: the level isn't 1 to 4",
                "NotData: the frame's kind isn't Data",
                "StillLoose: a leaf lets the frame be written, or is a user's",
                "NotTable: the frame is no page table",
                "BadIndex: the index exceeds 511",
                "KernelSlot: the root's entry 511 is the nested kernel's",
                "BadBits: the entry is present and its bits are out of form",
                "BadTarget: the entry names no frame that it may name",
                "TooFree: the kind of the leaf's frame forbids its rights",
                "StillLinked: a link names the table, or it is the root",
                "NotEmpty: an entry of the table is present",
                "NotRoot: the frame isn't a table of level 4",
                "BadRange: the size or the range of pages can't be",
                "BadPolicy: the policy isn't 1 to 4",
                "TooManyRegions: 256 regions are live",
                "NoRoom: no place fits, or more than 128 pages would be declared",
                "BadRegion: no live region has the identifier",
                "NotAllocated: the region was declared, not allocated",
                "OutOfBounds: the range is empty or passes the region's end",
                "BadSource: a byte of the source can't be read",
                "NoWrite: the region isn't to be written",
                "WrittenOnce: a byte of the range was written before",
                "NotAtEnd: the offset isn't where the last write ended",
                "LogFull: the record exceeds what is left of the log",
                "NotCanonical: the address isn't canonical"
        };
        return rule < 28 ? texts[rule] : "accepted, with a region's identifier";
}

/* The kinds of frames (7). The numbers are this header's own: no call takes or gives one. */
enum nk_kind {
        NK_DATA,
        NK_TABLE1,
        NK_TABLE2,
        NK_TABLE3,
        NK_TABLE4,
        NK_CODE,
        NK_GUARDED,
        NK_FIXED,
        NK_TRAP,
        NK_HIDDEN
};

/* Whether a leaf may have these bits where its frame has this kind; rule 11, and for Hidden rule 10. */
static inline int nk_kind_allows(enum nk_kind kind, uint64_t leaf)
{
        int executable = !(leaf & NK_NOT_EXECUTABLE);
        switch (kind) {
        case NK_DATA:
                return (leaf & NK_USER) || !executable;
        case NK_TRAP:
                return !(leaf & NK_USER) && !executable;
        case NK_HIDDEN:
                return 0;
        default:
                return !(leaf & (NK_WRITABLE | NK_USER)) && !executable;
        }
}

typedef uint64_t nk_frame;   /* the number of a frame: a physical address divided by 4,096 */
typedef uint64_t nk_address; /* a linear address */
typedef uint64_t nk_entry;   /* an entry of a page table */
typedef uint64_t nk_region;  /* the identifier of a region, 256 or more */

/* The kernel's own, which start.S calls with what the machine tells at the entry. Where it returns, the run ends. */
#ifdef __cplusplus
extern "C"
#endif
void kernel_main(nk_frame first_free, uint64_t frames);

/* Rights of a leaf, to be joined by |. Every leaf can be read. */
enum nk_rights { NK_CAN_READ = 0, NK_CAN_WRITE = 1, NK_CAN_EXECUTE = 2, NK_FOR_USER = 4 };

/* The entry of level 4, 3 or 2 that leads to a table of the next lower level. */
static inline nk_entry nk_link(nk_frame table)
{
        return table * NK_PAGE | NK_LINK_BITS;
}

/* The entry of level 1 that leads to a frame, with these rights. */
static inline nk_entry nk_leaf(nk_frame frame, unsigned rights)
{
        nk_entry leaf = frame * NK_PAGE | (rights & NK_CAN_WRITE ? NK_WRITABLE_LEAF_BITS : NK_LEAF_BITS);
        if (rights & NK_FOR_USER)
                leaf |= NK_USER;
        return rights & NK_CAN_EXECUTE ? leaf : leaf | NK_NOT_EXECUTABLE;
}

/* What a call is answered with. The place is the region's first address after an accepted call 7, else argument b. */
struct nk_answer {
        uint64_t value;
        nk_address place;
};

static inline int nk_is_accepted(struct nk_answer answer)
{
        return answer.value == NK_ACCEPTED || answer.value >= NK_FIRST_REGION;
}

/* Any call. The gate turns interrupts off as its second instruction and loads the caller's flags again as its last but
 * one, so the caller's IF may be set or clear. It changes RAX, RDX, R9 and R10; it reads memory (call 9) and changes
 * what mapped addresses hold, so nothing may be kept in registers across it. */
static inline struct nk_answer nk_call(uint64_t number, uint64_t a, uint64_t b, uint64_t c, uint64_t d)
{
        struct nk_answer answer;
        register uint64_t last __asm__("r8") = d;
#if NK_RED_ZONE
        /* LEA, since it leaves the flags. */
        __asm__ volatile("leaq -%c[zone](%%rsp), %%rsp\n\t"
                         "call *%%rax\n\t"
                         "leaq %c[zone](%%rsp), %%rsp"
                         : "=a"(answer.value), "=d"(answer.place)
                         : "0"(NK_GATE), "1"(b), "D"(number), "S"(a), "c"(c), "r"(last), [zone] "i"(NK_RED_ZONE)
                         : "r9", "r10", "cc", "memory");
#else
        __asm__ volatile("call *%%rax"
                         : "=a"(answer.value), "=d"(answer.place)
                         : "0"(NK_GATE), "1"(b), "D"(number), "S"(a), "c"(c), "r"(last)
                         : "r9", "r10", "cc", "memory");
#endif
        return answer;
}

/* Call 1: the address of the trap handler: trap_entry of traps.h, or assembly of one's own; no function of C. */
static inline struct nk_answer nk_set_handler(nk_address handler)
{
        return nk_call(NK_SET_HANDLER, handler, 0, 0, 0);
}

/* Call 2: a frame of data without a loose leaf becomes an empty table of a level, 1 to 4. */
static inline struct nk_answer nk_declare_table(unsigned level, nk_frame frame)
{
        return nk_call(NK_DECLARE_TABLE, level, frame, 0, 0);
}

/* Call 3: an entry of a table becomes this one. The translations that the processor keeps stay: see INVLPG. */
static inline struct nk_answer nk_write_entry(nk_frame table, unsigned index, nk_entry entry)
{
        return nk_call(NK_WRITE_ENTRY, table, index, entry, 0);
}

/* Call 4: an empty table that nothing links becomes a frame of data, with zeros. */
static inline struct nk_answer nk_remove_table(nk_frame table)
{
        return nk_call(NK_REMOVE_TABLE, table, 0, 0, 0);
}

/* Call 5: a table of level 4 becomes the root. */
static inline struct nk_answer nk_load_root(nk_frame table)
{
        return nk_call(NK_LOAD_ROOT, table, 0, 0, 0);
}

/* Call 6: mapped pages from an address on, size bytes of them, become a region, bytes as they stand; the answer is its
 * identifier. No leaf of their frames, the direct map's among them, may be writable or a user's. It can't be undone. */
static inline struct nk_answer nk_declare_pages(nk_address first, uint64_t size, enum nk_policy policy)
{
        return nk_call(NK_DECLARE_PAGES, first, size, (uint64_t)policy, 0);
}

/* Call 7: a region of size bytes in the pool, of zeros; the answer is its identifier and its place. */
static inline struct nk_answer nk_allocate(uint64_t size, enum nk_policy policy)
{
        return nk_call(NK_ALLOCATE, size, (uint64_t)policy, 0, 0);
}

/* Call 8: a region of the pool is let go. Its records stay in the log. */
static inline struct nk_answer nk_free(nk_region region)
{
        return nk_call(NK_FREE, region, 0, 0, 0);
}

/* Call 9: size bytes from the source go into a region, from an offset on. Its policy allows: NK_WRITE_ONCE no byte
 * twice, NK_APPEND_ONLY where the last write ended (0 before the first), NK_NO_WRITE none, NK_WRITE_LOG any. */
static inline struct nk_answer nk_write(nk_region region, uint64_t offset, const void *source, uint64_t size)
{
        return nk_call(NK_WRITE, region, offset, (nk_address)source, size);
}

#endif
#endif
