/*
 * The planner's static library, libbootplan_c.a, for C99 and C++ on x86-64 Linux.
 *
 * The first part declares what the library exports. A list passes as words of 64 bits with the number
 * of words behind it. The second part has a struct for each kind of item, and functions that pass
 * arrays of them: with these a caller counts in items and writes no casts.
 *
 * An answer is BOOTPLAN_DONE, a refusal (1 to 29), or one of the three numbers from 253 on;
 * bootplan_code_text says each in words. Any answer but BOOTPLAN_DONE leaves every lent buffer as found.
 * Each call looks at its own ranges for refusals 4 and 5; of a text all ranges are looked at first.
 *
 * The library allocates nothing and keeps nothing between calls. It works on the stack. The most that was
 * measured, in KiB rounded up (docs/PERFORMANCE.md says on what): bootplan_plan took 180 of it,
 * bootplan_place_pool 128, bootplan_select_ram 96, bootplan_build 58, bootplan_request 43,
 * bootplan_vtl2_ranges 31. Nothing proves a bound, so leave room.
 *
 * The library asks nothing of numbers, lists and tables: whatever they hold is answered or refused. Of
 * pointers a caller owes, and nothing checks it:
 *
 *   - each is good for the length beside it, for writing too where it is not to const;
 *   - each is aligned as its type is;
 *   - none is null. In the first part this holds for a length of 0 too. In the second an array may be
 *     null: as an empty list where its count is 0; otherwise, as for a table that is null, the answer
 *     is BOOTPLAN_BAD_NUMBER;
 *   - what is lent for writing overlaps nothing else that is lent in the same call;
 *   - no other thread writes what is lent, or reads what is lent for writing, before the call returns.
 */
#ifndef BOOTPLAN_H
#define BOOTPLAN_H

#include <stdbool.h>
#include <stddef.h>
#include <stdint.h>

#ifdef __cplusplus
extern "C" {
#endif

/* Answers. */
enum {
    BOOTPLAN_DONE = 0,
    BOOTPLAN_LAST_REFUSAL = 29,
    BOOTPLAN_NO_ROOM = 253,    /* a lent buffer is too short */
    BOOTPLAN_BAD_NUMBER = 254, /* a number or a length stands for nothing */
    BOOTPLAN_BAD_TABLE = 255   /* the words of a table stand for none */
};

/* Who chooses the RAM. */
enum { BOOTPLAN_MODE_HOST = 0, BOOTPLAN_MODE_BOOT = 1 };

enum {
    BOOTPLAN_ISOLATION_NONE = 0,
    BOOTPLAN_ISOLATION_VBS = 1,
    BOOTPLAN_ISOLATION_SNP = 2,
    BOOTPLAN_ISOLATION_TDX = 3,
    BOOTPLAN_ISOLATION_CCA = 4
};

/* The type of an entry of the host's map. */
enum { BOOTPLAN_ENTRY_OTHER = 0, BOOTPLAN_ENTRY_PROTECTABLE = 1 };

/* Whose number of pages the private pool has. */
enum {
    BOOTPLAN_POOL_OFF = 0,
    BOOTPLAN_POOL_PAGES = 1,
    BOOTPLAN_POOL_RELEASE = 2,
    BOOTPLAN_POOL_DEBUG = 3
};

/* What a request is for, and from which end it is met. */
enum { BOOTPLAN_FOR_POOL = 0, BOOTPLAN_FOR_SIDECAR_NODE = 1, BOOTPLAN_FOR_TDX_TABLES = 2 };
enum { BOOTPLAN_LOW = 0, BOOTPLAN_HIGH = 1 };

/* UINT64_MAX is no power of two: a caller that may be given it as an alignment passes 0, to have it
 * refused (24). */
#define BOOTPLAN_ANY_NODE UINT64_MAX
#define BOOTPLAN_NO_ALIGNMENT UINT64_MAX

/* What an entry of the table is for. */
enum {
    BOOTPLAN_USAGE_FREE = 0,
    BOOTPLAN_USAGE_USED = 1,
    BOOTPLAN_USAGE_CONFIG = 2,
    BOOTPLAN_USAGE_RESERVED = 3,
    BOOTPLAN_USAGE_SIDECAR_IMAGE = 4,
    BOOTPLAN_USAGE_SIDECAR_NODE = 5,
    BOOTPLAN_USAGE_POOL = 6,
    BOOTPLAN_USAGE_TDX_TABLES = 7,
    BOOTPLAN_USAGE_LOG = 8,
    BOOTPLAN_USAGE_STATE_HEADER = 9,
    BOOTPLAN_USAGE_STATE_PAYLOAD = 10
};

/* The type of a range that is reported: RAM, or what it is reserved for. */
enum {
    BOOTPLAN_RANGE_RAM = 0,
    BOOTPLAN_RANGE_CONFIG = 1,
    BOOTPLAN_RANGE_RESERVED = 2,
    BOOTPLAN_RANGE_SIDECAR_IMAGE = 3,
    BOOTPLAN_RANGE_SIDECAR_NODE = 4,
    BOOTPLAN_RANGE_POOL = 5,
    BOOTPLAN_RANGE_TDX_TABLES = 6,
    BOOTPLAN_RANGE_LOG = 7,
    BOOTPLAN_RANGE_STATE_HEADER = 8,
    BOOTPLAN_RANGE_STATE_PAYLOAD = 9
};

/* The room, in items, that is asked for whatever the answer will need. */
#define BOOTPLAN_RAM_ROOM 64
#define BOOTPLAN_PIECE_ROOM 256
#define BOOTPLAN_RANGE_ROOM 256
#define BOOTPLAN_TABLE_ENTRIES 256

/* ---- What the library exports ---- */

/* The private pool's size in pages, by the release and by the debug table. */
uint64_t bootplan_release_hint(uint64_t vp_count, uint64_t mem_size);
uint64_t bootplan_debug_hint(uint64_t vp_count, uint64_t mem_size);

/* Whether there is a private pool. If so, its pages are stored; if not, size is left as found. A kind
 * above BOOTPLAN_POOL_DEBUG is off. mem_size is the bytes of the chosen RAM. Only a guest without
 * isolation has a private pool: that is for the caller to see to. */
bool bootplan_pool_size(uint8_t kind, uint64_t pages, bool host_given, uint64_t host_pages,
                        uint64_t vp_count, uint64_t mem_size, uint64_t *size);

/* So many bytes suffice for the plan of every text of that length; bootplan_plan asks for them. */
size_t bootplan_output_size(size_t text_len);

/* The plan of a text, written at the start of the output. */
uint8_t bootplan_plan(const uint8_t *text, size_t text_len, uint8_t *output, size_t output_len,
                      size_t *written);

/* The RAM that VTL2 gets. Of the map four words for each entry, of the imported ranges two, of the RAM
 * three; ram_len is at least 192. */
uint8_t bootplan_select_ram(uint8_t mode, uint8_t isolation, bool size_given, uint64_t ram_size,
                            uint64_t file_start, uint64_t file_end, const uint64_t *map,
                            size_t map_len, const uint64_t *imports, size_t imports_len,
                            uint64_t *ram, size_t ram_len, size_t *count);

/* Builds the table, which has to be empty. Of the RAM three words for each entry, of the configuration
 * and of pool ranges that are there already two, of each list at most 128 items. Reserved are eight
 * words: the reserved range, the sidecar image, the page tables and the log buffer, each 0 and 0 where
 * absent. */
uint8_t bootplan_build(const uint64_t *ram, size_t ram_len, uint64_t used_start, uint64_t used_end,
                       uint64_t state_start, uint64_t state_end, const uint64_t *reserved,
                       size_t reserved_len, const uint64_t *configs, size_t configs_len,
                       const uint64_t *pools, size_t pools_len, uint64_t *table,
                       size_t table_len);

/* Answers requests, each on the table that the one before left. Five words for each request, four for
 * each answer. A request that is refused, or whose words stand for none, leaves the table as it met it
 * and has the number in its answer; the call is then done all the same. */
uint8_t bootplan_request(uint64_t *table, size_t table_len, const uint64_t *requests,
                         size_t requests_len, uint64_t *answers, size_t answers_len);

/* Places the private pool. Three words for each piece; pieces_len is at least 768. */
uint8_t bootplan_place_pool(uint64_t *table, size_t table_len, uint64_t pages, bool split,
                            uint64_t *pieces, size_t pieces_len, size_t *count);

/* What the RAM is for, joined where ranges of one type touch. Three words for each range; ranges_len is
 * at least 768. */
uint8_t bootplan_vtl2_ranges(const uint64_t *table, size_t table_len, uint64_t *ranges,
                             size_t ranges_len, size_t *count);

/* ---- The same by structs ---- */

/* The end is excluded. */
typedef struct {
    uint64_t start;
    uint64_t end;
} bootplan_range;

/* An entry of the host's map. */
typedef struct {
    uint64_t start;
    uint64_t end;
    uint64_t node;
    uint64_t type; /* BOOTPLAN_ENTRY_.. */
} bootplan_entry;

typedef struct {
    uint64_t start;
    uint64_t end;
    uint64_t node;
} bootplan_ram_entry;

/* A piece of the private pool. */
typedef bootplan_ram_entry bootplan_piece;

typedef struct {
    uint64_t node; /* or BOOTPLAN_ANY_NODE */
    uint64_t length;
    uint64_t type;      /* BOOTPLAN_FOR_.. */
    uint64_t policy;    /* BOOTPLAN_LOW or BOOTPLAN_HIGH */
    uint64_t alignment; /* or BOOTPLAN_NO_ALIGNMENT */
} bootplan_request_t;

/* Where the number is not BOOTPLAN_DONE, nothing is handed out and the rest is 0. */
typedef struct {
    uint64_t number;
    uint64_t start;
    uint64_t end;
    uint64_t node;
} bootplan_answer;

typedef struct {
    uint64_t start;
    uint64_t end;
    uint64_t type; /* BOOTPLAN_RANGE_.. */
} bootplan_typed_range;

typedef struct {
    uint64_t start;
    uint64_t end;
    uint64_t node;
    uint64_t usage; /* BOOTPLAN_USAGE_.. */
} bootplan_table_entry;

/* All zero is the empty table, which a build asks for. What lies behind the count is not looked at. */
typedef struct {
    uint64_t count;
    uint64_t has_pool;
    bootplan_table_entry entries[BOOTPLAN_TABLE_ENTRIES];
} bootplan_table;

/* What a build keeps in the used range beside the state and the configuration; 0 and 0 is absent. */
typedef struct {
    bootplan_range reserved;
    bootplan_range sidecar_image;
    bootplan_range page_tables;
    bootplan_range log_buffer;
} bootplan_reserved;

#define BOOTPLAN_WORDS(type) (sizeof(type) / sizeof(uint64_t))
#define BOOTPLAN_HAS_WORDS(type, words) \
    typedef char type##_has_words[sizeof(type) == (words) * sizeof(uint64_t) ? 1 : -1]

typedef char bootplan_size_is_a_word[sizeof(size_t) == sizeof(uint64_t) ? 1 : -1];
BOOTPLAN_HAS_WORDS(bootplan_range, 2);
BOOTPLAN_HAS_WORDS(bootplan_entry, 4);
BOOTPLAN_HAS_WORDS(bootplan_ram_entry, 3);
BOOTPLAN_HAS_WORDS(bootplan_request_t, 5);
BOOTPLAN_HAS_WORDS(bootplan_answer, 4);
BOOTPLAN_HAS_WORDS(bootplan_typed_range, 3);
BOOTPLAN_HAS_WORDS(bootplan_table_entry, 4);
BOOTPLAN_HAS_WORDS(bootplan_table, 1026);
BOOTPLAN_HAS_WORDS(bootplan_reserved, 8);

/* What a selection is given. */
typedef struct {
    uint8_t mode;
    uint8_t isolation;
    bool size_given;
    uint64_t ram_size; /* looked at if size_given */
    bootplan_range file;
    const bootplan_entry *map;
    size_t map_count;
    const bootplan_range *imports;
    size_t import_count;
} bootplan_selection;

/* What a build is given. */
typedef struct {
    const bootplan_ram_entry *ram;
    size_t ram_count;
    bootplan_range used;
    bootplan_range state;
    bootplan_reserved reserved;
    const bootplan_range *configs;
    size_t config_count;
    const bootplan_range *pools;
    size_t pool_count;
} bootplan_build_input;

/* Whether items can be lent: they are somewhere, and their bytes can be counted. */
static inline bool bootplan_lendable(const void *items, size_t count, size_t words)
{
    return count == 0 || (items != NULL && count <= SIZE_MAX / sizeof(uint64_t) / words);
}

/* A pointer that is not null, where nothing is read or written through one that is. */
static inline const uint64_t *bootplan_words_in(const void *items)
{
    static const uint64_t nothing[1] = {0};
    return items != NULL ? (const uint64_t *)items : nothing;
}

static inline uint64_t *bootplan_words_out(void *items)
{
    static uint64_t nothing[1];
    return items != NULL ? (uint64_t *)items : nothing;
}

#define BOOTPLAN_LENDABLE(items, count) \
    bootplan_lendable((items), (count), BOOTPLAN_WORDS(*(items)))
#define BOOTPLAN_LIST(items, count) bootplan_words_in(items), (count) * BOOTPLAN_WORDS(*(items))
#define BOOTPLAN_BUFFER(items, count) bootplan_words_out(items), (count) * BOOTPLAN_WORDS(*(items))

/* bootplan_plan of characters. */
static inline uint8_t bootplan_plan_text(const char *text, size_t text_len, char *output,
                                         size_t output_len, size_t *written)
{
    if ((text == NULL && text_len != 0) || (output == NULL && output_len != 0))
        return BOOTPLAN_BAD_NUMBER;
    return bootplan_plan((const uint8_t *)(text != NULL ? text : ""), text_len,
                         output != NULL ? (uint8_t *)output : (uint8_t *)bootplan_words_out(NULL),
                         output_len, written);
}

/* bootplan_select_ram: room is that of ram, and count becomes how many entries it has. */
static inline uint8_t bootplan_choose_ram(const bootplan_selection *by, bootplan_ram_entry *ram,
                                          size_t room, size_t *count)
{
    if (!BOOTPLAN_LENDABLE(by->map, by->map_count) ||
        !BOOTPLAN_LENDABLE(by->imports, by->import_count) || !BOOTPLAN_LENDABLE(ram, room))
        return BOOTPLAN_BAD_NUMBER;
    return bootplan_select_ram(by->mode, by->isolation, by->size_given, by->ram_size,
                               by->file.start, by->file.end, BOOTPLAN_LIST(by->map, by->map_count),
                               BOOTPLAN_LIST(by->imports, by->import_count),
                               BOOTPLAN_BUFFER(ram, room), count);
}

/* bootplan_build. */
static inline uint8_t bootplan_table_build(bootplan_table *table, const bootplan_build_input *by)
{
    if (!BOOTPLAN_LENDABLE(table, 1) || !BOOTPLAN_LENDABLE(by->ram, by->ram_count) ||
        !BOOTPLAN_LENDABLE(by->configs, by->config_count) ||
        !BOOTPLAN_LENDABLE(by->pools, by->pool_count))
        return BOOTPLAN_BAD_NUMBER;
    return bootplan_build(BOOTPLAN_LIST(by->ram, by->ram_count), by->used.start, by->used.end,
                          by->state.start, by->state.end, BOOTPLAN_LIST(&by->reserved, 1),
                          BOOTPLAN_LIST(by->configs, by->config_count),
                          BOOTPLAN_LIST(by->pools, by->pool_count), BOOTPLAN_BUFFER(table, 1));
}

/* bootplan_request: so many requests, and room for as many answers. */
static inline uint8_t bootplan_table_request(bootplan_table *table,
                                             const bootplan_request_t *requests, size_t count,
                                             bootplan_answer *answers)
{
    if (!BOOTPLAN_LENDABLE(table, 1) || !BOOTPLAN_LENDABLE(requests, count) ||
        !BOOTPLAN_LENDABLE(answers, count))
        return BOOTPLAN_BAD_NUMBER;
    return bootplan_request(BOOTPLAN_BUFFER(table, 1), BOOTPLAN_LIST(requests, count),
                            BOOTPLAN_BUFFER(answers, count));
}

/* bootplan_place_pool: room is that of pieces, and count becomes how many they are. */
static inline uint8_t bootplan_table_place_pool(bootplan_table *table, uint64_t pages, bool split,
                                                bootplan_piece *pieces, size_t room,
                                                size_t *count)
{
    if (!BOOTPLAN_LENDABLE(table, 1) || !BOOTPLAN_LENDABLE(pieces, room))
        return BOOTPLAN_BAD_NUMBER;
    return bootplan_place_pool(BOOTPLAN_BUFFER(table, 1), pages, split,
                               BOOTPLAN_BUFFER(pieces, room), count);
}

/* bootplan_vtl2_ranges: room is that of ranges, and count becomes how many they are. */
static inline uint8_t bootplan_table_ranges(const bootplan_table *table,
                                            bootplan_typed_range *ranges, size_t room,
                                            size_t *count)
{
    if (!BOOTPLAN_LENDABLE(table, 1) || !BOOTPLAN_LENDABLE(ranges, room))
        return BOOTPLAN_BAD_NUMBER;
    return bootplan_vtl2_ranges(BOOTPLAN_LIST(table, 1), BOOTPLAN_BUFFER(ranges, room), count);
}

#undef BOOTPLAN_WORDS
#undef BOOTPLAN_HAS_WORDS
#undef BOOTPLAN_LENDABLE
#undef BOOTPLAN_LIST
#undef BOOTPLAN_BUFFER

/* The word for a type of range in the plan's output. */
static inline const char *bootplan_range_word(uint64_t type)
{
    static const char *const words[] = {
        "ram",  "config",     "reserved", "sidecar-image", "sidecar-node",
        "pool", "tdx-tables", "log",      "state-header",  "state-payload",
    };
    return type < sizeof words / sizeof *words ? words[type] : "";
}

/* A refusal in words, from 1 to BOOTPLAN_LAST_REFUSAL. */
static inline const char *bootplan_refusal_text(uint8_t number)
{
    static const char *const texts[] = {
        "",
        "a line is not of its form",
        "a line is missing, stands twice or is out of order",
        "the text has more than 65,536 bytes",
        "a range ends at or below its start, or is not of whole pages",
        "the map, the imported ranges or the RAM overlap or are not in order",
        "too many entries or imported ranges, or no map in boot mode",
        "more than 64 nodes, or nodes that are not 0, 1, 2 and so on",
        "the RAM size is below the file's length",
        "a node's share, or an isolated guest's range, does not fit in 64 bits",
        "a part of the file lies in no entry of the map",
        "an imported range reaches into the file from outside",
        "a part of an imported range lies in no entry of the map",
        "a node has too little free memory for its share",
        "too many ranges of RAM, or memory is cut into too many free pieces",
        "the RAM has more than 64 ranges",
        "the table is not empty",
        "more than 20 reserved ranges",
        "two reserved ranges overlap",
        "a reserved range is not inside the used range",
        "too many pool ranges or used pieces, or a pool range overlaps another or the used range",
        "the used range or a pool range is not inside the RAM",
        "the length is 0",
        "the length is above 2^64 - 4,096",
        "the alignment is no power of two",
        "no free range is long enough, on that node, with that alignment",
        "the table would have more than 256 entries",
        "the pool has 2^52 pages or more",
        "the pool is split, and has too few pages or no node",
        "the pool is split, and a node has no free range for its piece",
    };
    return number < sizeof texts / sizeof *texts ? texts[number] : "";
}

/* An answer in words. */
static inline const char *bootplan_code_text(uint8_t code)
{
    switch (code) {
    case BOOTPLAN_DONE:
        return "done";
    case BOOTPLAN_NO_ROOM:
        return "a lent buffer is too short";
    case BOOTPLAN_BAD_NUMBER:
        return "a number or a length stands for nothing";
    case BOOTPLAN_BAD_TABLE:
        return "the words of a table stand for none";
    default:
        return bootplan_refusal_text(code);
    }
}

#ifdef __cplusplus
}
#endif

#endif
