/* The worked example, planned from its text and by numbers; then a refusal and a short buffer. */
#include "bootplan.h"

#include <inttypes.h>
#include <stdio.h>
#include <stdlib.h>
#include <string.h>

#define LINES_ROOM 4096

static const char text[] = "shape\tb\tnone\t-\n"
                           "file\t200000\t210000\n"
                           "mem\t0\t400000\t0\tp\n"
                           "used\t200000\t204000\n"
                           "state\t200000\t202000\n"
                           "pool\tpages\t2\t-\t1\tn\n"
                           "get\t-\t1\tl\tt\t-\n";

/* The plan's lines, as they are put together. */
static char lines[LINES_ROOM];
static size_t lines_len;

static bootplan_table table;

static void put_range(const char *word, uint64_t start, uint64_t end)
{
    lines_len += (size_t)snprintf(lines + lines_len, LINES_ROOM - lines_len,
                                  "%s\t%" PRIx64 "\t%" PRIx64 "\t", word, start, end);
}

static void put_on_node(const char *word, uint64_t start, uint64_t end, uint64_t node)
{
    put_range(word, start, end);
    lines_len +=
        (size_t)snprintf(lines + lines_len, LINES_ROOM - lines_len, "%" PRIx64 "\n", node);
}

static void put_typed(uint64_t start, uint64_t end, uint64_t type)
{
    put_range("map", start, end);
    lines_len += (size_t)snprintf(lines + lines_len, LINES_ROOM - lines_len, "%s\n",
                                  bootplan_range_word(type));
}

static uint8_t select_and_build(bootplan_ram_entry *ram, size_t *ram_count)
{
    const bootplan_entry map[] = {{0, 0x400000, 0, BOOTPLAN_ENTRY_PROTECTABLE}};
    const bootplan_selection by = {
        .mode = BOOTPLAN_MODE_BOOT,
        .isolation = BOOTPLAN_ISOLATION_NONE,
        .file = {0x200000, 0x210000},
        .map = map,
        .map_count = 1,
    };
    uint8_t code = bootplan_choose_ram(&by, ram, BOOTPLAN_RAM_ROOM, ram_count);
    if (code != BOOTPLAN_DONE)
        return code;
    const bootplan_build_input build = {
        .ram = ram,
        .ram_count = *ram_count,
        .used = {0x200000, 0x204000},
        .state = {0x200000, 0x202000},
    };
    return bootplan_table_build(&table, &build);
}

/* Two pages, as the example has it: no host count, one processor. */
static uint8_t place_pool(const bootplan_ram_entry *ram, size_t ram_count, bootplan_piece *pieces,
                          size_t *count)
{
    uint64_t bytes = 0;
    uint64_t pages;
    for (size_t i = 0; i < ram_count; i++)
        bytes += ram[i].end - ram[i].start;
    *count = 0;
    if (!bootplan_pool_size(BOOTPLAN_POOL_PAGES, 2, false, 0, 1, bytes, &pages))
        return BOOTPLAN_DONE;
    return bootplan_table_place_pool(&table, pages, false, pieces, BOOTPLAN_PIECE_ROOM, count);
}

static uint8_t plan_by_numbers(void)
{
    static bootplan_ram_entry ram[BOOTPLAN_RAM_ROOM];
    static bootplan_piece pieces[BOOTPLAN_PIECE_ROOM];
    static bootplan_typed_range ranges[BOOTPLAN_RANGE_ROOM];
    const bootplan_request_t request = {BOOTPLAN_ANY_NODE, 1, BOOTPLAN_FOR_TDX_TABLES,
                                        BOOTPLAN_LOW, BOOTPLAN_NO_ALIGNMENT};
    bootplan_answer answer;
    size_t count;
    uint8_t code = select_and_build(ram, &count);
    if (code != BOOTPLAN_DONE)
        return code;
    for (size_t i = 0; i < count; i++)
        put_on_node("ram", ram[i].start, ram[i].end, ram[i].node);
    code = place_pool(ram, count, pieces, &count);
    if (code != BOOTPLAN_DONE)
        return code;
    for (size_t i = 0; i < count; i++)
        put_on_node("pool", pieces[i].start, pieces[i].end, pieces[i].node);
    code = bootplan_table_request(&table, &request, 1, &answer);
    if (code != BOOTPLAN_DONE || answer.number != BOOTPLAN_DONE)
        return code != BOOTPLAN_DONE ? code : (uint8_t)answer.number;
    put_on_node("got", answer.start, answer.end, answer.node);
    code = bootplan_table_ranges(&table, ranges, BOOTPLAN_RANGE_ROOM, &count);
    for (size_t i = 0; code == BOOTPLAN_DONE && i < count; i++)
        put_typed(ranges[i].start, ranges[i].end, ranges[i].type);
    return code;
}

static void say(const char *what, uint64_t code)
{
    printf("%s: %" PRIu64 ", %s\n", what, code, bootplan_code_text((uint8_t)code));
}

/* What is not done leaves all as found. */
static void show_refusals(void)
{
    const bootplan_request_t large = {0, 0x100000, BOOTPLAN_FOR_POOL, BOOTPLAN_HIGH, 0x1000};
    const bootplan_table before = table;
    bootplan_answer answer;
    char small[16] = "as found";
    size_t written = 0;
    uint8_t code = bootplan_table_request(&table, &large, 1, &answer);
    say("a request for 100000 bytes", code != BOOTPLAN_DONE ? code : answer.number);
    printf("the table is %s\n", memcmp(&before, &table, sizeof table) ? "changed" : "as found");
    code = bootplan_plan_text(text, sizeof text - 1, small, sizeof small, &written);
    say("an output of 16 bytes", code);
    printf("the output is %s\n", strcmp(small, "as found") ? "changed" : "as found");
}

int main(void)
{
    const size_t room = bootplan_output_size(sizeof text - 1);
    char *plan = malloc(room);
    size_t written = 0;
    uint8_t code;
    bool agree;
    if (plan == NULL)
        return 1;
    code = bootplan_plan_text(text, sizeof text - 1, plan, room, &written);
    say("from the text", code);
    fwrite(plan, 1, written, stdout);
    code = plan_by_numbers();
    say("by numbers", code);
    fwrite(lines, 1, lines_len, stdout);
    agree = written == lines_len && memcmp(plan, lines, written) == 0;
    printf("both %s\n", agree ? "agree" : "differ");
    show_refusals();
    free(plan);
    return agree ? 0 : 1;
}
