/* What bootplan.h answers by itself: arrays that are null or too long to be counted. */
#include "bootplan.h"

#include <stdio.h>

static int failures;

static void expect(const char *what, bool holds)
{
    if (holds)
        return;
    printf("%s\n", what);
    failures++;
}

static void test_selection(void)
{
    const bootplan_entry entry = {0, 0x400000, 0, BOOTPLAN_ENTRY_PROTECTABLE};
    const bootplan_selection good = {.mode = BOOTPLAN_MODE_BOOT,
                                     .file = {0x200000, 0x210000},
                                     .map = &entry,
                                     .map_count = 1};
    bootplan_ram_entry ram[BOOTPLAN_RAM_ROOM];
    size_t count = 0;
    bootplan_selection by = good;
    expect("no imports", bootplan_choose_ram(&by, ram, 64, &count) == 0 && count == 1);
    expect("no room", bootplan_choose_ram(&by, NULL, 0, &count) == BOOTPLAN_NO_ROOM);
    expect("null room", bootplan_choose_ram(&by, NULL, 64, &count) == BOOTPLAN_BAD_NUMBER);
    by.map_count = SIZE_MAX / 4 + 2;
    expect("long map", bootplan_choose_ram(&by, ram, 64, &count) == BOOTPLAN_BAD_NUMBER);
    by = good;
    by.map = NULL;
    expect("null map", bootplan_choose_ram(&by, ram, 64, &count) == BOOTPLAN_BAD_NUMBER);
    by.map_count = 0;
    expect("no map", bootplan_choose_ram(&by, ram, 64, &count) == 6);
    by = good;
    by.import_count = 1;
    expect("null imports", bootplan_choose_ram(&by, ram, 64, &count) == BOOTPLAN_BAD_NUMBER);
}

static void test_build(void)
{
    static bootplan_table table;
    const bootplan_ram_entry ram = {0x200000, 0x210000, 0};
    const bootplan_build_input good = {.ram = &ram,
                                       .ram_count = 1,
                                       .used = {0x200000, 0x204000},
                                       .state = {0x200000, 0x202000}};
    bootplan_build_input by = good;
    by.config_count = 1;
    expect("null configs", bootplan_table_build(&table, &by) == BOOTPLAN_BAD_NUMBER);
    by = good;
    by.pool_count = SIZE_MAX;
    expect("null pools", bootplan_table_build(&table, &by) == BOOTPLAN_BAD_NUMBER);
    expect("null table", bootplan_table_build(NULL, &good) == BOOTPLAN_BAD_NUMBER);
    expect("kept", table.count == 0);
    expect("build", bootplan_table_build(&table, &good) == BOOTPLAN_DONE && table.count == 4);
}

static void test_table(void)
{
    static bootplan_table table;
    bootplan_request_t request = {0, 1, BOOTPLAN_FOR_POOL, BOOTPLAN_LOW, BOOTPLAN_NO_ALIGNMENT};
    bootplan_answer answer;
    size_t count = 7;
    expect("no requests", bootplan_table_request(&table, NULL, 0, NULL) == BOOTPLAN_DONE);
    expect("null answers",
           bootplan_table_request(&table, &request, 1, NULL) == BOOTPLAN_BAD_NUMBER);
    expect("long", bootplan_table_request(&table, &request, SIZE_MAX / 8, &answer) ==
                       BOOTPLAN_BAD_NUMBER);
    request.type = 3;
    expect("bad type", bootplan_table_request(&table, &request, 1, &answer) == BOOTPLAN_DONE &&
                           answer.number == BOOTPLAN_BAD_NUMBER);
    expect("no pieces",
           bootplan_table_place_pool(&table, 1, false, NULL, 0, &count) == BOOTPLAN_NO_ROOM);
    expect("null ranges",
           bootplan_table_ranges(&table, NULL, 256, &count) == BOOTPLAN_BAD_NUMBER);
    expect("kept", count == 7);
}

static void test_text(void)
{
    char output[1];
    size_t written = 7;
    expect("null text", bootplan_plan_text(NULL, 1, output, 1, &written) == BOOTPLAN_BAD_NUMBER);
    expect("null output", bootplan_plan_text("", 0, NULL, 1, &written) == BOOTPLAN_BAD_NUMBER);
    expect("no output", bootplan_plan_text(NULL, 0, NULL, 0, &written) == BOOTPLAN_NO_ROOM);
    expect("kept", written == 7);
    for (unsigned code = 0; code < 256; code++)
        expect("words", (bootplan_code_text((uint8_t)code)[0] != 0) == (code < 30 || code > 252));
    expect("type", bootplan_range_word(10)[0] == 0 && bootplan_range_word(9)[0] == 's');
}

int main(void)
{
    test_selection();
    test_build();
    test_table();
    test_text();
    return failures != 0;
}
