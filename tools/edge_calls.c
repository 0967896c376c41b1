/* Tests of the C library at its edges: every function with NULL and count 0, and every refusal by its name. Prints a line for
 * each call whose answer is wrong, then how many were right; the status is 0 where all were. C99 and C++. */
#include <inttypes.h>
#include <jugfjord.h>
#include <stdio.h>
#include <string.h>

enum { RECORDS = 1025, TEXT = 65537 };

static const struct jugfjord_disk one_disk[1] = {{1, 1}};
static struct jugfjord_disk rack[JUGFJORD_MOST_DISKS + 1];
static uint64_t copies[1], left[1];
static uint32_t counts[1];
static uint8_t list[8 * RECORDS], text[TEXT];
static const uint8_t empty_plan[] = "(rack 1 1 1)\n(disk 1)\n(left)\n(served 0 0)\n";
static const size_t empty_plan_length = sizeof empty_plan - 1;
static const uint8_t mixed_plan[] = "(mixed (4 8) (2 4))\n(disk 1 (2 3) (3 5))\n(disk 2 (1 3) (2 1))\n(left)\n(served 12 0)\n";
static const size_t mixed_plan_length = sizeof mixed_plan - 1;
static const uint8_t marked_plan[] = "(rack 1 1 1)\n(disk 1 (7 1 held))\n(left (7 2))\n(served 1 2)\n";
static const size_t marked_plan_length = sizeof marked_plan - 1;
/* Film 7 with demand 3, of which one disk of one stream leaves 2. */
static const uint8_t film_7[8] = {7, 0, 0, 0, 3, 0, 0, 0};
static int right, wrong;

/* Counts a call's answer as right or wrong: its number and second number. */
static void expect(const char *call, uint32_t number, uint32_t second, uint32_t due, uint32_t due_second)
{
    if (number == due && second == due_second) {
        right++;
    } else {
        wrong++;
        printf("%s: %" PRIu32 " %" PRIu32 ", not %" PRIu32 " %" PRIu32 "\n", call, number, second, due, due_second);
    }
}

/* Counts a number beside a refusal as right or wrong. */
static void expect_number(const char *call, uint64_t number, uint64_t due)
{
    if (number == due) {
        right++;
    } else {
        wrong++;
        printf("%s: %" PRIu64 ", not %" PRIu64 "\n", call, number, due);
    }
}

/* Counts the numbers of a disk as right or wrong. */
static void expect_disk(const char *call, struct jugfjord_disk disk, uint32_t slots, uint32_t streams)
{
    expect_number(call, disk.slots, slots);
    expect_number(call, disk.streams, streams);
}

/* Plans the first bytes of a list on one disk, in tables of one place. Of record 1 the lowest and the
 * third byte of its film and the third byte of its demand are given (a third byte counts 65,536s); all other bytes are 0. */
static struct jugfjord_planned plan_record(uint8_t film_low, uint8_t film_high, uint8_t demand_high, size_t bytes)
{
    list[0] = film_low;
    list[2] = film_high;
    list[6] = demand_high;
    return jugfjord_plan(one_disk, 1, list, bytes, copies, 1, counts, 1, left, 1);
}

/* Planning with nothing lent, and with nothing lent that it needs. */
static void plan_of_nothing(void)
{
    struct jugfjord_planned p = jugfjord_plan(NULL, 0, NULL, 0, NULL, 0, NULL, 0, NULL, 0);
    expect("plan of no rack", p.number, p.second, JUGFJORD_REFUSED_DISKS_OUT_OF_RANGE, 0);
    p = jugfjord_plan(one_disk, 1, NULL, 0, NULL, 0, NULL, 0, NULL, 0);
    expect("plan without tables", p.number, p.second, JUGFJORD_REFUSED_TABLES_TOO_SHORT, 0);
    p = jugfjord_plan(one_disk, 1, NULL, 0, copies, 1, NULL, 0, NULL, 0);
    expect("plan without counts", p.number, p.second, JUGFJORD_REFUSED_TABLES_TOO_SHORT, 0);
    p = jugfjord_plan(one_disk, 1, NULL, 0, NULL, 0, counts, 1, NULL, 0);
    expect("plan without copies", p.number, p.second, JUGFJORD_REFUSED_TABLES_TOO_SHORT, 0);
    p = jugfjord_plan(one_disk, 1, list, 8, copies, 1, counts, 1, NULL, 0);
    expect("plan without a left place", p.number, p.second, JUGFJORD_REFUSED_TABLES_TOO_SHORT, 0);
    copies[0] = 5;
    counts[0] = 5;
    p = jugfjord_plan(one_disk, 1, NULL, 0, copies, 1, counts, 1, NULL, 0);
    expect("plan of no list", p.number, p.second, 0, 0);
    expect_number("its copy place", copies[0], 0);
    expect_number("its count", counts[0], 0);
}

/* The refusals of a list, and one plan. */
static void plan_of_lists(void)
{
    struct jugfjord_planned p = plan_record(1, 0, 0, 7);
    expect("list of 7 bytes", p.number, p.second, JUGFJORD_REFUSED_LIST_LENGTH, 0);
    p = plan_record(1, 0, 0, 8 * RECORDS);
    expect("1,025 records", p.number, p.second, JUGFJORD_REFUSED_TOO_MANY_RECORDS, 0);
    p = plan_record(0, 0, 0, 8);
    expect("film 0", p.number, p.second, JUGFJORD_REFUSED_FILM_OUT_OF_RANGE, 1);
    p = plan_record(0, 1, 0, 8);
    expect("film 65,536", p.number, p.second, JUGFJORD_REFUSED_FILM_OUT_OF_RANGE, 1);
    p = plan_record(1, 0, 16, 8);
    expect("demand 1,048,576", p.number, p.second, JUGFJORD_REFUSED_DEMAND_OUT_OF_RANGE, 1);
    p = plan_record(1, 0, 1, 8);
    expect("demand 65,536", p.number, p.second, 0, 0);
    expect_number("its viewers not served", p.unserved, 65535);
    expect_number("its copy", copies[0], jugfjord_entry(1, 1));
    expect_number("its left film", jugfjord_entry_film(left[0]), 1);
    expect_number("its left amount", jugfjord_entry_amount(left[0]), 65535);
}

/* Films at both ends of the service clips, one with a demand of 1,000,001; and a plan text with such films. */
static void service_clips(void)
{
    static const uint8_t last_film[8] = {0x4f, 0xc3, 0, 0, 1, 0, 0, 0};
    static const uint8_t first_clip[8] = {0x50, 0xc3, 0, 0, 0x41, 0x42, 0x0f, 0};
    static const uint8_t last_clip[8] = {0xff, 0xff, 0, 0, 0, 0, 0, 0};
    static const uint8_t clips[] = "(rack 1 2 5)\n(disk 1 (50000 3) (65535 0 held))\n(left (50000 1))\n(served 3 1)\n";
    struct jugfjord_planned p = jugfjord_plan(one_disk, 1, last_film, 8, copies, 1, counts, 1, left, 1);
    expect("film 49,999", p.number, p.second, 0, 0);
    expect_number("its copy", copies[0], jugfjord_entry(49999, 1));
    p = jugfjord_plan(one_disk, 1, first_clip, 8, copies, 1, counts, 1, left, 1);
    expect("film 50,000", p.number, p.second, JUGFJORD_REFUSED_SERVICE_CLIP, 1);
    expect_number("the copy before it", copies[0], jugfjord_entry(49999, 1));
    p = jugfjord_plan(one_disk, 1, last_clip, 8, copies, 1, counts, 1, left, 1);
    expect("film 65,535", p.number, p.second, JUGFJORD_REFUSED_SERVICE_CLIP, 1);
    p = jugfjord_plan_after(one_disk, 1, last_clip, 8, NULL, 0, copies, 1, counts, 1, left, 1);
    expect("film 65,535 after an empty text", p.number, p.second, JUGFJORD_REFUSED_SERVICE_CLIP, 1);
    p = jugfjord_plan_after(one_disk, 1, last_film, 8, clips, sizeof clips - 1, copies, 1, counts, 1, left, 1);
    expect("film 49,999 after a text of service clips", p.number, p.second, 0, 0);
    struct jugfjord_read_plan j = jugfjord_judge(clips, sizeof clips - 1);
    expect("judgement of a text of service clips", j.number, j.second, 0, 0);
    expect_number("its viewers", j.served, 3);
}

/* The same film in two records, with two left places. */
static void plan_of_a_repeated_film(void)
{
    static const uint8_t twice[16] = {7, 0, 0, 0, 1, 0, 0, 0, 7, 0, 0, 0, 2, 0, 0, 0};
    uint64_t two_left[2] = {3, 3};
    struct jugfjord_planned p = jugfjord_plan(one_disk, 1, twice, sizeof twice, copies, 1, counts, 1, two_left, 2);
    expect("film 7 twice", p.number, p.second, JUGFJORD_REFUSED_FILM_REPEATED, 2);
    expect_number("a left place after a refusal", two_left[0], 3);
}

/* Two films of demand 0 and one slot: the lower one has it, as a copy with 0 viewers, and the other is left with amount 0. */
static void plan_of_shelf_films(void)
{
    static const uint8_t unwatched[16] = {7, 0, 0, 0, 0, 0, 0, 0, 2, 0, 0, 0, 0, 0, 0, 0};
    uint64_t two_left[2] = {3, 3};
    struct jugfjord_planned p = jugfjord_plan(one_disk, 1, unwatched, sizeof unwatched, copies, 1, counts, 1, two_left, 2);
    expect("films 7 and 2 of demand 0", p.number, p.second, 0, 0);
    expect_number("their copy", copies[0], jugfjord_entry(2, 0));
    expect_number("their count", counts[0], 1);
    expect_number("how many are left", p.left, 1);
    expect_number("which one is left", two_left[0], jugfjord_entry(7, 0));
    expect_number("the unused left place", two_left[1], 0);
    expect_number("their viewers", p.served + p.unserved, 0);
}

/* What planning and writing answer on the first so many entries of `rack`, with no list and no tables. */
static void expect_rack(const char *call, size_t disks, uint32_t due, uint32_t due_second)
{
    struct jugfjord_planned p = jugfjord_plan(rack, disks, NULL, 0, NULL, 0, NULL, 0, NULL, 0);
    struct jugfjord_written w = jugfjord_write(rack, disks, NULL, 0, NULL, 0, NULL, 0, 0, NULL, 0);
    expect(call, p.number, p.second, due, due_second);
    expect(call, w.number, w.second, due, due_second);
}

/* Racks: how many disks, disks out of range, and ratios. */
static void racks(void)
{
    jugfjord_equal_rack(rack, JUGFJORD_MOST_DISKS + 1, 2, 4);
    expect_disk("the last of 65 equal disks", rack[JUGFJORD_MOST_DISKS], 2, 4);
    expect_rack("no disk", 0, JUGFJORD_REFUSED_DISKS_OUT_OF_RANGE, 0);
    expect_rack("64 disks", JUGFJORD_MOST_DISKS, JUGFJORD_REFUSED_TABLES_TOO_SHORT, 0);
    expect_rack("65 disks", JUGFJORD_MOST_DISKS + 1, JUGFJORD_REFUSED_DISKS_OUT_OF_RANGE, 0);
    rack[1].slots = 4;
    expect_rack("4 to 4 after 4 to 2", 3, JUGFJORD_REFUSED_RATIO_DIFFERS, 2);
    rack[1].streams = 8;
    expect_rack("8 to 4 after 4 to 2", 3, JUGFJORD_REFUSED_TABLES_TOO_SHORT, 0);
    rack[2].slots = 3;
    rack[2].streams = 7;
    expect_rack("7 to 3 after 4 to 2", 3, JUGFJORD_REFUSED_RATIO_DIFFERS, 3);
    rack[3].streams = 0;
    expect_rack("no streams behind another ratio", 4, JUGFJORD_REFUSED_DISKS_OUT_OF_RANGE, 0);
    rack[3].streams = 65536;
    expect_rack("65,536 streams", 4, JUGFJORD_REFUSED_DISKS_OUT_OF_RANGE, 0);
    rack[0].slots = 33;
    expect_rack("33 slots", 1, JUGFJORD_REFUSED_DISKS_OUT_OF_RANGE, 0);
    rack[0].slots = 0;
    expect_rack("no slots", 1, JUGFJORD_REFUSED_DISKS_OUT_OF_RANGE, 0);
}

/* A large and a small disk: planned, written, judged and read back, also into a rack that is too short. */
static void unequal_disks(void)
{
    static const struct jugfjord_disk disks[2] = {{4, 8}, {2, 4}};
    static const uint8_t films[24] = {1, 0, 0, 0, 3, 0, 0, 0, 2, 0, 0, 0, 4, 0, 0, 0, 3, 0, 0, 0, 5, 0, 0, 0};
    uint64_t own_copies[7], three_left[3] = {9, 9, 9};
    uint32_t own_counts[2];
    own_copies[6] = 9;
    struct jugfjord_planned p = jugfjord_plan(disks, 2, films, sizeof films, own_copies, 5, own_counts, 2, three_left, 3);
    expect("5 copy places for 6 slots", p.number, p.second, JUGFJORD_REFUSED_TABLES_TOO_SHORT, 0);
    p = jugfjord_plan(disks, 2, films, sizeof films, own_copies, 7, own_counts, 2, three_left, 3);
    expect("plan of a large and a small disk", p.number, p.second, 0, 0);
    expect_number("its viewers", p.served, 12);
    expect_number("the first copy of disk 1", own_copies[0], jugfjord_entry(2, 3));
    expect_number("the unused place of disk 1", own_copies[3], 0);
    expect_number("the first copy of disk 2, which was filled first", own_copies[4], jugfjord_entry(1, 3));
    expect_number("the place beyond", own_copies[6], 9);
    expect_number("the copies of disk 2", own_counts[1], 2);
    struct jugfjord_written w = jugfjord_write(disks, 2, own_copies, 7, own_counts, 2, three_left, 3, p.left, text, TEXT);
    expect_number("the length of its text", w.length, mixed_plan_length);
    expect_number("the difference of its text", memcmp(text, mixed_plan, mixed_plan_length) != 0, 0);
    struct jugfjord_read_plan j = jugfjord_judge(mixed_plan, mixed_plan_length);
    expect("judgement of its text", j.number, j.second, 0, 0);
    expect_number("its disks", j.disks, 2);
    jugfjord_equal_rack(rack, 3, 7, 7);
    struct jugfjord_read_plan r =
        jugfjord_read(mixed_plan, mixed_plan_length, rack, 1, own_copies, 7, own_counts, 2, three_left, 3);
    expect("read into a rack of one entry", r.number, r.second, JUGFJORD_REFUSED_TABLES_TOO_SHORT, 0);
    expect_disk("an entry after a refusal", rack[0], 7, 7);
    r = jugfjord_read(mixed_plan, mixed_plan_length, rack, 3, own_copies, 7, own_counts, 2, three_left, 3);
    expect("read into a rack of three entries", r.number, r.second, 0, 0);
    expect_disk("disk 1", rack[0], 4, 8);
    expect_disk("disk 2", rack[1], 2, 4);
    expect_disk("the entry beyond", rack[2], 7, 7);
}

/* Plans so many records of film 0 on so many equal disks, as the purser's terminal does, with so many places. Every place has
 * held 5, and a refusal leaves it so. */
static struct jugfjord_planned plan_on_terminal(size_t disks, size_t bytes, size_t copy_places, size_t left_places)
{
    static uint8_t zeros[8 * RECORDS];
    uint64_t own_copies[JUGFJORD_TERMINAL_COPIES], own_left[JUGFJORD_TERMINAL_RECORDS];
    uint32_t own_counts[JUGFJORD_TERMINAL_DISKS];
    size_t changed = 0;
    for (size_t i = 0; i < JUGFJORD_TERMINAL_COPIES; i++) own_copies[i] = 5;
    for (size_t i = 0; i < JUGFJORD_TERMINAL_DISKS; i++) own_counts[i] = 5;
    for (size_t i = 0; i < JUGFJORD_TERMINAL_RECORDS; i++) own_left[i] = 5;
    struct jugfjord_planned p = jugfjord_plan_terminal(rack, disks, zeros, bytes, own_copies, copy_places, own_counts,
                                                       JUGFJORD_TERMINAL_DISKS, own_left, left_places);
    for (size_t i = 0; i < JUGFJORD_TERMINAL_COPIES; i++) changed += own_copies[i] != 5;
    for (size_t i = 0; i < JUGFJORD_TERMINAL_DISKS; i++) changed += own_counts[i] != 5;
    for (size_t i = 0; i < JUGFJORD_TERMINAL_RECORDS; i++) changed += own_left[i] != 5;
    expect_number("places changed by a refusal of the terminal", changed, 0);
    return p;
}

/* What the terminal answers on so many disks of 32 slots and so many bytes, with all places that it may need. */
static void expect_on_terminal(const char *call, size_t disks, size_t bytes, uint32_t due, uint32_t due_second)
{
    struct jugfjord_planned p = plan_on_terminal(disks, bytes, JUGFJORD_TERMINAL_COPIES, JUGFJORD_TERMINAL_RECORDS);
    expect(call, p.number, p.second, due, due_second);
}

/* The purser's terminal: nothing lent, its limits on both sides, the order of its refusals, and a plan. */
static void terminal(void)
{
    struct jugfjord_planned p = jugfjord_plan_terminal(NULL, 0, NULL, 0, NULL, 0, NULL, 0, NULL, 0);
    expect("terminal's plan of no rack", p.number, p.second, JUGFJORD_REFUSED_DISKS_OUT_OF_RANGE, 0);
    jugfjord_equal_rack(rack, JUGFJORD_MOST_DISKS + 1, 32, 64);
    expect_on_terminal("8 disks and 96 records", 8, 8 * 96, JUGFJORD_REFUSED_FILM_OUT_OF_RANGE, 1);
    expect_on_terminal("9 disks", 9, 0, JUGFJORD_REFUSED_TERMINAL_TOO_SMALL, 0);
    expect_on_terminal("97 records", 1, 8 * 97, JUGFJORD_REFUSED_TERMINAL_TOO_SMALL, 0);
    expect_on_terminal("97 records and one byte", 1, 8 * 97 + 1, JUGFJORD_REFUSED_LIST_LENGTH, 0);
    expect_on_terminal("9 disks and 7 bytes", 9, 7, JUGFJORD_REFUSED_LIST_LENGTH, 0);
    expect_on_terminal("9 disks and 1,025 records", 9, 8 * RECORDS, JUGFJORD_REFUSED_TOO_MANY_RECORDS, 0);
    expect_on_terminal("65 disks and 7 bytes", JUGFJORD_MOST_DISKS + 1, 7, JUGFJORD_REFUSED_DISKS_OUT_OF_RANGE, 0);
    rack[8].streams = 65;
    expect_on_terminal("9 disks of which one has another ratio", 9, 7, JUGFJORD_REFUSED_RATIO_DIFFERS, 9);
    rack[8].streams = 64;
    p = plan_on_terminal(8, 0, JUGFJORD_TERMINAL_COPIES - 1, 0);
    expect("255 copy places for 8 disks of 32 slots", p.number, p.second, JUGFJORD_REFUSED_TABLES_TOO_SHORT, 0);
    p = plan_on_terminal(1, 8 * 96, JUGFJORD_TERMINAL_COPIES, JUGFJORD_TERMINAL_RECORDS - 1);
    expect("95 left places for 96 records", p.number, p.second, JUGFJORD_REFUSED_TABLES_TOO_SHORT, 0);
    p = plan_on_terminal(9, 8 * 97, 0, 0);
    expect("9 disks and 97 records without places", p.number, p.second, JUGFJORD_REFUSED_TERMINAL_TOO_SMALL, 0);
    copies[0] = 5;
    p = jugfjord_plan_terminal(one_disk, 1, film_7, sizeof film_7, copies, 1, counts, 1, left, 1);
    expect("terminal's plan of film 7", p.number, p.second, 0, 0);
    expect_number("its copy", copies[0], jugfjord_entry(7, 1));
    expect_number("its left film", left[0], jugfjord_entry(7, 2));
    expect_number("its viewers not served", p.unserved, 2);
}

/* The parts of an entry. */
static void entries(void)
{
    uint64_t copy = jugfjord_entry_with_mark(jugfjord_entry(65535, 3), 1);
    expect_number("a marked entry", copy, (UINT64_C(3) << 32) + (UINT64_C(1) << 16) + 65535);
    expect_number("its film", jugfjord_entry_film(copy), 65535);
    expect_number("its mark", jugfjord_entry_mark(copy), 1);
    expect_number("its viewers", jugfjord_entry_amount(copy), 3);
    expect_number("it without its mark", jugfjord_entry_with_mark(copy, 0), jugfjord_entry(65535, 3));
    copy = jugfjord_entry_with_mark(jugfjord_entry(1, 4294967295U), 65535);
    expect_number("the film below the largest mark", jugfjord_entry_film(copy), 1);
    expect_number("the largest mark", jugfjord_entry_mark(copy), 65535);
    expect_number("the viewers above it", jugfjord_entry_amount(copy), 4294967295U);
    expect_number("the mark of an entry", jugfjord_entry_mark(jugfjord_entry(65535, 4294967295U)), 0);
}

/* Plans film 7 on one disk after the first bytes of a text. */
static struct jugfjord_planned plan_after(const uint8_t *earlier, size_t bytes)
{
    return jugfjord_plan_after(one_disk, 1, film_7, sizeof film_7, earlier, bytes, copies, 1, counts, 1, left, 1);
}

/* Planning after a text with nothing lent, after a wrong text, and after texts whose disk held the film or did not. */
static void plan_after_texts(void)
{
    struct jugfjord_planned p = jugfjord_plan_after(NULL, 0, NULL, 0, NULL, 0, NULL, 0, NULL, 0, NULL, 0);
    expect("plan after of no rack", p.number, p.second, JUGFJORD_REFUSED_DISKS_OUT_OF_RANGE, 0);
    p = jugfjord_plan_after(one_disk, 1, film_7, 7, NULL, 0, NULL, 0, NULL, 0, NULL, 0);
    expect("plan after of 7 bytes", p.number, p.second, JUGFJORD_REFUSED_LIST_LENGTH, 0);
    p = jugfjord_plan_after(one_disk, 1, film_7, sizeof film_7, NULL, 0, NULL, 0, NULL, 0, NULL, 0);
    expect("plan after without tables", p.number, p.second, JUGFJORD_REFUSED_TABLES_TOO_SHORT, 0);
    copies[0] = 5;
    p = plan_after(NULL, 0);
    expect("plan after no text", p.number, p.second, JUGFJORD_REFUSED_LINE, 1);
    p = plan_after(empty_plan, empty_plan_length - 1);
    expect("plan after an unended line", p.number, p.second, JUGFJORD_REFUSED_LINE, 4);
    p = plan_after(text, TEXT);
    expect("plan after 65,537 bytes", p.number, p.second, JUGFJORD_REFUSED_TEXT_TOO_LONG, 0);
    expect_number("a copy place after a refusal", copies[0], 5);
    p = plan_after(empty_plan, empty_plan_length);
    expect("plan after the empty plan", p.number, p.second, 0, 0);
    expect_number("its copy, which was not held", copies[0], jugfjord_entry(7, 1));
    p = plan_after(marked_plan, marked_plan_length);
    expect("plan after a plan with its film", p.number, p.second, 0, 0);
    expect_number("its copy, which was held", copies[0], jugfjord_entry_with_mark(jugfjord_entry(7, 1), 1));
    expect_number("its left film, which has no mark", left[0], jugfjord_entry(7, 2));
    expect_number("its viewers not served", p.unserved, 2);
    p = jugfjord_plan(one_disk, 1, film_7, sizeof film_7, copies, 1, counts, 1, left, 1);
    expect("plan of the same list", p.number, p.second, 0, 0);
    expect_number("its copy, which has no mark", copies[0], jugfjord_entry(7, 1));
}

/* A marked copy: written, read back, and refused with another mark, in a place that is not used, and on a left film. */
static void marks(void)
{
    copies[0] = jugfjord_entry_with_mark(jugfjord_entry(7, 1), 1);
    counts[0] = 1;
    left[0] = jugfjord_entry(7, 2);
    struct jugfjord_written w = jugfjord_write(one_disk, 1, copies, 1, counts, 1, left, 1, 1, text, TEXT);
    expect("write of a marked copy", w.number, w.second, 0, 0);
    expect_number("the length of its text", w.length, marked_plan_length);
    expect_number("the difference of its text", memcmp(text, marked_plan, marked_plan_length) != 0, 0);
    copies[0] = 5;
    struct jugfjord_read_plan r = jugfjord_read(marked_plan, marked_plan_length, rack, 1, copies, 1, counts, 1, left, 1);
    expect("read of a marked copy", r.number, r.second, 0, 0);
    expect_number("the copy", copies[0], jugfjord_entry_with_mark(jugfjord_entry(7, 1), 1));
    copies[0] = jugfjord_entry_with_mark(copies[0], 2);
    w = jugfjord_write(one_disk, 1, copies, 1, counts, 1, left, 1, 1, text, TEXT);
    expect("write of mark 2", w.number, w.second, JUGFJORD_REFUSED_NOT_WELL_FORMED, 0);
    copies[0] = jugfjord_entry_with_mark(0, 1);
    counts[0] = 0;
    w = jugfjord_write(one_disk, 1, copies, 1, counts, 1, left, 1, 1, text, TEXT);
    expect("write of a mark in an unused place", w.number, w.second, JUGFJORD_REFUSED_NOT_WELL_FORMED, 0);
    copies[0] = 0;
    left[0] = jugfjord_entry_with_mark(left[0], 1);
    w = jugfjord_write(one_disk, 1, copies, 1, counts, 1, left, 1, 1, text, TEXT);
    expect("write of a marked left film", w.number, w.second, JUGFJORD_REFUSED_NOT_WELL_FORMED, 0);
}

/* The longest plan text: unequal disks, every slot with a marked copy, three of a disk with viewers of five digits and the
 * others of four, and 1,024 left films with the largest amount. */
static void longest_text(void)
{
    static uint64_t all_copies[JUGFJORD_MOST_COPIES], all_left[JUGFJORD_MOST_LEFT];
    static uint32_t all_counts[JUGFJORD_MOST_DISKS];
    size_t place = 0;
    jugfjord_equal_rack(rack, JUGFJORD_MOST_DISKS, 32, 65504);
    rack[0].slots = 31;
    rack[0].streams = 63457;
    for (size_t disk = 0; disk < JUGFJORD_MOST_DISKS; disk++) {
        all_counts[disk] = rack[disk].slots;
        for (uint32_t slot = 0; slot < rack[disk].slots; slot++) {
            uint64_t copy = jugfjord_entry(10000 + slot, slot < 3 ? 10000 : 1000);
            all_copies[place++] = jugfjord_entry_with_mark(copy, 1);
        }
    }
    for (uint32_t i = 0; i < JUGFJORD_MOST_LEFT; i++) all_left[i] = jugfjord_entry(10000 + i, 1000000);
    struct jugfjord_written w =
        jugfjord_write(rack, JUGFJORD_MOST_DISKS, all_copies, JUGFJORD_MOST_COPIES, all_counts, JUGFJORD_MOST_DISKS,
                       all_left, JUGFJORD_MOST_LEFT, JUGFJORD_MOST_LEFT, text, JUGFJORD_MOST_TEXT - 1);
    expect("write of the longest text to one byte fewer", w.number, w.second, JUGFJORD_REFUSED_SPACE_TOO_SHORT, 0);
    w = jugfjord_write(rack, JUGFJORD_MOST_DISKS, all_copies, JUGFJORD_MOST_COPIES, all_counts, JUGFJORD_MOST_DISKS,
                       all_left, JUGFJORD_MOST_LEFT, JUGFJORD_MOST_LEFT, text, JUGFJORD_MOST_TEXT);
    expect("write of the longest text", w.number, w.second, 0, 0);
    expect_number("its length", w.length, JUGFJORD_MOST_TEXT);
    struct jugfjord_read_plan j = jugfjord_judge(text, JUGFJORD_MOST_TEXT);
    expect("judgement of the longest text", j.number, j.second, 0, 0);
}

/* Writing with nothing lent, without space, and of tables that are no plan. */
static void writing(void)
{
    struct jugfjord_written w = jugfjord_write(NULL, 0, NULL, 0, NULL, 0, NULL, 0, 0, NULL, 0);
    expect("write of no rack", w.number, w.second, JUGFJORD_REFUSED_DISKS_OUT_OF_RANGE, 0);
    w = jugfjord_write(one_disk, 1, NULL, 0, NULL, 0, NULL, 0, 0, NULL, 0);
    expect("write without tables", w.number, w.second, JUGFJORD_REFUSED_TABLES_TOO_SHORT, 0);
    copies[0] = 0;
    counts[0] = 0;
    w = jugfjord_write(one_disk, 1, copies, 1, counts, 1, NULL, 0, 1, text, TEXT);
    expect("write without a left place", w.number, w.second, JUGFJORD_REFUSED_TABLES_TOO_SHORT, 0);
    w = jugfjord_write(one_disk, 1, copies, 1, counts, 1, NULL, 0, 0, NULL, 0);
    expect("write without space", w.number, w.second, JUGFJORD_REFUSED_SPACE_TOO_SHORT, 0);
    w = jugfjord_write(one_disk, 1, copies, 1, counts, 1, NULL, 0, 0, text, empty_plan_length);
    expect("write of the empty plan", w.number, w.second, 0, 0);
    expect_number("its length", w.length, empty_plan_length);
    counts[0] = 1;
    w = jugfjord_write(one_disk, 1, copies, 1, counts, 1, NULL, 0, 0, NULL, 0);
    expect("write of film 0", w.number, w.second, JUGFJORD_REFUSED_NOT_WELL_FORMED, 0);
}

/* Reading with nothing lent, and a text that is too long. */
static void reading(void)
{
    struct jugfjord_read_plan r = jugfjord_read(NULL, 0, NULL, 0, NULL, 0, NULL, 0, NULL, 0);
    expect("read of no text", r.number, r.second, JUGFJORD_REFUSED_LINE, 1);
    r = jugfjord_read(empty_plan, empty_plan_length, NULL, 0, NULL, 0, NULL, 0, NULL, 0);
    expect("read without rack and tables", r.number, r.second, JUGFJORD_REFUSED_TABLES_TOO_SHORT, 0);
    r = jugfjord_read(empty_plan, empty_plan_length, rack, 1, NULL, 0, NULL, 0, NULL, 0);
    expect("read without tables", r.number, r.second, JUGFJORD_REFUSED_TABLES_TOO_SHORT, 0);
    r = jugfjord_read(empty_plan, empty_plan_length, NULL, 0, copies, 1, counts, 1, NULL, 0);
    expect("read without a rack", r.number, r.second, JUGFJORD_REFUSED_TABLES_TOO_SHORT, 0);
    r = jugfjord_read(text, TEXT, NULL, 0, NULL, 0, NULL, 0, NULL, 0);
    expect("read of 65,537 bytes", r.number, r.second, JUGFJORD_REFUSED_TEXT_TOO_LONG, 0);
    copies[0] = 5;
    jugfjord_equal_rack(rack, 2, 7, 7);
    r = jugfjord_read(empty_plan, empty_plan_length, rack, 2, copies, 1, counts, 1, NULL, 0);
    expect("read of the empty plan", r.number, r.second, 0, 0);
    expect_number("its disks", r.disks, 1);
    expect_disk("its disk", rack[0], 1, 1);
    expect_disk("the entry beyond", rack[1], 7, 7);
    expect_number("its copy place", copies[0], 0);
}

/* Judging with nothing lent, of a text that is too long, and of the empty plan. */
static void judging(void)
{
    struct jugfjord_read_plan j = jugfjord_judge(NULL, 0);
    expect("judgement of no text", j.number, j.second, JUGFJORD_REFUSED_LINE, 1);
    expect_number("its disks", j.disks, 0);
    j = jugfjord_judge(text, TEXT);
    expect("judgement of 65,537 bytes", j.number, j.second, JUGFJORD_REFUSED_TEXT_TOO_LONG, 0);
    j = jugfjord_judge(empty_plan, empty_plan_length - 1);
    expect("judgement of an unended line", j.number, j.second, JUGFJORD_REFUSED_LINE, 4);
    j = jugfjord_judge(empty_plan, empty_plan_length);
    expect("judgement of the empty plan", j.number, j.second, 0, 0);
    expect_number("its disks", j.disks, 1);
    expect_number("its viewers not served", j.unserved, 0);
}

/* The parts of a transfer. */
static void transfer_parts(void)
{
    uint64_t transfer = (UINT64_C(511) << 32) + (UINT64_C(7) << 24) + (UINT64_C(8) << 16) + 65535;
    expect_number("the film of a transfer", jugfjord_transfer_film(transfer), 65535);
    expect_number("its source", jugfjord_transfer_source(transfer), 8);
    expect_number("its destination", jugfjord_transfer_destination(transfer), 7);
    expect_number("its round", jugfjord_transfer_round(transfer), 511);
    transfer = UINT64_MAX - (UINT64_C(255) << 16);
    expect_number("the source between full parts", jugfjord_transfer_source(transfer), 0);
    expect_number("the film below", jugfjord_transfer_film(transfer), 65535);
    expect_number("the destination above", jugfjord_transfer_destination(transfer), 255);
    expect_number("the largest round", jugfjord_transfer_round(transfer), 4294967295U);
}

/* Sets every lent transfer and every lent row of counts to 7. */
static void set_all(uint64_t *transfers, size_t transfers_count, uint32_t (*table)[9], size_t rows)
{
    for (size_t i = 0; i < transfers_count; i++) transfers[i] = 7;
    for (size_t row = 0; row < rows; row++) {
        for (size_t column = 0; column < JUGFJORD_ENDS; column++) table[row][column] = 7;
    }
}

/* Transfers with nothing lent, of wrong texts, of too many disks and of two racks. */
static void transfers_refused(void)
{
    static const uint8_t nine_disks[] = "(rack 9 1 1)\n(disk 1)\n(disk 2)\n(disk 3)\n(disk 4)\n(disk 5)\n(disk 6)\n(disk 7)\n"
                                        "(disk 8)\n(disk 9)\n(left)\n(served 0 0)\n";
    size_t nine_length = sizeof nine_disks - 1;
    struct jugfjord_transferred t = jugfjord_transfers(NULL, 0, NULL, 0, NULL, 0, NULL, 0);
    expect("transfers of no texts", t.number, t.second, JUGFJORD_REFUSED_LINE, 1);
    t = jugfjord_transfers(text, TEXT, NULL, 0, NULL, 0, NULL, 0);
    expect("transfers from 65,537 bytes", t.number, t.second, JUGFJORD_REFUSED_TEXT_TOO_LONG, 0);
    t = jugfjord_transfers(NULL, 0, text, TEXT, NULL, 0, NULL, 0);
    expect("transfers from no text to 65,537 bytes", t.number, t.second, JUGFJORD_REFUSED_LINE, 1);
    t = jugfjord_transfers(empty_plan, empty_plan_length, text, TEXT, NULL, 0, NULL, 0);
    expect("transfers to 65,537 bytes", t.number, t.second, JUGFJORD_REFUSED_TEXT_TOO_LONG, 0);
    t = jugfjord_transfers(nine_disks, nine_length, empty_plan, empty_plan_length - 1, NULL, 0, NULL, 0);
    expect("transfers to an unended line", t.number, t.second, JUGFJORD_REFUSED_LINE, 4);
    t = jugfjord_transfers(nine_disks, nine_length, nine_disks, nine_length, NULL, 0, NULL, 0);
    expect("transfers of nine disks", t.number, t.second, JUGFJORD_REFUSED_TOO_MANY_DISKS, 0);
    t = jugfjord_transfers(nine_disks, nine_length, empty_plan, empty_plan_length, NULL, 0, NULL, 0);
    expect("transfers from nine disks to one", t.number, t.second, JUGFJORD_REFUSED_TOO_MANY_DISKS, 0);
    t = jugfjord_transfers(empty_plan, empty_plan_length, nine_disks, nine_length, NULL, 0, NULL, 0);
    expect("transfers from one disk to nine", t.number, t.second, JUGFJORD_REFUSED_TOO_MANY_DISKS, 0);
    t = jugfjord_transfers(empty_plan, empty_plan_length, mixed_plan, mixed_plan_length, NULL, 0, NULL, 0);
    expect("transfers between two racks", t.number, t.second, JUGFJORD_REFUSED_FIRST_LINES_DIFFER, 0);
    t = jugfjord_transfers(empty_plan, empty_plan_length, empty_plan, empty_plan_length, NULL, 0, NULL, 0);
    expect("transfers without rows", t.number, t.second, JUGFJORD_REFUSED_TABLES_TOO_SHORT, 0);
}

/* No transfer, with an empty list: eight rows are too few, nine are enough, and the tenth is not touched. */
static void no_transfers(void)
{
    uint32_t table[10][9];
    set_all(NULL, 0, table, 10);
    struct jugfjord_transferred t =
        jugfjord_transfers(marked_plan, marked_plan_length, marked_plan, marked_plan_length, NULL, 0, table, 8);
    expect("transfers with eight rows", t.number, t.second, JUGFJORD_REFUSED_TABLES_TOO_SHORT, 0);
    expect_number("a count after a refusal", table[0][0], 7);
    t = jugfjord_transfers(marked_plan, marked_plan_length, marked_plan, marked_plan_length, NULL, 0, table, 9);
    expect("transfers with nine rows", t.number, t.second, 0, 0);
    expect_number("how many", t.transfers, 0);
    expect_number("their rounds", t.rounds, 0);
    expect_number("the first count", table[0][0], 0);
    expect_number("the last count", table[8][8], 0);
    expect_number("the row beyond", table[9][0], 7);
    set_all(NULL, 0, table, 10);
    t = jugfjord_transfers(marked_plan, marked_plan_length, empty_plan, empty_plan_length, NULL, 0, table, 10);
    expect("transfers to the empty plan", t.number, t.second, 0, 0);
    expect_number("the last count", table[8][8], 0);
    expect_number("the tenth row", table[9][8], 7);
}

/* Films 1 and 3 change their disks and film 5 comes from the loader. Disk 1 gets 3 from disk 2 in round 1, and 5 in round 2. Disk
 * 2 gets 1 from disk 1: both are busy in round 1 and disk 1 in round 2, so that it is in round 3. */
static void three_transfers(void)
{
    static const uint8_t new_plan[] = "(mixed (4 8) (2 4))\n(disk 1 (5 0) (3 3 held))\n(disk 2 (1 4))\n(left)\n(served 7 0)\n";
    static const uint8_t old_plan[] = "(mixed (4 8) (2 4))\n(disk 1 (2 3) (1 0))\n(disk 2 (3 3))\n(left)\n(served 6 0)\n";
    size_t new_length = sizeof new_plan - 1, old_length = sizeof old_plan - 1;
    uint64_t found[5];
    uint32_t table[11][9], sum = 0;
    set_all(found, 5, table, 11);
    struct jugfjord_transferred t = jugfjord_transfers(old_plan, old_length, new_plan, new_length, found, 2, table, 11);
    expect("two entries for three transfers", t.number, t.second, JUGFJORD_REFUSED_TABLES_TOO_SHORT, 0);
    expect_number("how many after a refusal", t.transfers, 0);
    expect_number("an entry after a refusal", found[0], 7);
    expect_number("a count after a refusal", table[2][1], 7);
    t = jugfjord_transfers(old_plan, old_length, new_plan, new_length, found, 3, table, 9);
    expect("three entries for three transfers", t.number, t.second, 0, 0);
    expect_number("the entry beyond", found[3], 7);
    set_all(found, 5, table, 11);
    t = jugfjord_transfers(old_plan, old_length, new_plan, new_length, found, 5, table, 11);
    expect("five entries for three transfers", t.number, t.second, 0, 0);
    expect_number("how many", t.transfers, 3);
    expect_number("their rounds", t.rounds, 3);
    expect_number("the first", found[0], (UINT64_C(1) << 32) + (UINT64_C(1) << 24) + (UINT64_C(2) << 16) + 3);
    expect_number("the second", found[1], (UINT64_C(2) << 32) + (UINT64_C(1) << 24) + 5);
    expect_number("the third", found[2], (UINT64_C(3) << 32) + (UINT64_C(2) << 24) + (UINT64_C(1) << 16) + 1);
    expect_number("the entry beyond them", found[3], 7);
    expect_number("from disk 2 to disk 1", table[2][1], 1);
    expect_number("from the loader to disk 1", table[0][1], 1);
    expect_number("from disk 1 to disk 2", table[1][2], 1);
    expect_number("the row beyond", table[9][0], 7);
    expect_number("the last row", table[10][8], 7);
    for (size_t i = 0; i < JUGFJORD_ENDS * JUGFJORD_ENDS; i++) sum += table[i / JUGFJORD_ENDS][i % JUGFJORD_ENDS];
    expect_number("the sum of the counts", sum, 3);
}

/* The most transfers there may be: 8 disks of 32 slots, and every film comes from the loader. */
static void most_transfers(void)
{
    static uint64_t all_copies[JUGFJORD_MOST_TRANSFERS], found[JUGFJORD_MOST_TRANSFERS];
    static uint8_t old_plan[JUGFJORD_MOST_TEXT];
    uint32_t all_counts[8] = {0, 0, 0, 0, 0, 0, 0, 0}, table[JUGFJORD_ENDS][9];
    jugfjord_equal_rack(rack, 8, 32, 64);
    struct jugfjord_written o =
        jugfjord_write(rack, 8, all_copies, JUGFJORD_MOST_TRANSFERS, all_counts, 8, NULL, 0, 0, old_plan, sizeof old_plan);
    expect("write of 8 empty disks", o.number, o.second, 0, 0);
    for (size_t disk = 0; disk < 8; disk++) all_counts[disk] = 32;
    for (uint32_t i = 0; i < JUGFJORD_MOST_TRANSFERS; i++) all_copies[i] = jugfjord_entry(65535 - i, 2);
    struct jugfjord_written n =
        jugfjord_write(rack, 8, all_copies, JUGFJORD_MOST_TRANSFERS, all_counts, 8, NULL, 0, 0, text, TEXT);
    expect("write of 8 full disks", n.number, n.second, 0, 0);
    struct jugfjord_transferred t =
        jugfjord_transfers(old_plan, o.length, text, n.length, found, JUGFJORD_MOST_TRANSFERS - 1, table, JUGFJORD_ENDS);
    expect("255 entries for 256 transfers", t.number, t.second, JUGFJORD_REFUSED_TABLES_TOO_SHORT, 0);
    t = jugfjord_transfers(old_plan, o.length, text, n.length, found, JUGFJORD_MOST_TRANSFERS, table, JUGFJORD_ENDS);
    expect("256 transfers", t.number, t.second, 0, 0);
    expect_number("how many", t.transfers, 256);
    expect_number("their rounds", t.rounds, 256);
    expect_number("the last", found[255], (UINT64_C(256) << 32) + (UINT64_C(8) << 24) + 65535 - 7 * 32);
    expect_number("from the loader to disk 8", table[0][8], 32);
    expect_number("from disk 8 to the loader", table[8][0], 0);
}

int main(void)
{
    plan_of_nothing();
    plan_of_lists();
    service_clips();
    plan_of_a_repeated_film();
    plan_of_shelf_films();
    racks();
    unequal_disks();
    terminal();
    entries();
    plan_after_texts();
    marks();
    longest_text();
    writing();
    reading();
    judging();
    transfer_parts();
    transfers_refused();
    no_transfers();
    three_transfers();
    most_transfers();
    printf("%d answers right, %d wrong\n", right, wrong);
    return wrong != 0;
}
