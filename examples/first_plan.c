/* Plans a rack of 3 equal disks and 12 films, prints the text, judges it, reads it back, and plans the same list after that
 * text, so that every copy is held. A program to copy, in C99 or C++:
 *   cc first_plan.c $(pkg-config --cflags --libs jugfjord) && ./a.out */
#include <inttypes.h>
#include <jugfjord.h>
#include <stdio.h>
#include <string.h>

enum { DISKS = 3, SLOTS = 4, STREAMS = 6, FILMS = 12 };

static struct plan {
    struct jugfjord_disk rack[DISKS]; /* for disks that differ, set each entry's slots and streams */
    uint64_t copies[JUGFJORD_MOST_COPIES], left[JUGFJORD_MOST_LEFT];
    uint32_t counts[JUGFJORD_MOST_DISKS];
} made, found; /* the plan that was made, and the one that its text has */
static uint8_t list[8 * FILMS], text[JUGFJORD_MOST_TEXT];

/* A refusal in words. */
static const char *words(uint32_t number)
{
    switch (number) {
    case JUGFJORD_REFUSED_LIST_LENGTH: return "the list's length is no multiple of 8";
    case JUGFJORD_REFUSED_TOO_MANY_RECORDS: return "the list has more than 1,024 records";
    case JUGFJORD_REFUSED_FILM_OUT_OF_RANGE: return "this record's film number is out of range";
    case JUGFJORD_REFUSED_DEMAND_OUT_OF_RANGE: return "this record's demand is out of range";
    case JUGFJORD_REFUSED_FILM_REPEATED: return "this record's film is in the list twice";
    case JUGFJORD_REFUSED_TABLES_TOO_SHORT: return "a table or the rack is too short";
    case JUGFJORD_REFUSED_TEXT_TOO_LONG: return "the text is too long";
    case JUGFJORD_REFUSED_LINE: return "this line is no line of a plan";
    case JUGFJORD_REFUSED_NOT_WELL_FORMED: return "the plan in the tables is not well formed";
    case JUGFJORD_REFUSED_SPACE_TOO_SHORT: return "the space for the text is too short";
    case JUGFJORD_REFUSED_DISKS_OUT_OF_RANGE: return "disks, slots or streams are out of range";
    case JUGFJORD_REFUSED_RATIO_DIFFERS: return "this disk's ratio of streams to slots is not that of disk 1";
    default: return "an unknown refusal";
    }
}

/* Whether a call was refused; says so on standard error, with the record, the line or the disk where there is one. */
static int refused(const char *call, uint32_t number, uint32_t second)
{
    if (number != 0) fprintf(stderr, "%s: %s (refused %" PRIu32, call, words(number), number);
    if (second != 0) fprintf(stderr, " %" PRIu32, second);
    if (number != 0) fprintf(stderr, ")\n");
    return number != 0;
}

/* Byte i of the list: film and demand of a record, least significant byte first, as they stand in an entry. */
static uint8_t list_byte(uint32_t i)
{
    uint32_t film = i / 8 + 1;
    return (jugfjord_entry(film, film <= 10 ? 1 : 4) >> (i % 8 * 8)) & 0xff;
}

/* Whether each copy of a plan is marked; says so on standard error where one is not and would have to be copied. */
static int all_held(const struct plan *plan)
{
    for (uint32_t disk = 0; disk < DISKS; disk++) {
        for (uint32_t place = 0; place < plan->counts[disk]; place++) {
            uint64_t copy = plan->copies[disk * SLOTS + place];
            if (jugfjord_entry_mark(copy) == 1) continue;
            fprintf(stderr, "film %" PRIu32 " is to be copied to disk %" PRIu32 "\n", jugfjord_entry_film(copy), disk + 1);
            return 0;
        }
    }
    return 1;
}

int main(void)
{
    for (uint32_t i = 0; i < 8 * FILMS; i++) list[i] = list_byte(i);
    jugfjord_equal_rack(made.rack, DISKS, SLOTS, STREAMS);
    struct jugfjord_planned planned =
        jugfjord_plan(made.rack, DISKS, list, sizeof list, made.copies, JUGFJORD_MOST_COPIES,
                      made.counts, JUGFJORD_MOST_DISKS, made.left, JUGFJORD_MOST_LEFT);
    if (refused("planning", planned.number, planned.second)) return 1;
    struct jugfjord_written written =
        jugfjord_write(made.rack, DISKS, made.copies, JUGFJORD_MOST_COPIES, made.counts, JUGFJORD_MOST_DISKS,
                       made.left, JUGFJORD_MOST_LEFT, planned.left, text, sizeof text);
    if (refused("writing", written.number, written.second)) return 1;
    if (fwrite(text, 1, written.length, stdout) != written.length || fflush(stdout) != 0) {
        perror("standard output");
        return 1;
    }

    struct jugfjord_read_plan judged = jugfjord_judge(text, written.length);
    if (refused("judging", judged.number, judged.second)) return 1;
    struct jugfjord_read_plan read =
        jugfjord_read(text, written.length, found.rack, DISKS, found.copies, JUGFJORD_MOST_COPIES,
                      found.counts, JUGFJORD_MOST_DISKS, found.left, JUGFJORD_MOST_LEFT);
    if (refused("reading", read.number, read.second)) return 1;
    if (judged.served != planned.served || judged.unserved != planned.unserved
        || memcmp(&judged, &read, sizeof read) != 0 || memcmp(&made, &found, sizeof made) != 0) {
        fprintf(stderr, "the plan that was read is not the plan that was made\n");
        return 1;
    }

    planned = jugfjord_plan_after(found.rack, DISKS, list, sizeof list, text, written.length, found.copies, JUGFJORD_MOST_COPIES,
                                  found.counts, JUGFJORD_MOST_DISKS, found.left, JUGFJORD_MOST_LEFT);
    if (refused("planning after a text", planned.number, planned.second)) return 1;
    return all_held(&found) ? 0 : 1;
}
