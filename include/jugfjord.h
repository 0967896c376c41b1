/* Jugfjord: plans for film racks, and their texts.
 *
 * Every function may be called with any numbers, any list, any text and tables of any length. It succeeds, or gives one
 * of the refusals below: `number` is 0 for success, else the refusal, with `second` where the refusal has a second number,
 * and zero for the rest. A refusal changes no byte and no entry of what the caller lent.
 *
 * No function keeps a state, so that every function may run on any number of threads at once. None allocates memory, opens a
 * file or calls anything but memcpy and memset.
 *
 * What a caller must keep:
 * - a pointer whose count is 1 or more is not NULL, is aligned for its type and is valid for its count: that many bytes,
 *   numbers, disks or rows of nine numbers can be read there, and written where it is not const;
 * - what one call is lent does not overlap, except that two const arguments may; no other thread writes to it during the call.
 * A pointer whose count is 0 may be NULL: nothing is read or written through it. NULL with 0 is an empty list, an empty text,
 * a rack without disks or a table without places.
 *
 * Racks: `rack` has one entry a disk, that of disk 1 first, with the disk's slots and streams. Disks may be large and small,
 * but all have one ratio of streams to slots. `jugfjord_equal_rack` makes the entries of a rack of equal disks. Planning fills
 * the disks by ascending slots, equal ones by number.
 *
 * Tables: `copies` is the copy table, `left` the left table. An entry of either is one number. In the copy table its low 16 bits
 * are the film, the next 16 the mark and its high 32 the viewers; in the left table its low 32 bits are the film, which is at
 * most 65,535, and its high 32 the amount. In planning, writing and reading `counts` has the number of copies of each disk; in
 * `jugfjord_transfers` it is the table that is described there. The disks stand by number, whatever their slots: disk 1 has its
 * copies from place 0 on, and each other disk from the place after the slots of all disks before it. Planning and reading set the
 * unused copy places to 0, and writing asks for that. JUGFJORD_MOST_COPIES, JUGFJORD_MOST_DISKS and JUGFJORD_MOST_LEFT places are
 * always enough.
 *
 * A copy with 0 viewers is a shelf copy. Planning takes the films of demand 0 in ascending number and stores each on the
 * lowest disk with a free slot, behind its other copies; with no free slot the film is left with amount 0. So an entry with
 * amount 0 may be a film: go by `counts` and by the number of left films.
 *
 * The mark of a copy is 1 where the same disk held the same film in an earlier plan, so that it need not be copied again; else
 * it is 0. `jugfjord_plan_after` sets it, the other plannings set none, writing shows it as `(8 1 held)` and reading takes it
 * from there. A left film has no mark.
 *
 * `served` is the sum of viewers over all copies, `unserved` what is left in sum.
 *
 * Link with libjugfjord.a, for x86-64 Linux: `pkg-config --cflags --libs jugfjord` after `./install`, or
 * target/staticlib/libjugfjord.a, which `./install` and `./test` write.
 */
#ifndef JUGFJORD_H
#define JUGFJORD_H

#include <stddef.h>
#include <stdint.h>

#ifdef __cplusplus
extern "C" {
#endif

#define JUGFJORD_VERSION "0.8.0"
#define JUGFJORD_VERSION_MAJOR 0
#define JUGFJORD_VERSION_MINOR 8
#define JUGFJORD_VERSION_PATCH 0

#define JUGFJORD_MOST_COPIES 2048 /* the slots of all disks */
#define JUGFJORD_MOST_DISKS 64
#define JUGFJORD_MOST_LEFT 1024
#define JUGFJORD_MOST_TEXT 54800    /* bytes of the longest plan text */
#define JUGFJORD_MOST_TRANSFERS 256 /* the slots of 8 disks */
#define JUGFJORD_ENDS 9             /* the loader, number 0, and 8 disks */

/* The purser's terminal plans for so many disks and records at most. So many copy places, counts and left places are always
 * enough for its tables. */
#define JUGFJORD_TERMINAL_COPIES 256 /* the slots of 8 disks */
#define JUGFJORD_TERMINAL_DISKS 8
#define JUGFJORD_TERMINAL_RECORDS 96

/* The refusals. `second` is the record for 4, 5, 6 and 16, the line for 9 and the disk for 13, each from 1; 0 for the others. */
#define JUGFJORD_REFUSED_RACK_OUT_OF_RANGE 1   /* of the program `plan` alone, in the place of 12; no function here gives it */
#define JUGFJORD_REFUSED_LIST_LENGTH 2         /* list length no multiple of 8 */
#define JUGFJORD_REFUSED_TOO_MANY_RECORDS 3    /* more than 1,024 records */
#define JUGFJORD_REFUSED_FILM_OUT_OF_RANGE 4   /* film number 0 or above 65,535 */
#define JUGFJORD_REFUSED_DEMAND_OUT_OF_RANGE 5 /* demand above 1,000,000 */
#define JUGFJORD_REFUSED_FILM_REPEATED 6       /* film seen in an earlier record */
#define JUGFJORD_REFUSED_TABLES_TOO_SHORT 7    /* a lent table or list, or the rack lent to reading, is too short */
#define JUGFJORD_REFUSED_TEXT_TOO_LONG 8       /* text of more than 65,536 bytes */
#define JUGFJORD_REFUSED_LINE 9                /* the first line that no accepted text has after the lines before it */
#define JUGFJORD_REFUSED_NOT_WELL_FORMED 10    /* the plan in the tables is not well formed */
#define JUGFJORD_REFUSED_SPACE_TOO_SHORT 11    /* the space for the text is too short */
#define JUGFJORD_REFUSED_DISKS_OUT_OF_RANGE 12 /* disks not 1 to 64, or of one slots not 1 to 32 or streams not 1 to 65,535 */
#define JUGFJORD_REFUSED_RATIO_DIFFERS 13      /* the first disk whose ratio of streams to slots is not that of disk 1 */
#define JUGFJORD_REFUSED_TOO_MANY_DISKS 14     /* more than 8 disks in either text; given by jugfjord_transfers only */
#define JUGFJORD_REFUSED_FIRST_LINES_DIFFER 15 /* the first lines of the two texts differ; given by jugfjord_transfers only */
#define JUGFJORD_REFUSED_SERVICE_CLIP 16       /* film number 50,000 to 65,535 in a list; plan texts may have it */
#define JUGFJORD_REFUSED_TERMINAL_TOO_SMALL 17 /* more than 8 disks or 96 records; given by jugfjord_plan_terminal only */

/* The entry of a film with its viewers or its amount, without a mark. The film is at most 65,535: as a copy, 65,544 would be
 * film 8 with mark 1. */
static inline uint64_t jugfjord_entry(uint32_t film, uint32_t amount)
{
    uint64_t high = amount;
    return (high << 32) | film;
}

/* The film of an entry: its low 16 bits. */
static inline uint32_t jugfjord_entry_film(uint64_t entry)
{
    return entry & 0xffff;
}

/* The mark of a copy's entry: 1 where the disk held the film before, else 0. */
static inline uint32_t jugfjord_entry_mark(uint64_t entry)
{
    return (entry >> 16) & 0xffff;
}

/* The viewers or the amount of an entry. */
static inline uint32_t jugfjord_entry_amount(uint64_t entry)
{
    uint64_t high = entry >> 32;
    return high & 0xffffffff;
}

/* The entry of a copy with the low 16 bits of this mark instead of its own. */
static inline uint64_t jugfjord_entry_with_mark(uint64_t entry, uint32_t mark)
{
    uint64_t above = mark & 0xffff;
    return (entry & ~UINT64_C(0xffff0000)) | (above << 16);
}

/* A disk of a rack: how many films it stores and how many viewers it serves. */
struct jugfjord_disk {
    uint32_t slots;
    uint32_t streams;
};

/* Makes all entries of a rack equal, with these slots and streams. */
static inline void jugfjord_equal_rack(struct jugfjord_disk *rack, size_t rack_count, uint32_t slots, uint32_t streams)
{
    for (size_t i = 0; i < rack_count; i++) {
        rack[i].slots = slots;
        rack[i].streams = streams;
    }
}

struct jugfjord_planned {
    uint32_t number;
    uint32_t second;
    uint64_t served;
    uint64_t unserved;
    uint32_t left; /* left films in the left table, those of amount 0 too */
};

/* Plans by the sliding-window method. `list` has eight bytes a record: film number, then demand, each 32 bits, least
 * significant byte first; list_count is in bytes. The tables need a copy place for each slot of the rack, a count for each disk
 * and a left place for each record. A list has films 1 to 49,999; 50,000 to 65,535 are service clips, which racks play from
 * their own memory. Refusals 12, 13 with the disk, 2, 3, 7, then record by record 4, 16, 5, 6 with the record. Less than 80 KiB of
 * stack. */
struct jugfjord_planned jugfjord_plan(const struct jugfjord_disk *rack, size_t rack_count,
                                      const uint8_t *list, size_t list_count,
                                      uint64_t *copies, size_t copies_count,
                                      uint32_t *counts, size_t counts_count,
                                      uint64_t *left, size_t left_count);

/* Plans as `jugfjord_plan` does, on the purser's terminal, which takes up to 8 disks and 96 records: more of either is refused
 * 17. The arguments are those of `jugfjord_plan`, and what is not refused 17 has its answer and its tables, so that the plan
 * text is the same, line by line. Tables of JUGFJORD_TERMINAL_COPIES, JUGFJORD_TERMINAL_DISKS and JUGFJORD_TERMINAL_RECORDS
 * places are always enough. Refusals 12, 13 with the disk, 2, 3, 17, 7, then record by record 4, 16, 5, 6 with the record. Less
 * than 80 KiB of stack. */
struct jugfjord_planned jugfjord_plan_terminal(const struct jugfjord_disk *rack, size_t rack_count,
                                               const uint8_t *list, size_t list_count,
                                               uint64_t *copies, size_t copies_count,
                                               uint32_t *counts, size_t counts_count,
                                               uint64_t *left, size_t left_count);

/* Plans as `jugfjord_plan` does, and marks each copy whose film the same disk held in an earlier plan. `earlier` is the text of
 * that plan; its rack may be any other, its viewers and marks do not matter, a copy with 0 viewers was held, a left film was
 * not, and a disk that it lacks held nothing. Without their marks the tables and the answer are those of `jugfjord_plan`.
 * Refusals those of `jugfjord_plan`, then 8 and 9 with the line for the earlier text; an empty text is 9 at line 1. Less than
 * 96 KiB of stack. */
struct jugfjord_planned jugfjord_plan_after(const struct jugfjord_disk *rack, size_t rack_count,
                                            const uint8_t *list, size_t list_count,
                                            const uint8_t *earlier, size_t earlier_count,
                                            uint64_t *copies, size_t copies_count,
                                            uint32_t *counts, size_t counts_count,
                                            uint64_t *left, size_t left_count);

struct jugfjord_written {
    uint32_t number;
    uint32_t second; /* the disk for 13 */
    uint64_t length;
};

/* Writes the plan text of the tables to the front of `text`, with no zero byte behind it; JUGFJORD_MOST_TEXT bytes are always
 * enough. `left_films` is the number of left films. Refusals 12, 13 with the disk, 7, 10, 11. Less than 4 KiB of stack. */
struct jugfjord_written jugfjord_write(const struct jugfjord_disk *rack, size_t rack_count,
                                       const uint64_t *copies, size_t copies_count,
                                       const uint32_t *counts, size_t counts_count,
                                       const uint64_t *left, size_t left_count,
                                       uint32_t left_films,
                                       uint8_t *text, size_t text_count);

struct jugfjord_read_plan {
    uint32_t number;
    uint32_t second;
    uint32_t disks; /* entries of the rack */
    uint32_t left;  /* number of left films */
    uint64_t served;
    uint64_t unserved;
};

/* Reads a plan text into the rack and the tables. The rack needs an entry for each disk of the text; the tables need a copy
 * place for each slot of the rack, a count for each disk and a place for each left film. Entries beyond the text's disks stay
 * as they were. Refusals 8, 9 with the line, 7. Less than 32 KiB of stack. */
struct jugfjord_read_plan jugfjord_read(const uint8_t *text, size_t text_count,
                                        struct jugfjord_disk *rack, size_t rack_count,
                                        uint64_t *copies, size_t copies_count,
                                        uint32_t *counts, size_t counts_count,
                                        uint64_t *left, size_t left_count);

/* Judges a text with no rack and no tables lent: the numbers that reading gives. Refusals 8, 9 with the line. Less than 32 KiB
 * of stack. */
struct jugfjord_read_plan jugfjord_judge(const uint8_t *text, size_t text_count);

/* The film of a transfer: its low 16 bits. */
static inline uint32_t jugfjord_transfer_film(uint64_t transfer)
{
    return transfer & 0xffff;
}

/* Where a transfer's film comes from: the disk, or 0 for the loader. */
static inline uint32_t jugfjord_transfer_source(uint64_t transfer)
{
    return (transfer >> 16) & 0xff;
}

/* The disk that a transfer goes to. */
static inline uint32_t jugfjord_transfer_destination(uint64_t transfer)
{
    return (transfer >> 24) & 0xff;
}

/* The round in which a transfer runs, from 1. */
static inline uint32_t jugfjord_transfer_round(uint64_t transfer)
{
    uint64_t high = transfer >> 32;
    return high & 0xffffffff;
}

struct jugfjord_transferred {
    uint32_t number;
    uint32_t second;
    uint32_t transfers; /* how many there are */
    uint32_t rounds;    /* the largest round, 0 without transfers */
};

/* Finds what to copy so that a rack with the old plan gets the copies of the new one, and in which round. There is a transfer for
 * each new copy whose film the old plan has not on the same disk. Its source is the lowest disk that holds the film in the old
 * plan, else the loader, number 0. In one round every disk and the loader take part in at most one transfer. Transfers are placed
 * by ascending destination, then film number, each in the earliest round, from 1, where both ends are free. With d the most
 * transfers that touch one disk or the loader, d at least 1, there are at most 2d - 1 rounds.
 *
 * A copy with 0 viewers is a copy, in the old plan and in the new. Viewers, left films and marks do not matter. The rack has up
 * to 8 disks, equal or mixed, and both texts have the same first line.
 *
 * Copies that the new plan lacks are not listed: removing them is left to the person who loads the rack. The schedule does not
 * look at free slots: an old copy has to stay on its disk until the last round that copies from it. On full disks this may be
 * impossible, and the schedule does not find that out.
 *
 * `transfers` gets an entry for each transfer, in the order in which they were placed, which need not be that of rounds. An entry
 * is one number: the film in its bits 0 to 15, the source in 16 to 23, the destination in 24 to 31 and the round from bit 32 on;
 * the functions above take it apart. JUGFJORD_MOST_TRANSFERS entries are always enough. `counts` has nine rows of nine numbers:
 * counts[source][destination] becomes the number of transfers from the one to the other, and the sum over the table is the number
 * of transfers. `rows` is the number of rows lent, at least JUGFJORD_ENDS; `counts` cannot be left out. Entries beyond the
 * transfers and rows beyond the nine stay as they were.
 *
 * Refusals 8 and 9 with the line for the old text, then 8 and 9 with the line for the new text, 14, 15, and 7 where the list is
 * shorter than the transfers or there are fewer than nine rows. 7 does not say how many transfers there are. 8 and 9 do not say
 * which text they are of: `jugfjord_judge` of the old text does. Where it refuses that text, it has the same two numbers and they
 * are of the old text; else they are of the new one. Less than 80 KiB of stack. */
struct jugfjord_transferred jugfjord_transfers(const uint8_t *old_text, size_t old_count,
                                               const uint8_t *new_text, size_t new_count,
                                               uint64_t *transfers, size_t transfers_count,
                                               uint32_t (*counts)[9], size_t rows);

#ifdef __cplusplus
}
#endif

#endif
