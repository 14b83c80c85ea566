/* Miguzoryane: the rows of a column whose values lie in a range, from C.
 *
 * Every call answers a number (mgz_number below; 0 is done). An answer but 0 changes no lent space. Every call writes its
 * `out` words, always all of them: at any number but MGZ_DONE they are 0, but for `needed`, which MGZ_SPACE_SHORT fills with the length
 * the first short space would need, `row`, which MGZ_NEGATIVE_MINUTE fills, and `block`, which MGZ_OTHER_EDITION and MGZ_BAD_BLOCK fill; at
 * MGZ_DONE these three are 0. MGZ_DONE changes only the words that the answer fills.
 *
 * A space is a pointer and a number of elements. The caller keeps every space; the library allocates nothing, keeps no
 * pointer after a call, has no global state, and returns from every call.
 * For the caller to see to, since a pointer can't be tested: no pointer is NULL (where the length is 0 as well), each is aligned for
 * its type and good for its length, and no space that is written overlaps another one handed to the same call.
 */
#ifndef MIGUZORYANE_H
#define MIGUZORYANE_H

#include <stddef.h>
#include <stdint.h>

#ifdef __cplusplus
extern "C" {
#endif

/* The numbers, those of documents 01 and 02. */
enum mgz_number {
    MGZ_DONE = 0,
    MGZ_LOW_ABOVE_HIGH = 1,     /* the low end is above the high end */
    MGZ_COLUMN_TOO_LONG = 2,    /* more than MGZ_ROWS_AT_MOST rows, or MGZ_LINES_AT_MOST lines */
    MGZ_NOT_AN_INDEX = 3,       /* not a packed form for so many lines; pack: a word no line could have; step: a bad position;
                                   append: also a told length beyond its space */
    MGZ_SPACE_SHORT = 4,        /* a lent space is shorter than the answer needs; `needed` is the length it needs */
    MGZ_BAD_BORDERS = 5,        /* over MGZ_BORDERS_AT_MOST borders, or not strictly rising */
    MGZ_BAD_LEVELS = 6,         /* levels outside 1 to MGZ_LEVELS_AT_MOST */
    MGZ_NO_KEY = 7,             /* a key above 2^levels - 1 */
    MGZ_NOT_A_FILTER = 8,       /* the words are not the layout of a smallest tree, with levels and room that a fresh filter would take */
    MGZ_NO_ROOM = 9,            /* learning would need more splits than the room */
    MGZ_NOTHING_TO_FORGET = 10, /* the tree is a single leaf */
    MGZ_ROOM_TOO_LARGE = 11,    /* room above MGZ_ROOM_AT_MOST, or above 2^levels - 1, which is all that a tree of so many levels can use */
    MGZ_NEGATIVE_MINUTE = 13,   /* a minute is negative, or a fault; `row` is the first such row */
    MGZ_OTHER_EDITION = 14,     /* a block of the card is of another edition than MGZ_CARD_EDITION; `block` is the block due */
    MGZ_BAD_BLOCK = 15,         /* a damaged, missing, extra or misplaced block of the card; `block` is the block due */
    MGZ_COVERED_ABOVE_ROWS = 17 /* the index is said to cover more rows than the column has */
};

#define MGZ_ROWS_PER_LINE 16
#define MGZ_ROWS_AT_MOST 4294967295
#define MGZ_LINES_AT_MOST 268435456
#define MGZ_COUNT_AT_MOST 16777215 /* lines of a dictionary entry; one of so many is full */
#define MGZ_BORDERS_AT_MOST 63
#define MGZ_LEVELS_AT_MOST 20
#define MGZ_ROOM_AT_MOST 4095

/* A fault: what a dead probe sends, and no reading. Build leaves faults out where it chooses borders, so a column of faults only has none.
 * Build and append put them into the first bin, whatever the borders. A fault matches no range: with the column's own index no search lists
 * it, not even one from the smallest value up. In the search with both it is no key. A register refuses it, as any negative minute. */
#define MGZ_FAULT INT32_MIN

/* Lines of a column of so many rows. An imprint and a dictionary space of this length are always long enough. */
#define MGZ_LINES(rows) ((rows) / MGZ_ROWS_PER_LINE + ((rows) % MGZ_ROWS_PER_LINE != 0))

/* Lengths of the three parts of a built index. */
struct mgz_built {
    uint64_t needed;
    uint64_t borders;
    uint64_t imprints;
    uint64_t dictionary;
};

/* Lengths of the two parts of a packed list. */
struct mgz_packed {
    uint64_t needed;
    uint64_t imprints;
    uint64_t dictionary;
};

/* New lengths of the two parts of an index that was extended. */
struct mgz_appended {
    uint64_t needed;
    uint64_t imprints;
    uint64_t dictionary;
};

/* A step: the imprint of the line, and the position after it. At the end `ended` is 1, `imprint` 0, and the position is the one handed
 * in. A bad position has all five words 0. */
struct mgz_stepped {
    uint64_t ended;
    uint64_t imprint;
    uint64_t entry;
    uint64_t place;
    uint64_t number;
};

/* How many rows were listed; lines skipped, lines taken whole, values compared. */
struct mgz_found {
    uint64_t needed;
    uint64_t rows;
    uint64_t skipped;
    uint64_t whole;
    uint64_t compared;
};

/* What a filter's words say of it. */
struct mgz_filter {
    uint64_t levels;
    uint64_t room;
    uint64_t hand;
    uint64_t splits;
};

enum mgz_outcome {
    MGZ_DENIED = 0,          /* the filter remembers the range as empty: no row, all counts 0 */
    MGZ_FOUND = 1,           /* rows were listed */
    MGZ_EMPTY_LEARNT = 2,    /* no row, and the filter has learnt the gap */
    MGZ_EMPTY_NOT_LEARNT = 3 /* no row, and the filter stands as it was */
};

/* A search with both. */
struct mgz_guarded {
    uint64_t outcome; /* enum mgz_outcome */
    uint64_t needed;
    uint64_t rows;
    uint64_t skipped;
    uint64_t whole;
    uint64_t compared;
};

/* The words of a register's entry, which is one discharge hour. */
enum mgz_register_word {
    MGZ_REGISTER_HOUR = 0,      /* its minutes over 60, rounded down */
    MGZ_REGISTER_REPEAT = 1,    /* how many earlier entries have that hour: 0 the first time, 1 where the clock went back */
    MGZ_REGISTER_FIRST_ROW = 2,
    MGZ_REGISTER_ROWS = 3,      /* never 0 */
    MGZ_REGISTER_WORDS = 4      /* so many words an entry */
};

/* How many entries a register has; the first row whose minute is negative. */
struct mgz_registered {
    uint64_t needed;
    uint64_t entries;
    uint64_t row;
};

/* An index on the card is an image of whole blocks: number from 0 (4 bytes), edition (4), payload length (2), two zero bytes, payload
 * filled up with zeros, check (4), low byte first throughout. The check is two sums over the bytes before it, as two-byte numbers x:
 * a = a + x and b = b + a, both from 0 and modulo 65535. All blocks but the last are full. Together the payloads are the row count, the
 * numbers of borders, imprints and dictionary words (4 bytes each), and these: imprints in 8 bytes, the others in 4.
 * One changed byte of a block is always noticed. The sums can't tell a two-byte number 0 from 65535: that change is not, by the check. */
#define MGZ_CARD_BLOCK 512
#define MGZ_CARD_PAYLOAD 496
#define MGZ_CARD_EDITION 1

/* Bytes of the image of an index of so many borders, imprints and dictionary words. */
#define MGZ_CARD_BYTES(borders, imprints, dictionary) \
    ((15ULL + 4ULL * (borders) + 8ULL * (imprints) + 4ULL * (dictionary)) / MGZ_CARD_PAYLOAD * MGZ_CARD_BLOCK + MGZ_CARD_BLOCK)

/* How many bytes of the card the image fills. */
struct mgz_card_written {
    uint64_t needed;
    uint64_t bytes;
};

/* A block that was taken. The last five words are the reader's state after it, to be handed in with the next block: the block due then,
 * and the header's counts. `ended` is 1 at the last block. */
struct mgz_card_fed {
    uint64_t needed;
    uint64_t block;
    uint64_t ended;
    uint64_t due;
    uint64_t rows;
    uint64_t borders;
    uint64_t imprints;
    uint64_t dictionary;
};

/* Builds the index of a column: its borders, the imprints kept and the dictionary, at the front of the three spaces. An index is handed to the
 * other calls as exactly its words, so with the lengths `out` gives. Numbers, in the order they are checked: 2, 4. */
uint32_t mgz_build(const int32_t *column, size_t column_length, int32_t *borders, size_t borders_length, uint64_t *imprints,
                   size_t imprints_length, uint32_t *dictionary, size_t dictionary_length, struct mgz_built *out);

/* Samples keep coming: extends an index of the first `covered` rows to the whole column, where it stands. Lines that were full keep their
 * imprints, and their rows are not read again; every later line is imprinted from the column, a last short one that was covered included.
 * The borders stay. Rows may come in pieces cut anywhere: if none is refused, the index at the end is the same.
 * The two spaces may be longer than the index: `imprints_told` and `dictionary_told` are the lengths of its parts so far, `out` gives the
 * new ones, and words past these stay as they were. `needed` is the whole new length of the first short space, imprints before dictionary;
 * MGZ_LINES(column_length) is always enough. Quickest is room in both for the told words and one more for each line to be imprinted.
 * Numbers: 2, 17, 5, 3, 4. */
uint32_t mgz_append(const int32_t *column, size_t column_length, uint64_t covered, const int32_t *borders, size_t borders_length,
                    uint64_t *imprints, size_t imprints_length, uint64_t imprints_told, uint32_t *dictionary, size_t dictionary_length,
                    uint64_t dictionary_told, struct mgz_appended *out);

/* Packs a list of imprints, one per line. A run of two or more equal ones becomes a repeat entry, with its length and one imprint kept;
 * neighbouring single ones are gathered into a plain entry, with their number and all imprints kept. An entry is a dictionary word: bits 0
 * to 23 the count, bit 24 the repeat mark, the others 0. Entries fill up: a run longer than MGZ_COUNT_AT_MOST becomes full repeat entries
 * and then one entry for what is left, where one line left over is a plain entry of its own, which gathers no later single; singles beyond
 * a full plain entry start another. Other calls take the packing alone: the same lines in other entries are MGZ_NOT_AN_INDEX.
 * Numbers: 2, 5, 3, 4. */
uint32_t mgz_pack(const uint64_t *list, size_t list_length, const int32_t *borders, size_t borders_length, uint64_t *imprints,
                  size_t imprints_length, uint32_t *dictionary, size_t dictionary_length, struct mgz_packed *out);

/* The list of imprints of an index for `lines` lines. Numbers: 2, 5, 3, 4. */
uint32_t mgz_unpack(const int32_t *borders, size_t borders_length, const uint64_t *imprints, size_t imprints_length,
                    const uint32_t *dictionary, size_t dictionary_length, uint64_t lines, uint64_t *list, size_t list_length,
                    uint64_t *needed);

/* One step of reading an index line by line, from a position that starts as 0, 0, 0. Number: 3, for a bad position. */
uint32_t mgz_step(const uint32_t *dictionary, size_t dictionary_length, const uint64_t *imprints, size_t imprints_length, uint64_t entry,
                  uint64_t place, uint64_t number, struct mgz_stepped *out);

/* The rows whose values lie in low to high, both included, rising, at the front of `ids`: so with an index built from the column, or built
 * from its first rows and extended to it; a fault is never among them. With any other index that is not refused, the rows of the lines that
 * it takes whole, faults too, and the matching rows of those that it has compared. Numbers: 2, 5, 3, 1, 4. */
uint32_t mgz_search(const int32_t *column, size_t column_length, const int32_t *borders, size_t borders_length, const uint64_t *imprints,
                    size_t imprints_length, const uint32_t *dictionary, size_t dictionary_length, int32_t low, int32_t high,
                    uint32_t *ids, size_t ids_length, struct mgz_found *out);

/* How many words a filter of this room needs: 2 x room + 4. More may be lent; those behind are never changed. */
uint64_t mgz_filter_words(uint32_t room);

/* A filter of keys 0 to 2^levels - 1 that remembers nothing. A tree of so many levels can use 2^levels - 1 splits, so a larger room is a
 * slip of whoever set the filter up, and is refused: at 4 levels 15 is taken, 16 is not. `needed` is as above. Numbers: 6, 11, 4. */
uint32_t mgz_filter_fresh(uint32_t levels, uint32_t room, uint32_t *words, size_t words_length, uint64_t *needed);

/* May the range low to high hold a sample? At MGZ_DONE `look` is 0 if the filter remembers it as empty (denied), else 1.
 * Numbers: 8, 7, 1. */
uint32_t mgz_filter_ask(const uint32_t *words, size_t words_length, uint32_t low, uint32_t high, uint32_t *look);

/* Remembers the range low to high as empty. Numbers: 8, 7, 1, 9. */
uint32_t mgz_filter_learn(uint32_t *words, size_t words_length, uint32_t low, uint32_t high);

/* A sample with this key has come: call it once the sample is in the column. Numbers: 8, 7. */
uint32_t mgz_filter_arrive(uint32_t *words, size_t words_length, uint32_t key);

/* A sample with this key has gone; changes nothing, since another row may carry the same key. Numbers: 8, 7. */
uint32_t mgz_filter_depart(const uint32_t *words, size_t words_length, uint32_t key);

/* Forgets one pair of leaves, to gain room. Numbers: 8, 10. */
uint32_t mgz_filter_forget(uint32_t *words, size_t words_length);

/* The filter's levels, room, hand, and splits in use. Number: 8. */
uint32_t mgz_filter_read(const uint32_t *words, size_t words_length, struct mgz_filter *out);

/* The search with both, over the time column in minutes: asks the filter first, searches if it says look, and lets it learn the gap if no
 * value is there. Filter words change at MGZ_EMPTY_LEARNT only. Numbers: 8, 7, 1, 2, 5, 3, and 4 if the filter says look. */
uint32_t mgz_guarded_search(uint32_t *words, size_t words_length, const int32_t *column, size_t column_length, const int32_t *borders,
                            size_t borders_length, const uint64_t *imprints, size_t imprints_length, const uint32_t *dictionary,
                            size_t dictionary_length, uint32_t low, uint32_t high, uint32_t *ids, size_t ids_length,
                            struct mgz_guarded *out);

/* The hour register of a time column in minutes: one entry per discharge hour, in row order, at the front of `words`, each as the four words
 * of enum mgz_register_word. A new entry begins at row 0, where the hour is another than in the row before, and where the minute is smaller:
 * so once a smaller minute has shown that the clock went back, the second 02:30 is in a later entry than the first. Equal neighbouring
 * minutes stay together. The entries cover every row exactly once; hour and repeat number name one entry.
 * Lengths are in words: `needed` is MGZ_REGISTER_WORDS for each entry, and as many for each row are always enough.
 * Numbers: 2, 13, 4. */
uint32_t mgz_register(const int32_t *minutes, size_t minutes_length, uint32_t *words, size_t words_length, struct mgz_registered *out);

/* Writes an index of so many rows as an image at the front of `card`; bytes behind it stay as they were. One index has one image. Lengths
 * are in bytes; MGZ_CARD_BYTES of the index's lengths is just enough. Numbers: 2, 5, 3, 4. */
uint32_t mgz_card_write(uint64_t rows, const int32_t *borders, size_t borders_length, const uint64_t *imprints, size_t imprints_length,
                        const uint32_t *dictionary, size_t dictionary_length, uint8_t *card, size_t card_length,
                        struct mgz_card_written *out);

/* Feeds one block of an image to a reader. `due`, `rows` and the three counts are the reader's state: all 0 at first, then the last five
 * words of the `out` before. While block 0 is due the counts don't matter. A refused block changes nothing, so the reader goes on from the
 * same state: with the same block read once more from the card, or with longer spaces. At `ended` the index stands at the fronts of the
 * three spaces, and is what the writer was given; until then a part of it does. Words behind the counts are never changed.
 * In each block are tested its size and its check (15), its edition (14), all else (15): its number, its payload length, the zeros, that
 * it is not past the last; then the spaces, in each block too (4); and at the last one, whether the words are an index (2, 5, 3). A block
 * of length 0 says that there is no more: 15, with the block due. Any state may be handed in.
 * The header's counts are whatever stands there. An index has at most MGZ_BORDERS_AT_MOST borders, and of so many rows at most
 * MGZ_LINES(rows) imprints and as many dictionary words, so nobody has to follow a `needed` beyond that. A header has no room for more rows
 * than MGZ_ROWS_AT_MOST, so 2 is only given for a state that was handed in with more. Numbers: 15, 14, 15, 4, 2, 5, 3. */
uint32_t mgz_card_feed(const uint8_t *block, size_t block_length, uint64_t due, uint64_t rows, uint64_t borders_count,
                       uint64_t imprints_count, uint64_t dictionary_count, int32_t *borders, size_t borders_length, uint64_t *imprints,
                       size_t imprints_length, uint32_t *dictionary, size_t dictionary_length, struct mgz_card_fed *out);

#ifdef __cplusplus
}
#endif

#endif
