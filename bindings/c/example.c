/* Column A of document 01 (32 rows of 5, then 8 rows of 20), its index, its rows with the value 20, and an empty stretch asked for twice;
 * then 60 more rows of 20 come, and the index grows where it stands. It goes to a card and is read from it, block by block, first with a bit
 * flipped. Last, the register of a night whose clock goes back to 02:00. */
#include "miguzoryane.h"

#include <stdio.h>

enum { ROWS = 40, LINES = MGZ_LINES(ROWS), MORE_ROWS = 100, MORE_LINES = MGZ_LINES(MORE_ROWS), ROOM = 20, WORDS = 2 * ROOM + 4 };

static const char *const outcomes[] = {"denied", "found", "empty and learnt", "empty and not learnt"};

static int refused(uint32_t number) {
    if (number != MGZ_DONE) printf("refused %u\n", (unsigned)number);
    return number != MGZ_DONE;
}

static int hours_of_the_night(void) {
    enum { MINUTES = 6, SPACE = MGZ_REGISTER_WORDS * MINUTES };
    static const int32_t minutes[MINUTES] = {119, 120, 150, 179, 120, 150};
    uint32_t words[SPACE];
    struct mgz_registered registered;
    if (refused(mgz_register(minutes, MINUTES, words, SPACE, &registered))) return 1;
    for (uint64_t number = 0; number < registered.entries; number++) {
        const uint32_t *entry = words + MGZ_REGISTER_WORDS * number;
        printf("hour %u repeat %u first row %u rows %u\n", (unsigned)entry[MGZ_REGISTER_HOUR], (unsigned)entry[MGZ_REGISTER_REPEAT],
               (unsigned)entry[MGZ_REGISTER_FIRST_ROW], (unsigned)entry[MGZ_REGISTER_ROWS]);
    }
    return 0;
}

static int feed(const uint8_t *block, struct mgz_card_fed *state) {
    int32_t borders[MGZ_BORDERS_AT_MOST];
    uint64_t imprints[MORE_LINES];
    uint32_t dictionary[MORE_LINES];
    struct mgz_card_fed fed;
    uint32_t number = mgz_card_feed(block, MGZ_CARD_BLOCK, state->due, state->rows, state->borders, state->imprints, state->dictionary, borders,
                                    MGZ_BORDERS_AT_MOST, imprints, MORE_LINES, dictionary, MORE_LINES, &fed);
    if (number == MGZ_BAD_BLOCK) printf("block %u is bad\n", (unsigned)fed.block);
    if (number == MGZ_DONE) *state = fed;
    return number != MGZ_DONE;
}

static int card_and_back(const int32_t *borders, size_t borders_length, const uint64_t *imprints, size_t imprints_length,
                         const uint32_t *dictionary, size_t dictionary_length) {
    uint8_t card[MGZ_CARD_BYTES(2, MORE_LINES, MORE_LINES)];
    struct mgz_card_written written;
    uint32_t number = mgz_card_write(MORE_ROWS, borders, borders_length, imprints, imprints_length, dictionary, dictionary_length, card,
                                     sizeof card, &written);
    if (refused(number)) return 1;
    printf("%u bytes on the card\n", (unsigned)written.bytes);
    struct mgz_card_fed state = {0};
    card[30] ^= 1;
    if (!feed(card, &state)) return 1;
    card[30] ^= 1;
    if (feed(card, &state) || !state.ended) return 1;
    printf("read back: rows %u borders %u imprints %u dictionary %u\n", (unsigned)state.rows, (unsigned)state.borders,
           (unsigned)state.imprints, (unsigned)state.dictionary);
    return 0;
}

int main(void) {
    int32_t column[MORE_ROWS];
    for (int row = 0; row < MORE_ROWS; row++) column[row] = row < 32 ? 5 : 20;

    int32_t borders[MGZ_BORDERS_AT_MOST];
    uint64_t imprints[MORE_LINES];
    uint32_t dictionary[MORE_LINES];
    struct mgz_built built;
    uint32_t number = mgz_build(column, ROWS, borders, MGZ_BORDERS_AT_MOST, imprints, MORE_LINES, dictionary, MORE_LINES, &built);
    if (refused(number)) return 1;

    uint32_t ids[MORE_ROWS];
    struct mgz_found found;
    number = mgz_search(column, ROWS, borders, built.borders, imprints, built.imprints, dictionary, built.dictionary, 20, 20, ids, ROWS,
                        &found);
    if (refused(number)) return 1;
    printf("rows %d lines %d borders %u\n", ROWS, LINES, (unsigned)built.borders);
    printf("whole %u compared %u skipped %u\n", (unsigned)found.whole, (unsigned)found.compared, (unsigned)found.skipped);
    for (uint64_t row = 0; row < found.rows; row++) printf("%u\n", (unsigned)ids[row]);

    uint32_t words[WORDS];
    uint64_t needed;
    number = mgz_filter_fresh(5, ROOM, words, WORDS, &needed);
    if (refused(number)) return 1;
    for (int time = 0; time < 2; time++) {
        struct mgz_guarded guarded;
        number = mgz_guarded_search(words, WORDS, column, ROWS, borders, built.borders, imprints, built.imprints, dictionary,
                                    built.dictionary, 8, 10, ids, ROWS, &guarded);
        if (refused(number)) return 1;
        printf("8 to 10: %s\n", outcomes[guarded.outcome]);
    }

    struct mgz_appended grown;
    number = mgz_append(column, MORE_ROWS, ROWS, borders, built.borders, imprints, MORE_LINES, built.imprints, dictionary, MORE_LINES,
                        built.dictionary, &grown);
    if (refused(number)) return 1;
    number = mgz_search(column, MORE_ROWS, borders, built.borders, imprints, grown.imprints, dictionary, grown.dictionary, 20, 20, ids,
                        MORE_ROWS, &found);
    if (refused(number)) return 1;
    printf("rows %d lines %d imprints %u dictionary %u\n", MORE_ROWS, MORE_LINES, (unsigned)grown.imprints, (unsigned)grown.dictionary);
    printf("20: %u rows, the last is %u\n", (unsigned)found.rows, (unsigned)ids[found.rows - 1]);
    if (card_and_back(borders, built.borders, imprints, grown.imprints, dictionary, grown.dictionary)) return 1;
    return hours_of_the_night();
}
