/* Texts, whole and damaged, assembled by all makers, and codes listed by all. */
#include <stdio.h>
#include <string.h>

#include "agree.h"
#include "random.h"
#include "sources.h"

enum {
    CODE_ROOM = PAW_MAX_CODE + 2,
    NUMBERS = PAW_SOURCE_VALUE + 1,
    LARGE_IN = 200,      /* of so many texts or codes one may be as long as can be */
    MANY_LABELS = 20000, /* more than there may be instructions */
    FULL_LABELS = 32600, /* more than the library's table holds, which makes it slow */
};

/* Assembling ---------------------------------------------------------------------------------- */

static uint16_t codes[MAKERS][CODE_ROOM];

/* Assembles the text by all makers; answers the library's answer. */
static uint64_t compare_assembled(size_t room, const char *what, long number)
{
    uint64_t answer = 0;
    size_t bytes = sizeof codes[0][0] * (room + 1); /* with one that is nobody's to write */
    for (size_t i = 0; i < MAKERS; i++) {
        memset(codes[i], 0xaa, bytes);
        uint64_t own = makers[i].assemble(text, text_len, codes[i], room);
        if (i == LIBRARY)
            answer = own;
        else if (own != answer || memcmp(codes[i], codes[LIBRARY], bytes) != 0)
            fail(what, makers[i].name, number);
    }
    return answer;
}

/* Room for so many instructions, or nearly. */
static size_t some_room(size_t count)
{
    size_t room = count + random_below(3);
    if (once_in(12))
        room = random_below((uint32_t)count + 1);
    return room < CODE_ROOM ? room : CODE_ROOM - 1;
}

/* One text in three has no fault, one has few, and one many. */
static struct plan some_plan(bool large)
{
    static const uint32_t sizes[] = { 1, 3, 10, 30, 60, 300, 3000, 15936, 15937, 16500 };
    uint32_t n = sizes[random_below(large ? 10 : 6)];
    if (once_in(2) && n < 15936)
        n = random_below(n + 1);
    uint32_t labels = once_in(4) ? 0 : random_below(1 + (once_in(4) ? 2 : 1) * n);
    if (labels > MANY_LABELS)
        labels = MANY_LABELS;
    uint32_t faults_in = 4 * (n + labels + 1);
    return (struct plan){ n, labels, faults_in * random_below(3) / 2, random_below(STYLES) };
}

void compare_texts(long cases)
{
    long counts[NUMBERS] = { 0 };
    for (long n = 0; n < cases; n++) {
        struct plan plan = some_plan(n % LARGE_IN == 0);
        write_text(&plan);
        for (uint32_t times = once_in(2) ? 0 : 1 + random_below(2); times != 0; times--)
            damage_text();
        counts[paw_assembled_number(compare_assembled(some_room(plan.instructions), "text", n))]++;
    }
    printf("%ld texts agree; answers:", cases);
    print_numbers(counts, NUMBERS);
}

/* Far more labels than instructions; then a last line has one of them again. */
static void compare_labels(uint32_t labels, enum style style)
{
    write_text(&(struct plan){ 100, labels, 0, style });
    if (compare_assembled(100, "many labels", style) != 100 << 16)
        fail("many labels: an answer", makers[LIBRARY].name, style);
    put_label(random_below(labels));
    if (paw_assembled_number(compare_assembled(100, "many labels", style)) != PAW_SOURCE_LABEL)
        fail("many labels, one twice: an answer", makers[LIBRARY].name, style);
}

void compare_many_labels(void)
{
    for (enum style style = 0; style < STYLES; style++)
        compare_labels(MANY_LABELS, style);
    compare_labels(FULL_LABELS, LONG);
    printf("texts of up to %d labels agree\n", FULL_LABELS);
}

/* Listing ------------------------------------------------------------------------------------- */

/* Lists by all makers, and leaves the library's listing as the text. Answers its answer. */
static uint64_t compare_listed(const uint16_t *code, size_t code_len, size_t room, long number)
{
    static uint8_t listings[MAKERS][PAW_MAX_LISTING + 1];
    uint64_t answer = 0;
    for (size_t i = 0; i < MAKERS; i++) {
        memset(listings[i], 0xaa, room + 1);
        uint64_t own = makers[i].list(code, code_len, listings[i], room);
        if (i == LIBRARY)
            answer = own;
        else if (own != answer || memcmp(listings[i], listings[LIBRARY], room + 1) != 0)
            fail("listing", makers[i].name, number);
    }
    text_len = paw_listed_number(answer) == PAW_OK ? paw_listed_bytes(answer) : 0;
    memcpy(text, listings[LIBRARY], text_len);
    return answer;
}

/* Every maker makes the code of its listing again. */
static void compare_round_trip(const uint16_t *code, size_t code_len, long number)
{
    uint64_t answer = compare_assembled(code_len, "text of a listing", number);
    if (answer != (uint64_t)code_len << 16 ||
        memcmp(codes[LIBRARY], code, sizeof *code * code_len) != 0)
        fail("code of a listing", makers[LIBRARY].name, number);
}

/* A branch of which it is not said where to goes to some place of the code. */
static uint16_t sent_within(uint16_t h, uint32_t i, uint32_t n)
{
    if (h >> 12 != 13)
        return h;
    uint32_t back = i < 128 ? i : 128, ahead = n - 1 - i < 127 ? n - 1 - i : 127;
    return (uint16_t)((h & 0xff00) | ((random_below(back + ahead + 1) - back) & 255));
}

/* Code of which no more than one halfword is refused; answers its length. */
static uint32_t write_code(uint16_t *code, bool large)
{
    static const uint32_t sizes[] = { 1, 2, 8, 40, 130, 300, 6000, 15936 };
    uint32_t n = sizes[random_below(large ? 8 : 6)];
    if (once_in(2))
        n = 1 + random_below(n);
    for (uint32_t i = 0; i < n; i++) {
        uint16_t h = once_in(10) ? random_halt() : random_instruction(0);
        code[i] = sent_within(h, i, n);
    }
    uint16_t any = (uint16_t)random_word(), branch = (uint16_t)(0xd000 | any % 0xe00);
    if (once_in(3))
        code[random_below(n)] = once_in(2) ? any : branch;
    return n;
}

void compare_listings(long cases)
{
    static uint16_t code[PAW_MAX_CODE + 1];
    long counts[NUMBERS] = { 0 };
    for (long n = 0; n < cases; n++) {
        uint32_t length = write_code(code, n % LARGE_IN == 0);
        size_t code_len = once_in(200) ? random_below(2) * (PAW_MAX_CODE + 1) : length;
        uint64_t answer = compare_listed(code, code_len, paw_listing_room(length), n);
        if (paw_listed_number(answer) == PAW_OK) {
            size_t bytes = text_len; /* which are the room that is needed */
            compare_round_trip(code, code_len, n);
            if (once_in(4))
                answer = compare_listed(code, code_len, bytes - random_below(2), n);
        }
        counts[paw_listed_number(answer)]++;
    }
    printf("%ld codes are listed, and their texts assembled, as one; answers:", cases);
    print_numbers(counts, NUMBERS);
}

/* Every halfword, with 128 others before it and 127 behind it: branches reach all of them. */
void compare_listed_halfwords(void)
{
    enum { ROW = 128, LENGTH = 2 * ROW };
    static uint16_t code[LENGTH];
    long listed = 0;
    for (uint32_t h = 0; h < 65536; h++) {
        code[ROW] = (uint16_t)h;
        uint64_t answer = compare_listed(code, LENGTH, paw_listing_room(LENGTH), h);
        if (paw_listed_number(answer) == PAW_OK) {
            compare_round_trip(code, LENGTH, h);
            listed++;
        }
    }
    printf("every halfword is listed and assembled as one; %ld are instructions\n", listed);
}
