#include "sources.h"

#include <stdarg.h>
#include <stdio.h>
#include <string.h>

#include "random.h"

uint8_t text[TEXT_ROOM];
size_t text_len;

/* Of the text that was begun last. */
static uint32_t faults_in;
static enum style style;

static bool faulty(void)
{
    return faults_in != 0 && once_in(faults_in);
}

/* Pieces of a text ---------------------------------------------------------------------------- */

__attribute__((format(printf, 1, 2))) static void put(const char *format, ...)
{
    va_list values;
    va_start(values, format);
    text_len += (size_t)vsnprintf((char *)text + text_len, TEXT_ROOM - text_len, format, values);
    va_end(values);
}

static void put_digits(uint32_t count)
{
    for (; count != 0; count--)
        text[text_len++] = (uint8_t)('0' + random_below(10));
}

/* A register up to R7 or up to R15. */
static void put_register(uint32_t most)
{
    static const char *const wrong[] = { "R8", "R15", "R16", "R01", "R00", "R", "r0", "PC" };
    if (faulty() && once_in(3))
        put("%s", wrong[random_below(8)]);
    else
        put("R%u", random_below(most + 1));
}

/* A number that should be a multiple of the unit, up to a limit. */
static void put_number(uint32_t limit, uint32_t unit)
{
    put("#");
    if (!faulty()) {
        put("%u", unit * random_below(limit / unit + 1));
        return;
    }
    switch (random_below(8)) {
    case 0: /* next to the limit */
        put("%u", limit - 4 + random_below(9));
        break;
    case 1:
        put("%u", random_below(3 * limit));
        break;
    case 2: /* long, in a text now and then very long */
        put("%u", 1 + random_below(9));
        put_digits(once_in(20) ? 6000 : random_below(40));
        break;
    case 3: /* what is 0 or 4 if it wraps */
        put("%s", once_in(2) ? "18446744073709551616" : "18446744073709551620");
        break;
    case 4:
        put("4294967296");
        break;
    case 5:
        put("0%u", random_below(10));
        break;
    case 6:
        put("%s", once_in(2) ? "" : "-1");
        break;
    default:
        put("%u", random_below(limit + 1)); /* no multiple, perhaps */
        break;
    }
}

/* The name of a label; another one for each number. */
static void put_name(uint32_t number)
{
    static const char digits[] = "0123456789abcdefghijklmnopqrstuvwxyz";
    if (style == BY_ADDRESS) {
        put("a%u", 2 * number);
        return;
    }
    put("%c", 'a' + (int)(number % 26));
    number /= 26;
    for (uint32_t more = 7; style == LONG ? more != 0 : number != 0; number /= 36, more--)
        put("%c", digits[number % 36]);
}

static void put_wrong_name(void)
{
    static const char *const wrong[] = { "", "A", "1", "abcdefghi", "a_", "0a", "aA", "PC", "#4" };
    put("%s", wrong[random_below(9)]);
}

/* Whole texts --------------------------------------------------------------------------------- */

static void put_branch(const struct plan *plan, uint32_t i)
{
    enum { REACH = 100 };
    uint64_t here = (uint64_t)i * plan->labels / plan->instructions;
    uint64_t reach = (uint64_t)REACH * plan->labels / plan->instructions;
    uint64_t first = here < reach ? 0 : here - reach;
    uint64_t last = here + reach < plan->labels ? here + reach : plan->labels - 1;
    put("B%s ", faulty() && once_in(4) ? "AL" : paw_condition_name(random_below(14)));
    if (!faulty())
        put_name((uint32_t)first + random_below((uint32_t)(last - first + 1)));
    else if (once_in(3))
        put_wrong_name();
    else
        put_name(random_below(plan->labels + 2)); /* out of reach, or nowhere */
    put("\n");
}

static void put_pair(const char *name, uint32_t most)
{
    put("%s ", name);
    put_register(most);
    put(", ");
    put_register(most);
    put("\n");
}

static void put_transfer(const char *name, uint32_t limit, uint32_t unit)
{
    put("%s ", name);
    put_register(7);
    put(", [");
    put_register(7);
    put(", ");
    put_number(limit, unit);
    put("]\n");
}

static void put_instruction(const struct plan *plan, uint32_t i)
{
    static const char *const low[] = { "AND", "EOR", "ASR", "TST", "NEG", "CMP" };
    static const char *const any[] = { "ADD", "CMP", "MOV" };
    switch (random_below(plan->labels == 0 ? 8 : 11)) {
    case 0:
        put("HALT ");
        put_number(255, 1);
        put("\n");
        break;
    case 1 ... 2:
        put("%s ", once_in(2) ? "MOV" : "CMP");
        put_register(7);
        put(", ");
        put_number(255, 1);
        put("\n");
        break;
    case 3:
        put_pair(low[random_below(6)], 7);
        break;
    case 4:
        put_pair(any[random_below(3)], 15);
        break;
    case 5:
        put_transfer(once_in(2) ? "STR" : "LDR", 124, 4);
        break;
    case 6:
        put_transfer(once_in(2) ? "STRB" : "LDRB", 31, 1);
        break;
    case 7:
        put("ADD ");
        put_register(7);
        put(", %s, ", faulty() ? "R15" : "PC");
        put_number(1020, 4);
        put("\n");
        break;
    default:
        put_branch(plan, i);
        break;
    }
}

void put_label(uint32_t number)
{
    if (faulty() && once_in(2))
        put_wrong_name();
    else
        put_name(faulty() ? random_below(number + 1) : number);
    put(":\n");
}

void write_text(const struct plan *plan)
{
    uint32_t label = 0;
    text_len = 0;
    faults_in = plan->faults_in;
    style = plan->style;
    for (uint32_t i = 0; i < plan->instructions; i++) {
        while (label < plan->labels &&
               (uint64_t)label * plan->instructions <= (uint64_t)i * plan->labels)
            put_label(label++);
        put_instruction(plan, i);
    }
    while (label < plan->labels)
        put_label(label++);
}

/* Damage -------------------------------------------------------------------------------------- */

struct span {
    size_t start, end; /* the line feed is in it, if there is one */
};

/* The line that has the byte. */
static struct span line_around(size_t at)
{
    struct span line = { at, at };
    while (line.start > 0 && text[line.start - 1] != '\n')
        line.start--;
    while (line.end < text_len && text[line.end] != '\n')
        line.end++;
    line.end += line.end < text_len;
    return line;
}

/* Bytes in place of those of a span. */
static void replace(struct span span, const uint8_t *bytes, size_t len)
{
    if (text_len - (span.end - span.start) + len > TEXT_ROOM)
        return;
    memmove(text + span.start + len, text + span.end, text_len - span.end);
    memcpy(text + span.start, bytes, len);
    text_len = text_len - (span.end - span.start) + len;
}

static uint8_t telling_byte(void)
{
    static const char telling[] = " \n\n\r\t,#[]:RPCB0123456789azADMSLTNHEO";
    if (once_in(3))
        return (uint8_t)random_word();
    return (uint8_t)telling[random_below(sizeof telling)]; /* the 0 behind them too */
}

/* Every line feed, or that of one line, becomes two bytes. */
static void end_lines_by_two(struct span lines)
{
    for (size_t at = lines.end; at-- > lines.start;)
        if (text[at] == '\n')
            replace((struct span){ at, at + 1 }, (const uint8_t *)"\r\n", 2);
}

void damage_text(void)
{
    if (text_len == 0)
        return;
    size_t at = random_below((uint32_t)text_len);
    struct span line = line_around(at), byte = { at, at + 1 }, none = { at, at };
    struct span other = line_around(random_below((uint32_t)text_len));
    size_t len = line.end - line.start, other_len = other.end - other.start;
    static uint8_t copy[1 << 14], other_copy[1 << 14];
    if (len > sizeof copy || other_len > sizeof other_copy)
        return;
    memcpy(copy, text + line.start, len);
    memcpy(other_copy, text + other.start, other_len);
    uint8_t told = telling_byte();
    switch (random_below(12)) {
    case 0 ... 2:
        replace(byte, &told, 1);
        break;
    case 3:
        replace(none, &told, 1);
        break;
    case 4:
        replace(byte, &told, 0);
        break;
    case 5: /* cut */
        text_len = at;
        break;
    case 6: /* a line twice */
        replace((struct span){ line.end, line.end }, copy, len);
        break;
    case 7:
        replace(line, &told, 0);
        break;
    case 8: /* a line elsewhere, in place of another or before it */
        replace(once_in(2) ? other : (struct span){ other.start, other.start }, copy, len);
        break;
    case 9: /* two that change places */
        if (line.end <= other.start) {
            replace(other, copy, len);
            replace(line, other_copy, other_len);
        }
        break;
    case 10:
        end_lines_by_two(once_in(2) ? line : (struct span){ 0, text_len < 5000 ? text_len : at });
        break;
    default: /* no last line feed */
        text_len--;
        break;
    }
}
