/* Assembling and listing. */
#include "measure.h"
#include "peers/peers.h"
#include "samples.h"
#include "speed.h"
#include "table.h"

/* What the work below is done on, and how often in a slice. */
static const struct source *sources;
static size_t count;
static uint32_t repeats;

static uint16_t code[PAW_MAX_CODE];
static uint8_t text[PAW_MAX_LISTING];
static volatile uint64_t answers; /* so that no call is left out */

#define FOR_EACH_SOURCE(source)                                                                   \
    for (uint32_t r_ = 0; r_ < repeats; r_++)                                                     \
        for (const struct source *source = sources; source < sources + count; source++)

static void assemble(size_t maker)
{
    FOR_EACH_SOURCE(source)
        answers += makers[maker].assemble(source->text, source->len, code, PAW_MAX_CODE);
}

static void list(size_t maker)
{
    FOR_EACH_SOURCE(source)
        answers += makers[maker].list(source->code, source->n, text, sizeof text);
}

static struct job {
    const char *name;
    void (*work)(size_t maker);
    const struct source *(*sources)(void);
    size_t count;
    struct series series;
} jobs[] = {
    { "assemble, 15936 instructions and labels", assemble, largest_source, 1, { 0 } },
    { "assemble, 40 lines", assemble, sources_of_40_lines, SMALL_SOURCES, { 0 } },
    { "list, 15936 halfwords", list, largest_source, 1, { 0 } },
    { "list, 40 halfwords", list, sources_of_40_halfwords, SMALL_SOURCES, { 0 } },
};

enum { JOBS = sizeof jobs / sizeof jobs[0] };

void measure_texts(const struct effort *effort)
{
    for (struct job *job = jobs; job < jobs + JOBS; job++) {
        double seconds[MAKERS];
        sources = job->sources();
        count = job->count;
        measure_short(job->work, &repeats, effort->image_rounds, seconds);
        add_pass(&job->series, seconds, MAKERS);
    }
}

void print_texts(void)
{
    for (const struct job *job = jobs; job < jobs + JOBS; job++)
        print_row(job->name, &job->series, 1, MEAN);
}
