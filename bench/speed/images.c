/* Check, verify, load and pack. */
#include "measure.h"
#include "peers/peers.h"
#include "samples.h"
#include "speed.h"
#include "table.h"

/* What the work below is done on, and how often in a slice. */
static const struct image *images;
static size_t count;
static uint32_t repeats;

static uint8_t memory[PAW_MEMORY_BYTES];
static uint8_t out[PAW_MAX_BLOCKS * PAW_BLOCK_BYTES];
static volatile uint64_t answers; /* so that no call is left out */

#define FOR_EACH_IMAGE(image)                                                                     \
    for (uint32_t r_ = 0; r_ < repeats; r_++)                                                     \
        for (const struct image *image = images; image < images + count; image++)

static void check(size_t maker)
{
    FOR_EACH_IMAGE(image)
        answers += makers[maker].check(image->file, image->len);
}

static void verify(size_t maker)
{
    FOR_EACH_IMAGE(image)
        answers += makers[maker].verify(image->file, image->len);
}

static void load(size_t maker)
{
    FOR_EACH_IMAGE(image)
        answers += makers[maker].load(image->file, image->len, memory, sizeof memory);
}

static void pack(size_t maker)
{
    FOR_EACH_IMAGE(image)
        answers += makers[maker].pack(image->code, image->n, image->w, image->l, out, image->len);
}

static struct job {
    const char *name;
    void (*work)(size_t maker);
    const struct image *(*images)(void);
    size_t count;
    struct series series;
} jobs[] = {
    { "verify, 64 blocks of random fit code", verify, random_image, 1, { 0 } },
    { "verify, 64 blocks of branches", verify, branching_image, 1, { 0 } },
    { "verify, one block of 1 to 40 halfwords", verify, small_images, SMALL_IMAGES, { 0 } },
    { "check, 64 blocks", check, random_image, 1, { 0 } },
    { "check, one block of 1 to 40 halfwords", check, small_images, SMALL_IMAGES, { 0 } },
    { "load, 64 blocks of random fit code", load, random_image, 1, { 0 } },
    { "load, one block of 1 to 40 halfwords", load, small_images, SMALL_IMAGES, { 0 } },
    { "pack, 64 blocks", pack, random_image, 1, { 0 } },
    { "pack, one block of 1 to 40 halfwords", pack, small_images, SMALL_IMAGES, { 0 } },
};

enum { JOBS = sizeof jobs / sizeof jobs[0] };

void measure_images(const struct effort *effort)
{
    for (struct job *job = jobs; job < jobs + JOBS; job++) {
        double seconds[MAKERS];
        images = job->images();
        count = job->count;
        measure_short(job->work, &repeats, effort->image_rounds, seconds);
        add_pass(&job->series, seconds, MAKERS);
    }
}

void print_images(void)
{
    for (const struct job *job = jobs; job < jobs + JOBS; job++)
        print_row(job->name, &job->series, 1, MEAN);
}
