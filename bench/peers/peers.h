/* Who made what: the library, and the peers by each compiler. */
#ifndef PEERS_H
#define PEERS_H

#include "paw.h"

typedef uint64_t run_function(struct paw_machine *, uint8_t *, size_t, uint32_t);
typedef uint32_t step_function(struct paw_machine *, uint8_t *, size_t);
typedef uint64_t file_function(const uint8_t *, size_t);
typedef uint64_t load_function(const uint8_t *, size_t, uint8_t *, size_t);
typedef uint32_t pack_function(const uint16_t *, size_t, uint16_t, uint16_t, uint8_t *, size_t);
typedef uint64_t assemble_function(const uint8_t *, size_t, uint16_t *, size_t);
typedef uint64_t list_function(const uint16_t *, size_t, uint8_t *, size_t);

#define DECLARE_PEERS(compiler)                                                                   \
    extern run_function switch_run_##compiler, tail_run_##compiler;                               \
    extern step_function step_##compiler, step_by_value_##compiler;                               \
    extern file_function check_##compiler, verify_##compiler;                                     \
    extern load_function load_##compiler;                                                         \
    extern pack_function pack_##compiler;                                                         \
    extern assemble_function assemble_##compiler;                                                 \
    extern list_function list_##compiler;

DECLARE_PEERS(gcc)
DECLARE_PEERS(clang)

/* WITH_CLANG is 1 where the peers are there from clang too, else 0. */
enum { LIBRARY, GCC, MAKERS = GCC + 1 + WITH_CLANG };

extern const struct maker {
    const char *name;
    step_function *step, *step_by_value;
    file_function *check, *verify;
    load_function *load;
    pack_function *pack;
    assemble_function *assemble;
    list_function *list;
} makers[MAKERS];

/* What runs: the library, then every maker's switch, then every maker's tail calls. */
enum { ENGINES = 2 * MAKERS - 1 };

extern const struct engine {
    const char *name;
    run_function *run;
} engines[ENGINES];

#endif
