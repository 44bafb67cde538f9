#include "peers.h"

#define MADE_BY(compiler)                                                                         \
    {                                                                                             \
        #compiler, step_##compiler, step_by_value_##compiler, check_##compiler,                   \
            verify_##compiler, load_##compiler, pack_##compiler, assemble_##compiler,             \
            list_##compiler                                                                       \
    }

const struct maker makers[MAKERS] = {
    { "libpaw", paw_step, paw_step, paw_check, paw_verify, paw_load, paw_pack, paw_assemble,
      paw_list },
    MADE_BY(gcc),
#if WITH_CLANG
    MADE_BY(clang),
#endif
};

const struct engine engines[ENGINES] = {
    { "libpaw", paw_run },
    { "switch by gcc", switch_run_gcc },
#if WITH_CLANG
    { "switch by clang", switch_run_clang },
#endif
    { "tail calls by gcc", tail_run_gcc },
#if WITH_CLANG
    { "tail calls by clang", tail_run_clang },
#endif
};
