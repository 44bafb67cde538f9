/* Checks 1 to 14 of a memory and a file, and the code and a cleared window put into the memory. */
#include "image.h"

uint64_t PEER(load)(const uint8_t *file, size_t len, uint8_t *memory, size_t memory_len)
{
    if (memory_len != PAW_MEMORY_BYTES)
        return refusal(PAW_MEMORY_SIZE, 0);
    uint64_t answer = PEER(verify)(file, len);
    if (paw_answer_number(answer) != PAW_OK)
        return answer;
    copy_code(file, memory, paw_answer_code_bytes(answer));
    memset(memory + paw_answer_window_start(answer), 0, paw_answer_window_bytes(answer));
    return answer;
}
