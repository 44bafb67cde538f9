/* Calls bare.rs: the answer 7 is success. */
#include <stdint.h>

uint16_t bare(uint8_t *memory);

/* Rust's own core library, which is compiled for unwinding, names it. Nothing unwinds here. */
void rust_eh_personality(void);
void rust_eh_personality(void)
{
}

int main(void)
{
    static uint8_t memory[65536];
    return bare(memory) == 7 ? 0 : 1;
}
