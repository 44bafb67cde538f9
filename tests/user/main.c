/* Prints what main.rs prints, of the numbers by the header and of the sample program by hand. */
#include <stdio.h>

#include "paw.h"

int main(void)
{
    printf("version %s\n", PAW_VERSION_STRING);
    for (uint32_t number = 1; number <= PAW_STOP_MISALIGNED; number++) {
        printf("%u %s\n", (unsigned)number, paw_text(number));
    }
    printf("%d %s\n", PAW_HALT, paw_text(PAW_HALT));
    for (uint32_t condition = PAW_EQ; condition <= PAW_LE; condition++) {
        printf("condition %u %s\n", (unsigned)condition, paw_condition_name(condition));
    }
    printf("touched %s\n", paw_touched_text(PAW_NO_DATA));
    for (uint64_t touch = PAW_READ_BYTE; touch <= PAW_WROTE_HALFWORD; touch++) {
        uint64_t answer = touch << 8 | (touch % 2 == 0 ? 8 : 7) << 16;
        printf("touched %s at %u\n", paw_touched_text(answer),
               (unsigned)paw_touched_address(answer));
    }
    puts("0 MOV R1, #252\n2 AND R0, R1\n4 MOV R2, #128\n6 ADD R2, R2\n8 ADD R0, R2\n"
         "10 STR R1, [R0, #0]\n12 HALT #0");
    puts("halted after 6 steps, wrote 2 bytes at 256");
    return 0;
}
