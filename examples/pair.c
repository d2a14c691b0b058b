#include <stdio.h>
#include "bodlixo.h"

int main(void) {
    uint64_t record[10], file[32] = {0}, executed;
    uint16_t code[4] = {0xef22, 0x0844, 0xff22, 0x0054}; /* vadd.i32 q0,q1,q2; vqadd.u32 q0,q1,q2 */
    uint8_t mark = 0;
    uint32_t read = bodlixo_read(BODLIXO_EDITION_C, code[0], code[1], 0, record);
    file[2] = 4000000000, file[4] = 300000000;
    uint32_t ran = bodlixo_run(code, 4, 0, file, 32, 1, &mark, &executed);
    printf("read %u mnemonic %u ran %u d0 %u mark %u\n", read, (unsigned)record[0], ran, (unsigned)file[0], mark);
    ran = bodlixo_run(code, 4, executed, file, 32, 1, &mark, &executed);
    printf("ran %u d0 %u mark %u\n", ran, (unsigned)file[0], mark);
}
