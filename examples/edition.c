#include <stdio.h>
#include "bodlixo.h"

int main(void) {
    /* ef00 0c10 is vfma.f32 d0,d0,d0, which edition B of the manual has not */
    uint64_t record[10];
    uint16_t pair[2];
    uint32_t under_c = bodlixo_read(BODLIXO_EDITION_C, 0xef00, 0x0c10, 0, record);
    uint32_t back = bodlixo_write(BODLIXO_EDITION_C, record, pair);
    printf("C: read %u mnemonic %u written %u %04x %04x\n", under_c, (unsigned)record[0], back, pair[0], pair[1]);
    uint32_t under_b = bodlixo_read(BODLIXO_EDITION_B, 0xef00, 0x0c10, 0, record);
    printf("B: read %u written %u\n", under_b, bodlixo_write(BODLIXO_EDITION_B, record, pair));
}
