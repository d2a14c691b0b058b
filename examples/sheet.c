#include <stdio.h>
#include "bodlixo.h"

int main(void) {
    /* row 2 = row 0 + row 1, then row 2 = row 2 * row 0, in lanes of 32 bits: kind, target, a, b, c, width code, zeros */
    uint8_t sheet[48] = {2, 2, 0, 1, 0, 2, [24] = 4, 2, 2, 0, 0, 2};
    uint16_t out[4];
    uint8_t mark = 0;
    uint64_t file[32] = {40, 0, 2, 0}, executed, at; /* row 0 is 40, row 1 is 2 */
    uint16_t filled = 1 << 0 | 1 << 1; /* rows 0 and 1 */
    uint32_t answer = bodlixo_evaluate(sheet, sizeof sheet, filled, out, 4, file, 32, 100, &mark, &executed, &at);
    printf("answer %u pairs %u executed %u row 2 %u\n", answer, (unsigned)at, (unsigned)executed, (unsigned)file[4]);
}
