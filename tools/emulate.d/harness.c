/* Runs one Thumb instruction pair on D0 to D31, for tools/emulate.
   Input: for each case two halfwords, the saturation mark (32 bits, 0 or 1) and 32 doublewords, little-endian.
   Output: the 32 doublewords after it, and the mark as one more. */
#include <stdint.h>
#include <stdio.h>
#include <string.h>
#include <sys/mman.h>

/* The mark's bit of FPSCR, QC. The others are 0 before the pair. */
enum { MARK = 27 };

struct test {
    uint16_t pair[2];
    uint32_t mark;
    uint64_t file[32];
} __attribute__((packed));

/* What is called: D0 to D31 before and after, and FPSCR before; it answers FPSCR after. */
typedef uint32_t routine(const uint64_t *in, uint64_t *out, uint32_t fpscr);

/* vpush {d8-d15}; vmsr fpscr, r2; vldmia r0!, {d0-d15}; vldmia r0, {d16-d31} */
static const uint16_t before[] = {0xed2d, 0x8b10, 0xeee1, 0x2a10, 0xecb0, 0x0b20, 0xecd0, 0x0b20};
/* vmrs r0, fpscr; vstmia r1!, {d0-d15}; vstmia r1, {d16-d31}; vpop {d8-d15}; bx lr */
static const uint16_t after[] = {0xeef1, 0x0a10, 0xeca1, 0x0b20, 0xecc1, 0x0b20, 0xecbd, 0x8b10, 0x4770};

int main(void) {
    uint16_t *code = mmap(0, 4096, PROT_READ | PROT_WRITE | PROT_EXEC, MAP_PRIVATE | MAP_ANONYMOUS, -1, 0);
    uint16_t *pair = code + sizeof before / 2;
    struct test t;
    if (code == MAP_FAILED) {
        return 1;
    }
    memcpy(code, before, sizeof before);
    memcpy(pair + 2, after, sizeof after);
    while (fread(&t, sizeof t, 1, stdin) == 1) {
        uint64_t in[32], out[33];
        memcpy(pair, t.pair, 4);
        memcpy(in, t.file, sizeof in);
        __builtin___clear_cache((char *)code, (char *)code + 4096);
        out[32] = ((routine *)((uintptr_t)code | 1))(in, out, t.mark << MARK) >> MARK & 1;
        fwrite(out, sizeof out, 1, stdout);
    }
    return 0;
}
