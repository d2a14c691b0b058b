/* Runs lists of Thumb instruction pairs on D0 to D31, for tools/sheets and tools/runs.
   Input: for each list the number of its pairs and the saturation mark (32 bits each; the mark 0 or 1), 32 doublewords
   and the pairs, little-endian. Output: the 32 doublewords after it, and the mark as one more. */
#include <stdint.h>
#include <stdio.h>
#include <string.h>
#include <sys/mman.h>

/* The bytes for code, and the mark's bit of FPSCR, QC. The others are 0 before the pairs. */
enum { ROOM = 1 << 15, MARK = 27 };

/* What is called: D0 to D31 before and after, and FPSCR before; it answers FPSCR after. */
typedef uint32_t routine(const uint64_t *in, uint64_t *out, uint32_t fpscr);

/* vpush {d8-d15}; vmsr fpscr, r2; vldmia r0!, {d0-d15}; vldmia r0, {d16-d31} */
static const uint16_t before[] = {0xed2d, 0x8b10, 0xeee1, 0x2a10, 0xecb0, 0x0b20, 0xecd0, 0x0b20};
/* vmrs r0, fpscr; vstmia r1!, {d0-d15}; vstmia r1, {d16-d31}; vpop {d8-d15}; bx lr */
static const uint16_t after[] = {0xeef1, 0x0a10, 0xeca1, 0x0b20, 0xecc1, 0x0b20, 0xecbd, 0x8b10, 0x4770};

int main(void) {
    char *code = mmap(0, ROOM, PROT_READ | PROT_WRITE | PROT_EXEC, MAP_PRIVATE | MAP_ANONYMOUS, -1, 0);
    char *pairs = code + sizeof before;
    uint32_t head[2];
    if (code == MAP_FAILED) {
        return 1;
    }
    memcpy(code, before, sizeof before);
    while (fread(head, sizeof head, 1, stdin) == 1) {
        uint32_t count = head[0], mark = head[1];
        uint64_t in[32], out[33];
        if (sizeof before + 4 * (size_t)count + sizeof after > ROOM) {
            return 1;
        }
        if (fread(in, sizeof in, 1, stdin) != 1 || fread(pairs, 4, count, stdin) != count) {
            return 1;
        }
        memcpy(pairs + 4 * count, after, sizeof after);
        __builtin___clear_cache(code, code + ROOM);
        out[32] = ((routine *)((uintptr_t)code | 1))(in, out, mark << MARK) >> MARK & 1;
        fwrite(out, sizeof out, 1, stdout);
    }
    return 0;
}
