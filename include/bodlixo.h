/* Bodlixo: ARM vector (NEON) instruction pairs. Link with the archive that `tools/build capi` writes. */
#ifndef BODLIXO_H
#define BODLIXO_H

#include <stddef.h>
#include <stdint.h>

/* Every function answers 0, or the number of the refusal:

    reading      1  no family of instructions has the pair
                 2  a bit that its row fixes is wrong: L of a narrowing, lengthening or conversion, or a conversion's imm6
                 3  its cell of the table is blank, or blank in the edition named
                 4  a zero immediate where the row has none
                 5  a pairwise (vp..) name with quadwords; in writing too
                 6  an odd number for a quadword register
    writing      7  no mnemonic has the number, or none in the edition named
                 8  count, kinds, registers or their lengths are not the mnemonic's
                 9  a number or float that no pair carries; with another there would be a pair
    running     10  the pair has no meaning for the machine; a pair that cannot be read stops a run with its own number
                11  an odd count of halfwords, a file that is not of 32, or a start past the end
                15  pairs remain and the budget is used up
    sheets      12  a length that is no multiple of 24, or above 6144
                13  a step breaks the rules
                16  a step reads a row that is neither in the list of filled rows nor a target of an earlier step
                    (steps are tested in order, each for 13 and then 16; the first fault found is the answer)
    all outputs 14  the output is too short

   A record is ten words: mnemonic, mark (1 or 2), address, count, then kind and value of each of three places.
   Kind: 0 absent, 1 D, 2 Q, 3 S, 4 whole number, 5 float, 6 another kind.
   Value: the register's number, the whole number's 64 bits in two's complement, the float's IEEE 754 bits, else 0.
   The words of a record that was read stand for that record: written in the same edition, they are the pair that was
   read. */

/* The edition of the manual that a reading or a writing goes by. DDI 0406B has no VFMA and VFMS: under B a pair of
   theirs is refused with 3 and a record with their names with 7; all else is as under C. Any number but
   BODLIXO_EDITION_B stands for C. Runs, sheets and listings go by C. */
enum { BODLIXO_EDITION_C = 0, BODLIXO_EDITION_B = 1 };

/* Reads a pair at an address. On a refusal the record is untouched. */
uint32_t bodlixo_read(uint32_t edition, uint16_t hw1, uint16_t hw2, uint32_t address, uint64_t record[10]);

/* Writes a record as a pair, whatever its address and mark. On a refusal the pair is untouched. A record is refused
   exactly if no pair is read, in the edition named, with its mnemonic and operands, where vorr with equal sources counts
   as the vmov that it is read as, and vshll by 0 as the vmovl. A word too large for its field stands for a value that no
   pair has; the bits of a not-a-number stand for a not-a-number. */
uint32_t bodlixo_write(uint32_t edition, const uint64_t record[10], uint16_t pair[2]);

/* Runs the pairs of `len` halfwords, from the pair `start` on, at most `budget` of them, on a file of 32 doublewords
   and a mark, the manual's cumulative saturation bit: 0 is no, and any other `*mark` that comes in is yes; 0 or 1 comes
   out. A pair turns it yes exactly when it moves a lane of a vqadd or vqsub to an end of the lane's range, and none turns
   it back. `*executed` is always set: the pairs executed, whose effect file and mark have. After 0 or 15 a call with the
   same halfwords from start + *executed, with that file and mark, goes on: the two end as one call with both budgets
   added does, where that sum is below 2^64, and their counts add up to its. */
uint32_t bodlixo_run(const uint16_t *code, size_t len, uint64_t start, uint64_t *file, size_t file_len, uint64_t budget,
                     uint8_t *mark, uint64_t *executed);

/* Translates a sum sheet of `len` bytes into `out`. `filled` is the list of the rows that were filled beforehand, row r at
   bit r: 0x3fff is all of them, and bits 14 and 15 are ignored. `*at` is the pair count; or, after a refusal, which leaves
   `out` untouched, the index of the step where the refusal has one, else 0. 10240 halfwords are always enough. */
uint32_t bodlixo_translate(const uint8_t *sheet, size_t len, uint16_t filled, uint16_t *out, size_t out_len,
                           uint64_t *at);

/* Translates a sum sheet into `out`, and runs its pairs on `file` from the first. A sheet that is refused leaves `out`
   and `file` untouched, with `*executed` 0. `filled` and `*at` are as in bodlixo_translate, `*executed` as in
   bodlixo_run. Row r of the sheet is file[2 * r], low, and file[2 * r + 1]. No pair of a sheet moves a lane to an end:
   `*mark` comes out as it came in, as 0 or 1, whatever the answer. */
uint32_t bodlixo_evaluate(const uint8_t *sheet, size_t len, uint16_t filled, uint16_t *out, size_t out_len,
                          uint64_t *file, size_t file_len, uint64_t budget, uint8_t *mark, uint64_t *executed,
                          uint64_t *at);

/* Lists the pairs of `len` bytes in `out`, with the totals as the last line, and puts the listing's size in bytes in
   *size. An out that is shorter than the listing is left untouched, and the answer is 14 with *size 0; 901190 bytes are
   always enough. Bytes that are no listing's are listed as the one line that refuses them, and the answer is 0. */
uint32_t bodlixo_list(const uint8_t *input, size_t len, uint8_t *out, size_t out_len, uint64_t *size);

#endif
