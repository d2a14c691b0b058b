/* Runs of programs through the C boundary, held against what an ARM emulator left after each pair, for tools/runs.
   Input: for each program a struct program, then the states after none of its pairs, the first, the first two and so on
   to those that it reaches. Output: what was compared. Exit status: 0 no disagreement, 1 a disagreement, 2 bad input.
*/
#include <inttypes.h>
#include <stdbool.h>
#include <stdint.h>
#include <stdio.h>
#include <string.h>
#include "bodlixo.h"

enum { LONGEST = 12, DONE = 0, WRONG_CALL = 11, BUDGET_USED_UP = 15, ANSWERS = 16, TOLD = 10 };

/* What stands around all that a call may write, and in a count that it has to set. */
enum { GUARD = 0xa5 };

/* A run with budget enough answers `answer` after `reach` pairs. */
struct program {
    uint32_t pairs, start, answer, reach, mark, unused;
    uint64_t file[32];
    uint16_t code[2 * LONGEST];
};

/* The registers and the mark. */
struct state {
    uint64_t file[32];
    uint64_t mark;
};

_Static_assert(sizeof(struct program) == 328 && sizeof(struct state) == 264, "as tools/runs packs them");

/* How a run ended. */
struct ending {
    uint32_t answer;
    uint64_t executed;
    struct state left;
};

/* What is handed in besides the program: halfwords, start, words of the file, budget. */
struct call {
    uint64_t len, start, words, budget;
};

static uint64_t number, runs, by_answer[ANSWERS], turned, gone_on, disagreements;

static void tell(const char *whose, struct ending e) {
    printf("    %s %" PRIu32 " after %" PRIu64 ", mark %" PRIu64 "\n", whose, e.answer, e.executed, e.left.mark);
}

/* Counts a disagreement, and tells the first ones. */
static void disagree(const char *what, struct call c, struct ending ours, struct ending due) {
    if (disagreements++ >= TOLD) {
        return;
    }
    printf("  program %" PRIu64 ", %s: %" PRIu64 " halfwords from %" PRIu64 ", %" PRIu64 " words, budget %" PRIu64 "\n",
           number, what, c.len, c.start, c.words, c.budget);
    tell("ours", ours);
    tell("due ", due);
    for (int k = 0; k < 32; k++) {
        if (ours.left.file[k] != due.left.file[k]) {
            printf("    d%d ours %016" PRIx64 ", due %016" PRIx64 "\n", k, ours.left.file[k], due.left.file[k]);
        }
    }
}

static void expect(const char *what, struct call c, struct ending ours, struct ending due) {
    if (ours.answer != due.answer || ours.executed != due.executed ||
        memcmp(&ours.left, &due.left, sizeof ours.left) != 0) {
        disagree(what, c, ours, due);
    }
}

static bool all_guards(const void *bytes, size_t count) {
    const uint8_t *byte = bytes;
    while (count > 0 && *byte == GUARD) {
        byte++, count--;
    }
    return count == 0;
}

/* Makes a call; nothing may be written but the file, the mark and the count, and of a file only its words. */
static struct ending run(const struct program *p, struct call c, struct state from) {
    struct {
        uint16_t before[4], code[2 * LONGEST + 4];
    } code;
    struct {
        uint64_t before[4], file[36];
    } file;
    struct {
        uint8_t before[8], mark, after[7];
    } mark;
    struct {
        uint64_t before[2], executed, after[2];
    } count;
    struct ending ending;
    memset(&code, GUARD, sizeof code);
    memset(&file, GUARD, sizeof file);
    memset(&mark, GUARD, sizeof mark);
    memset(&count, GUARD, sizeof count);
    memcpy(code.code, p->code, sizeof p->code);
    memcpy(file.file, from.file, sizeof from.file);
    mark.mark = (uint8_t)from.mark;
    ending.answer =
        bodlixo_run(code.code, c.len, c.start, file.file, c.words, c.budget, &mark.mark, &count.executed);
    ending.executed = count.executed;
    memcpy(ending.left.file, file.file, sizeof from.file);
    ending.left.mark = mark.mark;
    if (!all_guards(code.before, sizeof code.before) || memcmp(code.code, p->code, sizeof p->code) != 0 ||
        !all_guards(code.code + 2 * LONGEST, 8) || !all_guards(file.before, sizeof file.before) ||
        !all_guards(file.file + 32, 32) || !all_guards(mark.before, sizeof mark.before) ||
        !all_guards(mark.after, sizeof mark.after) || !all_guards(count.before, sizeof count.before) ||
        !all_guards(count.after, sizeof count.after)) {
        disagree("a stray write", c, ending, ending);
    }
    runs++;
    by_answer[ending.answer % ANSWERS]++;
    turned += from.mark == 0 && ending.left.mark == 1;
    return ending;
}

/* The call that hands in the program as it is. */
static struct call call_of(const struct program *p, uint64_t start, uint64_t budget) {
    return (struct call){2 * (uint64_t)p->pairs, start, 32, budget};
}

/* The state at the start. */
static struct state first_of(const struct program *p) {
    struct state from;
    memcpy(from.file, p->file, sizeof from.file);
    from.mark = p->mark;
    return from;
}

/* How a run with a budget has to end. */
static struct ending due(const struct program *p, const struct state *states, uint64_t budget) {
    bool cut = budget < p->reach || (budget == p->reach && p->answer != DONE);
    uint64_t executed = cut ? budget : p->reach;
    return (struct ending){cut ? BUDGET_USED_UP : p->answer, executed, states[executed]};
}

/* The program run from its start with a budget. */
static struct ending compared(const char *what, const struct program *p, const struct state *states, uint64_t budget) {
    struct call c = call_of(p, p->start, budget);
    struct ending ours = run(p, c, first_of(p));
    expect(what, c, ours, due(p, states, budget));
    return ours;
}

/* A run that was done or gave 15, gone on with and held against one run with both budgets added. */
static void go_on(const struct program *p, const struct state *states, struct ending first, uint64_t budget,
                  uint64_t rest) {
    struct call c = call_of(p, p->start + first.executed, rest);
    struct ending second = run(p, c, first.left);
    second.executed += first.executed;
    expect("gone on with", c, second, compared("whole, both budgets", p, states, budget + rest));
    gone_on++;
}

/* Runs with every budget up to one more than is needed, and some large ones; each that was done or gave 15 is gone on
   with by every budget up to one more than is needed, and by the largest whose sum with the first can be passed. */
static void cuts(const struct program *p, const struct state *states) {
    const uint64_t large[] = {p->reach + 2, p->reach + 100, UINT64_C(1) << 32, UINT64_C(1) << 63, UINT64_MAX - 1,
                              UINT64_MAX};
    for (uint64_t k = 0; k < p->reach + 2 + sizeof large / sizeof *large; k++) {
        uint64_t budget = k < p->reach + 2 ? k : large[k - p->reach - 2];
        struct ending first = compared("whole or cut", p, states, budget);
        if (first.answer != DONE && first.answer != BUDGET_USED_UP) {
            continue;
        }
        uint64_t most = UINT64_MAX - budget, needed = p->reach - due(p, states, budget).executed + 1;
        for (uint64_t rest = 0; rest <= needed && rest <= most; rest++) {
            go_on(p, states, first, budget, rest);
        }
        if (needed < most) {
            go_on(p, states, first, budget, most);
        }
    }
}

/* Pair by pair to the end. */
static void pair_by_pair(const struct program *p, const struct state *states) {
    struct ending all = {BUDGET_USED_UP, 0, first_of(p)};
    struct call c = call_of(p, p->start, 1);
    for (int k = 0; k <= LONGEST && all.answer == BUDGET_USED_UP; k++) {
        c.start = p->start + all.executed;
        struct ending one = run(p, c, all.left);
        one.executed += all.executed;
        all = one;
    }
    expect("pair by pair", c, all, due(p, states, UINT64_MAX));
}

/* From the place where a whole run ended nothing more is executed. */
static void ended(const struct program *p, const struct state *states) {
    const uint64_t budgets[] = {0, 1, LONGEST, UINT64_MAX};
    for (int k = 0; k < 4; k++) {
        struct call c = call_of(p, p->start + p->reach, budgets[k]);
        bool cut = p->answer != DONE && budgets[k] == 0;
        struct ending end = {cut ? BUDGET_USED_UP : p->answer, 0, states[p->reach]};
        expect("from the end", c, run(p, c, states[p->reach]), end);
    }
}

/* Every byte but 0 is yes, 1 comes back, and the file does not hang on the mark. */
static void other_marks(const struct program *p, const struct state *states) {
    const uint8_t yes[] = {1, 2, 3, 64, 127, 128, 254, 255};
    for (int k = 0; k < 8; k++) {
        for (uint64_t budget = 0; budget <= p->reach + 1; budget++) {
            struct call c = call_of(p, p->start, budget);
            struct state from = first_of(p);
            struct ending end = due(p, states, budget);
            from.mark = yes[k];
            end.left.mark = 1;
            expect("another mark", c, run(p, c, from), end);
        }
    }
}

/* A call that gets 11, with several marks. */
static void refused(const struct program *p, struct call c) {
    const uint8_t marks[] = {0, 1, 2, 128, 255};
    for (int k = 0; k < 5; k++) {
        struct state from = first_of(p);
        from.mark = marks[k];
        struct ending ours = run(p, c, from);
        from.mark = marks[k] != 0;
        expect("a wrong call", c, ours, (struct ending){WRONG_CALL, 0, from});
    }
}

/* Odd counts of halfwords, files that are not of 32 and starts past the end. */
static void wrong_calls(const struct program *p) {
    const uint64_t budgets[] = {0, 1, UINT64_MAX}, words[] = {0, 1, 31, 33};
    const uint64_t starts[] = {p->pairs + 1, 2 * p->pairs + 1, UINT64_C(1) << 63, UINT64_MAX};
    struct call right = call_of(p, p->start, budgets[number % 3]), c = right;
    c.len = right.len + 1;
    refused(p, c);
    if (right.len > 0) {
        c.len = right.len - 1;
        refused(p, c);
    }
    for (int k = 0; k < 4; k++) {
        c = right;
        c.words = words[k];
        refused(p, c);
        c = right;
        c.start = starts[k];
        refused(p, c);
    }
}

static void print(void) {
    printf("programs %" PRIu64 "\nruns compared %" PRIu64 ", answers", number, runs);
    for (int k = 0; k < ANSWERS; k++) {
        if (by_answer[k] > 0) {
            printf(" %d: %" PRIu64, k, by_answer[k]);
        }
    }
    printf("\ngone on with %" PRIu64 "\nruns where the mark turned %" PRIu64 "\n%" PRIu64 " disagreements\n", gone_on,
           turned, disagreements);
}

int main(void) {
    struct program p;
    struct state states[LONGEST + 1];
    while (fread(&p, sizeof p, 1, stdin) == 1) {
        if (p.pairs > LONGEST || p.start > p.pairs || p.reach > p.pairs - p.start ||
            fread(states, sizeof *states, p.reach + 1, stdin) != p.reach + 1) {
            fprintf(stderr, "driver: program %" PRIu64 " cannot be read\n", number);
            return 2;
        }
        cuts(&p, states);
        pair_by_pair(&p, states);
        ended(&p, states);
        other_marks(&p, states);
        wrong_calls(&p);
        number++;
    }
    print();
    return disagreements == 0 ? 0 : 1;
}
