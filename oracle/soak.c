/* Plays a stream of `oracle runs` (oracle/README.md, Streams) through the C API, and before each of its calls hostile ones on copies.
 *     soak SEED [guard] < STREAM      SEED is that of the hostile calls
 * Every buffer is lent with exactly its length: in a block of malloc, which valgrind watches, or with `guard` beside a page that nobody may touch.
 * The exit is 0 where all is held, else 1 after a line with the run, the call and what differs. */
#define _DEFAULT_SOURCE
#include "../lefasumu.h"

#include <signal.h>
#include <stdarg.h>
#include <stdbool.h>
#include <stdio.h>
#include <stdlib.h>
#include <string.h>
#include <sys/mman.h>
#include <unistd.h>
#include <valgrind/memcheck.h>

/* Numbers of the memory and of its head (layout, cued, slots, turn, configured), the turn's place in it, the longest line that is read, the most that a record may ask for, and bytes of a room: whole pages of any usual size. */
enum { MEMORY = 2429, HEAD = 5, TURN = 3, DIGITS = 864, LINE = 2048, INPUT = 5632, SIDE = 4352, ROW = 128, NUMBER = sizeof(double), ROOM = 65536 };
enum part { OF_MEMORY, OF_LINE, OF_INPUT, OF_LEFT, OF_RIGHT, PARTS };
static const char *const names[PARTS] = {"memory", "line", "input", "left", "right"};

/* The head of a record as it lies in the stream: every processor that the archive is made for has the lowest byte first. */
struct head {
    uint8_t kind, answer;
    uint16_t width;
    uint32_t state;
    uint64_t number;
    double step;
    uint32_t reach, given, line, input, left, right;
    /* Where the line is refused, and how many frames in a row were held: nothing is compared with them yet. */
    uint32_t place, held;
};

struct record {
    struct head head;
    uint8_t line[LINE], given[INPUT][12];
    double input[INPUT], left[SIDE], right[SIDE];
};

/* What a frame is lent beside a record's input and outputs. Of the input, numbers from `readable` on must not be looked at. */
struct call {
    const void *memory, *line;
    size_t memory_count, line_count, readable;
};

/* A buffer while it is lent, and what it held before. */
struct lent {
    unsigned char *at;
    const unsigned char *before;
    size_t bytes;
};

struct soak {
    bool guard;
    uint32_t random;
    size_t slots;
    unsigned char *rooms[PARTS], pattern[ROOM];
    struct lent lent[PARTS];
    double memory[MEMORY + 1];
    unsigned long runs, calls, accepted, refused, quiet, hostile, hostile_done;
};

/* The call that is being played; in one place for all, so that the handler of a forbidden access can say it too. */
static char playing[128] = "soak: before the first run";

static void name_call(const struct soak *s, const char *what) {
    snprintf(playing, sizeof playing, "soak: run %lu call %lu%s", s->runs - 1, s->calls, what);
}

static void fail(const char *format, ...) {
    va_list words;
    va_start(words, format);
    printf("%s: ", playing);
    vprintf(format, words);
    printf("\n");
    va_end(words);
    exit(1);
}

static void wanted(uint32_t answer, uint32_t other) {
    if (answer != other)
        fail("answer %u, wanted %u", (unsigned)answer, (unsigned)other);
}

static void forbidden(int number) {
    static const char said[] = ": touched a page outside of every lent buffer\n";
    bool told = write(STDOUT_FILENO, playing, strlen(playing)) > 0 && write(STDOUT_FILENO, said, sizeof said - 1) > 0;
    _exit(told ? 1 : number);
}

/* Chance, as oracle/src/random.rs makes it. */
static uint32_t turn(uint32_t *state) {
    return *state = (uint32_t)((uint64_t)*state * 1664525 + 1013904223);
}

static size_t below(struct soak *s, size_t count) {
    return (turn(&s->random) >> 16) % count;
}

/* In guard mode each buffer has a room of its own, between two pages that nobody may touch. */
static void prepare(struct soak *s, bool guard) {
    size_t page = (size_t)sysconf(_SC_PAGESIZE);
    s->guard = guard;
    /* As a number it is larger than any that a frame writes, so that what stays unwritten shows. */
    memset(s->pattern, 0x7e, ROOM);
    for (int i = 0; guard && i < PARTS; i++) {
        unsigned char *all = mmap(NULL, ROOM + 2 * page, PROT_NONE, MAP_PRIVATE | MAP_ANONYMOUS, -1, 0);
        if (all == MAP_FAILED || mprotect(all + page, ROOM, PROT_READ | PROT_WRITE) != 0)
            fail("no pages");
        s->rooms[i] = all + page;
    }
    if (guard && (signal(SIGSEGV, forbidden) == SIG_ERR || signal(SIGBUS, forbidden) == SIG_ERR))
        fail("no handler");
}

/* Chance says at which end of its room the buffer is. Without guard an empty one is nowhere, and one with nothing before is as malloc gives it. */
static void *lend(struct soak *s, enum part part, const void *before, size_t bytes) {
    unsigned char *at = NULL;
    bool at_front = below(s, 2) == 0;
    if (s->guard) {
        memcpy(s->rooms[part], s->pattern, ROOM);
        at = s->rooms[part] + (at_front ? 0 : ROOM - bytes);
    } else if (bytes > 0) {
        at = malloc(bytes);
    }
    if (at == NULL && bytes > 0)
        fail("no memory");
    if (before != NULL && bytes > 0)
        memcpy(at, before, bytes);
    s->lent[part] = (struct lent){at, before, bytes};
    return at;
}

/* A forbidden page is at one end of the buffer only; from the other end on the room still has the pattern. */
static void take_back(struct soak *s, enum part part) {
    const struct lent *lent = &s->lent[part];
    if (!s->guard)
        free(lent->at);
    else if (memcmp(s->rooms[part] + (lent->at == s->rooms[part] ? lent->bytes : 0), s->pattern, ROOM - lent->bytes) != 0)
        fail("wrote outside of %s", names[part]);
}

static void take_all_back(struct soak *s) {
    for (int i = 0; i < PARTS; i++)
        take_back(s, i);
}

static void unchanged(const struct soak *s, enum part part) {
    const struct lent *lent = &s->lent[part];
    size_t i = 0;
    if (lent->bytes == 0 || memcmp(lent->at, lent->before, lent->bytes) == 0)
        return;
    while (lent->at[i] == lent->before[i])
        i++;
    fail("byte %zu of %s was changed", i, names[part]);
}

static void hold_side(const struct soak *s, enum part part, const double *side) {
    uint64_t bits, other;
    for (size_t i = 0; i < s->lent[part].bytes / NUMBER; i++) {
        memcpy(&bits, s->lent[part].at + i * NUMBER, NUMBER);
        memcpy(&other, side + i, NUMBER);
        if (bits != other)
            fail("%s slot %zu band %zu %s %016llx, wanted %016llx", names[part], i / ROW, i % ROW / 2, i % 2 == 0 ? "re" : "im",
                 (unsigned long long)bits, (unsigned long long)other);
    }
}

/* For valgrind: what an output holds says nothing to the call, and the input from `readable` on is closed. */
static void mark(const struct soak *s, size_t readable) {
    const struct lent *left = &s->lent[OF_LEFT], *right = &s->lent[OF_RIGHT], *input = &s->lent[OF_INPUT];
    VALGRIND_MAKE_MEM_UNDEFINED(left->at, left->bytes);
    VALGRIND_MAKE_MEM_UNDEFINED(right->at, right->bytes);
    if (readable * NUMBER < input->bytes)
        VALGRIND_MAKE_MEM_NOACCESS(input->at + readable * NUMBER, input->bytes - readable * NUMBER);
}

/* For valgrind: every number of the buffer comes from what the call was given, and nothing else was found. */
static void hold_defined(const struct lent *lent) {
    VALGRIND_CHECK_MEM_IS_DEFINED(lent->at, lent->bytes);
    if (VALGRIND_COUNT_ERRORS > 0)
        fail("valgrind found what it says above");
}

/* What stays closed or undefined would hinder the comparison; after a frame that is done, memory and outputs have to be defined by themselves. */
static void unmark(const struct soak *s, bool done) {
    for (int i = 0; i < PARTS; i++) {
        if (!done || i == OF_INPUT)
            VALGRIND_MAKE_MEM_DEFINED(s->lent[i].at, s->lent[i].bytes);
        hold_defined(&s->lent[i]);
    }
}

/* A start, in memory that stays lent until it is taken back. */
static uint32_t start(struct soak *s, const double *before, size_t count, size_t asked) {
    uint32_t answer = lefasumu_start(lend(s, OF_MEMORY, before, count * NUMBER), count, asked);
    hold_defined(&s->lent[OF_MEMORY]);
    return answer;
}

/* A frame on copies, which stay lent until they are taken back. */
static uint32_t play(struct soak *s, const struct record *r, struct call c) {
    const struct head *h = &r->head;
    double *memory = lend(s, OF_MEMORY, c.memory, c.memory_count * NUMBER);
    uint8_t *line = lend(s, OF_LINE, c.line, c.line_count);
    double *input = lend(s, OF_INPUT, r->input, h->input * NUMBER);
    double *left = lend(s, OF_LEFT, s->pattern, h->left * NUMBER), *right = lend(s, OF_RIGHT, s->pattern, h->right * NUMBER);
    mark(s, c.readable);
    uint32_t answer = lefasumu_frame(memory, c.memory_count, line, c.line_count, input, h->input, h->number, left, h->left, right, h->right);
    unmark(s, answer == LEFASUMU_DONE);
    for (int i = 0; i < PARTS; i++)
        if (answer != LEFASUMU_DONE || i == OF_LINE || i == OF_INPUT)
            unchanged(s, i);
    return answer;
}

/* A frame of which nothing stays. */
static uint32_t play_hostile(struct soak *s, const struct record *r, struct call c) {
    uint32_t answer = play(s, r, c);
    take_all_back(s);
    s->hostile++;
    s->hostile_done += answer == LEFASUMU_DONE;
    if (answer > LEFASUMU_SAMPLE)
        fail("answer %u", (unsigned)answer);
    return answer;
}

/* Memory of another length, to a start and to a frame. */
static void other_length(struct soak *s, const struct record *r, size_t count) {
    struct call c = {s->memory, r->line, count, r->head.line, INPUT};
    name_call(s, ", start with memory of another length");
    wanted(start(s, s->memory, count, s->slots), LEFASUMU_BUFFERS);
    unchanged(s, OF_MEMORY);
    take_back(s, OF_MEMORY);
    s->hostile++;
    name_call(s, ", memory of another length");
    wanted(play_hostile(s, r, c), LEFASUMU_BUFFERS);
}

/* Bits of every sort: not a number, infinite, subnormal, as large as can be, the run's own, any. */
static uint64_t hostile_bits(struct soak *s, uint64_t own) {
    const uint64_t sign = UINT64_C(1) << 63, high = UINT64_C(0x7ff) << 52, low = turn(&s->random), any = (uint64_t)turn(&s->random) << 32 | low;
    const uint64_t sorts[] = {any | high, (any & sign) | high, any & ~high, (any & sign) | (high - 1), own, any};
    return sorts[below(s, 6)];
}

/* Memory that no call has left. With the run's own head but for the turn it has the run's slots, and the frame is played over such numbers. */
static void hostile_memory(struct soak *s, const struct record *r) {
    uint64_t memory[MEMORY];
    size_t kept = below(s, 2) * HEAD;
    memcpy(memory, s->memory, sizeof memory);
    for (size_t i = 0; i < MEMORY; i++)
        if (i >= kept || i == TURN)
            memory[i] = hostile_bits(s, memory[i]);
    name_call(s, kept > 0 ? ", hostile memory after the head" : ", hostile memory");
    uint32_t streamed = r->head.answer, answer = play_hostile(s, r, (struct call){memory, r->line, MEMORY, r->head.line, INPUT});
    /* Answers 2 to 4 are the line's alone, and the others look at nothing of the memory but its head. */
    if (kept > 0 || (answer >= 2 && answer <= 4) || (streamed >= 2 && streamed <= 4))
        wanted(answer, streamed);
}

/* Any bytes, any digits, or the record's line with another digit somewhere. */
static void hostile_line(struct soak *s, const struct record *r) {
    static const char digits[] = "0123456789abcdef";
    uint8_t line[LINE];
    size_t sort = below(s, 3), most = below(s, 2) == 0 ? LINE : 64, count = sort == 2 ? r->head.line : below(s, most);
    memcpy(line, r->line, count);
    for (size_t i = 0; sort < 2 && i < count; i++)
        line[i] = (uint8_t)(sort == 0 ? below(s, 256) : (size_t)digits[below(s, 16)]);
    uint8_t digit = (uint8_t)digits[below(s, 16)];
    if (sort == 2 && count > 0)
        line[below(s, count)] = digit;
    name_call(s, ", hostile line");
    uint32_t answer = play_hostile(s, r, (struct call){s->memory, line, MEMORY, count, INPUT});
    if (count > DIGITS)
        wanted(answer, LEFASUMU_LENGTH);
}

static void play_streamed(struct soak *s, const struct record *r) {
    bool done = r->head.answer == LEFASUMU_DONE, quiet = r->head.answer == LEFASUMU_QUIET;
    name_call(s, "");
    wanted(play(s, r, (struct call){s->memory, r->line, MEMORY, r->head.line, quiet ? 0 : (s->slots + 6) * ROW}), r->head.answer);
    if (done) {
        hold_side(s, OF_LEFT, r->left);
        hold_side(s, OF_RIGHT, r->right);
        memcpy(s->memory, s->lent[OF_MEMORY].at, MEMORY * NUMBER);
    }
    take_all_back(s);
    s->calls++;
    *(done ? &s->accepted : quiet ? &s->quiet : &s->refused) += 1;
}

/* The hostile calls come first: if one leaves anything behind, the stream's own call shows it. */
static void play_record(struct soak *s, const struct record *r) {
    other_length(s, r, MEMORY - 1);
    other_length(s, r, MEMORY + 1);
    hostile_line(s, r);
    if ((s->runs + s->calls) % 8 == 0) {
        other_length(s, r, 0);
        hostile_memory(s, r);
    }
    play_streamed(s, r);
}

/* A fresh decoder, in memory that nobody has written to. */
static void start_run(struct soak *s, size_t asked) {
    s->slots = asked < 6 ? 6 : asked > 32 ? 32 : asked;
    s->runs++;
    s->calls = 0;
    name_call(s, ", start");
    wanted(start(s, NULL, MEMORY, asked), LEFASUMU_DONE);
    memcpy(s->memory, s->lent[OF_MEMORY].at, MEMORY * NUMBER);
    take_back(s, OF_MEMORY);
}

static void take_in(void *to, size_t bytes) {
    if (fread(to, 1, bytes, stdin) != bytes)
        fail("the stream breaks off");
}

/* Noise, then the given samples in their places. */
static void make_input(struct record *r) {
    uint32_t place, state = r->head.state;
    for (size_t i = 0; i < r->head.input; i++)
        r->input[i] = i < r->head.reach && i % ROW < r->head.width ? ((double)turn(&state) - 2147483648.0) * r->head.step : 0.0;
    for (size_t i = 0; i < r->head.given; i++) {
        memcpy(&place, r->given[i], sizeof place);
        if (place >= r->head.input)
            fail("a sample that cannot be");
        memcpy(&r->input[place], r->given[i] + sizeof place, NUMBER);
    }
}

/* A call of the stream, with what stands behind its head. */
static void take_in_call(struct record *r) {
    const struct head *h = &r->head;
    if (h->kind != 2 || h->line > LINE || h->given > INPUT || h->input > INPUT || h->left > SIDE || h->right > SIDE)
        fail("a record that cannot be");
    take_in(r->line, h->line);
    take_in(r->given, h->given * sizeof r->given[0]);
    make_input(r);
    take_in(r->left, h->answer == LEFASUMU_DONE ? h->left * NUMBER : 0);
    take_in(r->right, h->answer == LEFASUMU_DONE ? h->right * NUMBER : 0);
}

int main(int count, char **words) {
    static struct soak s;
    static struct record r;
    if (count < 2 || count > 3 || (count == 3 && strcmp(words[2], "guard") != 0)) {
        fprintf(stderr, "usage: soak SEED [guard] < STREAM\n");
        return 2;
    }
    s.random = (uint32_t)strtoul(words[1], NULL, 10);
    prepare(&s, count == 3);
    wanted((uint32_t)lefasumu_memory(), MEMORY);
    for (take_in(&r.head, sizeof r.head); r.head.kind != 0; take_in(&r.head, sizeof r.head)) {
        if (r.head.kind == 1) {
            start_run(&s, r.head.number);
        } else {
            take_in_call(&r);
            play_record(&s, &r);
        }
    }
    printf("soak: %lu runs held: %lu frames accepted, %lu refused, %lu quiet; %lu hostile calls, %lu of them done\n", s.runs, s.accepted, s.refused,
           s.quiet, s.hostile, s.hostile_done);
    return 0;
}
