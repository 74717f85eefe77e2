/*
 * Calls every exported function of the library, first on arguments whose answers are written down here, then on words, records and
 * profiles that are the same in every run. The exit status is 3 where an answer is not the one written down. All other answers go to
 * standard output: ROUNDS blocks of BLOCK bytes. tools/riscv runs it on several machines and compares what they wrote.
 *
 * It needs no C library, so that it can be built for a machine that has none here.
 */
#include "matnosoru.h"
/* the function `list` in the comment at the top of matnosoru.h */
#include "example.h"

enum { ROUNDS = 300000, BLOCK = 360, ROOM = 64 };

#if defined(__x86_64__)
enum { WRITE = 1, EXIT = 60 };
static long call(long number, long a, long b, long c) {
    long result;
    __asm__ volatile("syscall" : "=a"(result) : "a"(number), "D"(a), "S"(b), "d"(c) : "rcx", "r11", "memory");
    return result;
}
__asm__(".globl _start\n_start: xor %ebp, %ebp\n and $-16, %rsp\n call begin\n");
#elif defined(__aarch64__)
enum { WRITE = 64, EXIT = 93 };
static long call(long number, long a, long b, long c) {
    register long x8 __asm__("x8") = number, x0 __asm__("x0") = a, x1 __asm__("x1") = b, x2 __asm__("x2") = c;
    __asm__ volatile("svc 0" : "+r"(x0) : "r"(x8), "r"(x1), "r"(x2) : "memory");
    return x0;
}
__asm__(".globl _start\n_start: bl begin\n");
#elif defined(__riscv)
enum { WRITE = 64, EXIT = 93 };
static long call(long number, long a, long b, long c) {
    register long a7 __asm__("a7") = number, a0 __asm__("a0") = a, a1 __asm__("a1") = b, a2 __asm__("a2") = c;
    __asm__ volatile("ecall" : "+r"(a0) : "r"(a7), "r"(a1), "r"(a2) : "memory");
    return a0;
}
__asm__(".globl _start\n_start: call begin\n");
#endif

/* What the library may ask of a machine. */
void *memcpy(void *to, const void *from, size_t n) {
    for (size_t i = 0; i < n; i++) ((volatile uint8_t *)to)[i] = ((const uint8_t *)from)[i];
    return to;
}
void *memmove(void *to, const void *from, size_t n) {
    if ((uint8_t *)to <= (const uint8_t *)from) return memcpy(to, from, n);
    while (n--) ((volatile uint8_t *)to)[n] = ((const uint8_t *)from)[n];
    return to;
}
void *memset(void *to, int byte, size_t n) {
    for (size_t i = 0; i < n; i++) ((volatile uint8_t *)to)[i] = (uint8_t)byte;
    return to;
}
int memcmp(const void *a, const void *b, size_t n) {
    for (size_t i = 0; i < n; i++)
        if (((const uint8_t *)a)[i] != ((const uint8_t *)b)[i]) return ((const uint8_t *)a)[i] - ((const uint8_t *)b)[i];
    return 0;
}
int bcmp(const void *a, const void *b, size_t n) { return memcmp(a, b, n); }

static uint64_t state = 1;
static uint64_t next(void) {
    uint64_t x = state += 0x9E3779B97F4A7C15;
    x = (x ^ x >> 30) * 0xBF58476D1CE4E5B9;
    x = (x ^ x >> 27) * 0x94D049BB133111EB;
    return x ^ x >> 31;
}

static uint8_t out[BLOCK * 128];
static size_t at;

static void put(uint64_t answer) {
    for (int k = 0; k < 8; k++) out[at++] = (uint8_t)(answer >> 8 * k);
}
static void put_bytes(const uint8_t *bytes, size_t n) {
    for (size_t k = 0; k < n; k++) out[at++] = bytes[k];
}
static void flush(void) {
    for (size_t done = 0; done < at;) {
        long n = call(WRITE, 1, (long)(out + done), (long)(at - done));
        if (n <= 0) call(EXIT, 1, 0, 0);
        done += (size_t)n;
    }
    at = 0;
}

/* ---------------------------------------------- answers that are written down ---------------------------------------------- */

static void hex(uint8_t *to, uint64_t value) {
    for (int k = 0; k < 16; k++) to[k] = (uint8_t)"0123456789ABCDEF"[value >> (60 - 4 * k) & 15];
}

/* Stops where an answer is not the wanted one, and says in which line of this file. */
static void hold(unsigned line, uint64_t answer, uint64_t wanted) {
    uint8_t text[] = "riscv.c, line 0000: answer ................, wanted ................\n";
    if (answer == wanted) return;
    for (int k = 18; k > 14; k--, line /= 10) text[k - 1] = (uint8_t)('0' + line % 10);
    hex(text + 27, answer);
    hex(text + 52, wanted);
    call(WRITE, 2, (long)text, sizeof text - 1);
    call(EXIT, 3, 0, 0);
}
#define HOLD(answer, wanted) hold(__LINE__, answer, wanted)
#define REFUSED(number) ((uint64_t)(number) << 32)

/* Document 01's words at the edges and its further ones, then words with low two bits 10, then words whose CSR is refused, under the
 * empty profile: the reading, the word, and the instruction word. */
static const struct {
    uint64_t reading, raw, answer;
} WORDS[] = {
    {0, 0xF14022F3, 0x00050F140205}, /* set, mhartid, rd 5, rs1 0 */
    {0, 0xF1401073, 0x61020009},     /* 2 a: read-only written */
    {0, 0xF140A2F3, 0x61020009},
    {0, 0x3A031073, 0x060003A00105}, /* write, pmpcfg 0, rs1 6 */
    {0, 0x3A131073, 0x63020009},     /* 2 c: no such CSR */
    {0, 0x3F031073, 0x63020009},
    {0, 0x3EF31073, 0x060003EF0105}, /* write, pmpaddr 63 */
    {0, 0x12B50073, 0x0B0A0004},     /* sfence.vma 10, 11 */
    {0, 0x12B500F3, 0x010009},
    {0, 0x110500073, 0x010009},
    {0, 0x1F14022F3, 0x00050F140205},
    {1, 0x80052283, 0xF8000A05000407}, /* load 32, rd 5, base 10, -2048 */
    {1, 0x80057283, 0x040109},
    {2, 0xFEB13C23, 0xFFF80B02000808}, /* store 64, rs2 11, base 2, -8 */
    {1, 0x5FFC, 0x007C0F0F010407},     /* load 32, rd 15, base 15, 124 */
    {1, 0x7D64, 0x00F80A09010807},     /* load 64, rd 9, base 10, 248 */
    {1, 0x2000, 0x030109},
    {1, 0, 0x030109},
    {1, 0x4502, 0x0000020A010407}, /* c.lwsp x10,0(x2) */
    {1, 0x50FE, 0x00FC0201010407}, /* c.lwsp x1,252(x2) */
    {1, 0x6502, 0x0000020A010807}, /* c.ldsp x10,0(x2) */
    {1, 0x7FFE, 0x01F8021F010807}, /* c.ldsp x31,504(x2) */
    {2, 0xC502, 0x00880002010408}, /* c.swsp x0,136(x2) */
    {2, 0xDFFE, 0x00FC1F02010408}, /* c.swsp x31,252(x2) */
    {2, 0xE002, 0x00000002010808}, /* c.sdsp x0,0(x2) */
    {2, 0xFFFE, 0x01F81F02010808}, /* c.sdsp x31,504(x2) */
    {1, 0x4002, 0x050109},         /* 5: a load with rd 0, the other reading's form, c.ebreak */
    {1, 0x6002, 0x050109},
    {1, 0xC502, 0x050109},
    {2, 0x4502, 0x050209},
    {1, 0x9002, 0x050109},
    {2, 0x9002, 0x050209},
    {0, 0xFFF09073, 0x61020009}, /* 2 a, also where there is no CSR: csrrw x0,0xFFF,x1 and csrrw x0,0xC03,x1 */
    {0, 0xC0309073, 0x61020009},
    {0, 0xFFF020F3, 0x63020009}, /* 2 c: csrrs x1,0xFFF,x0; tdata1; the same with a bit above 31 */
    {0, 0x7A1020F3, 0x63020009},
    {0, 0x17A1020F3, 0x63020009},
    {0, 0x7C0020F3, 0x62020009}, /* 2 b: the first custom CSR, the last one, seed */
    {0, 0x7FF020F3, 0x62020009},
    {0, 0x015090F3, 0x62020009},
};

static uint64_t reading(uint64_t which, uint64_t flags, uint64_t custom, uint64_t raw) {
    if (which == 0) return matnosoru_read_system(flags, custom, raw);
    return which == 1 ? matnosoru_read_load(flags, custom, raw) : matnosoru_read_store(flags, custom, raw);
}

static void hold_words(void) {
    for (size_t k = 0; k < sizeof WORDS / sizeof WORDS[0]; k++) {
        uint64_t answer = reading(WORDS[k].reading, 0, 0, WORDS[k].raw);
        HOLD(answer, WORDS[k].answer);
        HOLD(MATNOSORU_READ_REFUSAL(answer), (answer & 0xFF) == 9 ? answer >> 16 & 0xFF : 0);
        HOLD(MATNOSORU_REASON(answer), (answer & 0xFF) == 9 ? answer >> 24 : 0);
        if (MATNOSORU_KIND(answer) != 9) HOLD(matnosoru_write(0, 0, answer), WORDS[k].raw & 0xFFFFFFFF);
    }
}

/* The look-up of an address, and the reason in the reading of csrrs x1,address,x0. */
static void hold_lookup(uint64_t flags, uint64_t custom, uint64_t address, uint64_t lookup, uint64_t reason) {
    uint64_t answer = matnosoru_read_system(flags, custom, address << 20 | 0x20F3);
    HOLD(matnosoru_csr_lookup(flags, custom, address), lookup);
    HOLD(MATNOSORU_REASON(answer), reason);
    HOLD(MATNOSORU_READ_REFUSAL(answer), reason ? MATNOSORU_INVALID_CSR_OP : 0);
}

static void hold_lookups(void) {
    uint64_t all = ~(uint64_t)0;
    hold_lookup(0, 0, 0x300, MATNOSORU_AVAILABLE, 0);
    hold_lookup(0, 0, 0xC00, MATNOSORU_GATE_OFF, MATNOSORU_REASON_GATE_OFF);
    hold_lookup(1, 0, 0xC00, MATNOSORU_AVAILABLE, 0);
    hold_lookup(0xFF, 0, 0x7C0, MATNOSORU_GATE_OFF, MATNOSORU_REASON_GATE_OFF);
    hold_lookup(0, 1, 0x7C0, MATNOSORU_AVAILABLE, 0);
    hold_lookup(0xFF, all >> 1, 0x7FF, MATNOSORU_GATE_OFF, MATNOSORU_REASON_GATE_OFF);
    hold_lookup(0xFF, all, 0x000, MATNOSORU_NO_SUCH, MATNOSORU_REASON_NO_SUCH);
    hold_lookup(0xFF, all, 0x7A1, MATNOSORU_NO_SUCH, MATNOSORU_REASON_NO_SUCH);
    hold_lookup(0xFF, all, 0xC03, MATNOSORU_NO_SUCH, MATNOSORU_REASON_NO_SUCH);
    hold_lookup(0xFF, all, 0xFFF, MATNOSORU_NO_SUCH, MATNOSORU_REASON_NO_SUCH);
    HOLD(matnosoru_csr_lookup(0xFF, all, 4096), MATNOSORU_NO_SUCH);
    HOLD(matnosoru_csr_lookup(0xFF, all, (uint64_t)1 << 32 | 0x300), MATNOSORU_NO_SUCH);
    HOLD(matnosoru_csr_lookup(0xFF, all, all), MATNOSORU_NO_SUCH);
    HOLD(MATNOSORU_REASON(matnosoru_read_system(0xFF, all, 0xF1401073)), MATNOSORU_REASON_READ_ONLY);
}

/* What is no stack-based compressed form, in document 01's order of numbers. */
static void hold_stack_writes(void) {
    HOLD(matnosoru_write(0, 0, 0x00010220010107), REFUSED(6));  /* rd 32, of a width and with an immediate that no form has */
    HOLD(matnosoru_write(0, 0, 0x00012002010208), REFUSED(6));  /* rs2 32, the same */
    HOLD(matnosoru_write(0, 0, 0x00010200010407), REFUSED(9));  /* rd 0 */
    HOLD(matnosoru_write(0, 0, 0x0001020A030807), REFUSED(9));  /* unsigned */
    HOLD(matnosoru_write(0, 0, 0x00010802010208), REFUSED(9));  /* 16 bits */
    HOLD(matnosoru_write(0, 0, 0x0100020A010407), REFUSED(10)); /* 32 bits, 256 */
    HOLD(matnosoru_write(0, 0, 0x02000802010808), REFUSED(10)); /* 64 bits, 512 */
    HOLD(matnosoru_write(0, 0, 0x00040802010808), REFUSED(10)); /* 64 bits, 4 */
}

/* Document 01's 35 bytes and their lines. */
static const uint8_t LOG[35] = {0x0A, 0, 0, 0, 0, 0, 0, 0, 0, 0, 0, 0x05, 0x02, 0x14, 0x0F, 0x05, 0x00, 0x07,
                                0x04, 0x00, 0x05, 0x0A, 0x00, 0xF8, 0x09, 0x00, 0x02, 0x73, 0x10, 0x40, 0xF1, 0, 0, 0, 0};
static const char LISTING[] = "at kind answer\n0 0A hart 0\n11 05 F14022F3\n17 07 80052283\n24 09 refused 2\nend 35\n";
static const char SPOILT[] = "at kind answer\n0 0A hart 0\n11 05 F14022F3\nbad 13 at 17\n";
static const char NOTHING[] = "at kind answer\nend 0\n";
/* Two words refused with 5, as an older log has them, and the same words read. */
static const uint8_t OLD[36] = {0x09, 0x01, 0x05, 0x02, 0x45, 0, 0, 0, 0, 0, 0,
                                0x09, 0x02, 0x05, 0x02, 0xC5, 0, 0, 0, 0, 0, 0,
                                0x07, 0x04, 0x01, 0x0A, 0x02, 0x00, 0x00,
                                0x08, 0x04, 0x01, 0x02, 0x00, 0x88, 0x00};
static const char OLD_LISTING[] = "at kind answer\n0 09 refused 5\n11 09 refused 5\n22 07 4502\n29 08 C502\nend 36\n";

static void hold_listing(const uint8_t *log, size_t len, const char *wanted, size_t wanted_len) {
    list(log, len, put_bytes);
    HOLD(at, wanted_len);
    HOLD((uint64_t)memcmp(out, wanted, wanted_len), 0);
    at = 0;
}

static void hold_log(void) {
    uint8_t spoilt[sizeof LOG], state[MATNOSORU_STATE_LENGTH], other[MATNOSORU_STATE_LENGTH], record[MATNOSORU_LONGEST_RECORD];
    hold_listing(LOG, sizeof LOG, LISTING, sizeof LISTING - 1);
    hold_listing(NULL, 0, NOTHING, sizeof NOTHING - 1);
    hold_listing(OLD, sizeof OLD, OLD_LISTING, sizeof OLD_LISTING - 1);
    memcpy(spoilt, LOG, sizeof LOG);
    spoilt[18] = 3; /* no load has this width */
    hold_listing(spoilt, sizeof LOG, SPOILT, sizeof SPOILT - 1);
    /* the four records, one by one, and what writes them */
    HOLD(matnosoru_write_profile(0, 0, 0, record, sizeof record), 11);
    HOLD((uint64_t)memcmp(record, LOG, 11), 0);
    HOLD(matnosoru_write_instruction(0, 0, WORDS[0].answer, record, sizeof record), 6);
    HOLD((uint64_t)memcmp(record, LOG + 11, 6), 0);
    HOLD(matnosoru_write_refusal(0, 2, 0xF1401073, record, sizeof record), 11);
    HOLD((uint64_t)memcmp(record, LOG + 24, 11), 0);
    HOLD(matnosoru_read_record(0, 0, LOG + 17, 18), 7);
    HOLD(matnosoru_start(state, sizeof state), 81);
    memset(other, 0, sizeof other);
    HOLD((uint64_t)memcmp(state, other, sizeof state), 0);
    /* hart 5 gets zicntr and custom CSR 0x7C1, and is current */
    HOLD(matnosoru_write_profile(5, 1, 2, record, sizeof record), 11);
    HOLD(matnosoru_next(state, sizeof state, record, sizeof record), 11);
    other[50] = 1, other[52] = 2, other[80] = 5;
    HOLD((uint64_t)memcmp(state, other, sizeof state), 0);
    HOLD(matnosoru_tables_differ(state, 80, LOG + 1, 0), REFUSED(14));
    memset(other, 0, sizeof other);
    HOLD(matnosoru_tables_differ(state, 80, other, 80), 5 * 4096 + 0x7C1);
    HOLD(matnosoru_tables_differ(other, 80, other, 80), MATNOSORU_SAME);
    other[80] = 8;
    HOLD(matnosoru_next(other, sizeof other, LOG, sizeof LOG), REFUSED(15));
}

/* Seven trapped words, each with its hart, its reading and its slot. Hart 5 has zicntr, the others have nothing. */
static const uint64_t TRAPPED[7] = {0xF14022F3, 0xC0002573, 0xC0002573, 0x4502, 0xE002, 0x10500073, ~(uint64_t)0};
static const uint8_t HARTS[7] = {0, 0, 5, 7, 1, 8, 4}, READINGS[7] = {0, 0, 0, 1, 2, 4, 255};
static const uint8_t SLOTS[7][MATNOSORU_SLOT_LENGTH] = {
    {0x05, 0x02, 0x14, 0x0F, 0x05},                                           /* set, mhartid, rd 5, rs1 0 */
    {0x09, 0x00, 0x02, 0x73, 0x25, 0x00, 0xC0},                               /* cycle is not available */
    {0x05, 0x02, 0x00, 0x0C, 0x0A},                                           /* set, cycle, rd 10, rs1 0 */
    {0x07, 0x04, 0x01, 0x0A, 0x02},                                           /* c.lwsp x10,0(x2) */
    {0x08, 0x08, 0x01, 0x02, 0x00},                                           /* c.sdsp x0,0(x2) */
    {0x09, 0x03, 0x0F, 0x73, 0x00, 0x50, 0x10},                               /* no such hart, and no such reading */
    {0x09, 0x03, 0x10, 0xFF, 0xFF, 0xFF, 0xFF, 0xFF, 0xFF, 0xFF, 0xFF, 0x00}, /* no such reading */
};
static const char LAST_TWO[] = "at kind answer\n0 09 refused 15\n11 09 refused 16\nend 22\n";

/* What a call on these lists answers, with these lengths; it writes so many slots and no other byte. */
static void hold_slots(size_t table_len, size_t words_len, size_t harts_len, size_t readings_len, size_t room, uint64_t wanted, size_t slots) {
    uint8_t table[MATNOSORU_TABLE_LENGTH + 1] = {0}, slotted[sizeof SLOTS + 1], other[sizeof SLOTS + 1];
    table[50] = 1;
    memset(slotted, 0xEE, sizeof slotted);
    memset(other, 0xEE, sizeof other);
    memcpy(other, SLOTS, slots * MATNOSORU_SLOT_LENGTH);
    HOLD(matnosoru_batch(table, table_len, TRAPPED, words_len, HARTS, harts_len, READINGS, readings_len, slotted, room), wanted);
    HOLD((uint64_t)memcmp(slotted, other, sizeof other), 0);
}

static void hold_batch(void) {
    uint8_t log[22];
    hold_slots(80, 7, 7, 7, sizeof SLOTS, 7, 7);
    hold_slots(80, 6, 6, 6, sizeof SLOTS + 1, 6, 6);
    hold_slots(80, 0, 0, 0, sizeof SLOTS, 0, 0);
    hold_slots(80, 6, 7, 7, sizeof SLOTS, REFUSED(17), 0);
    hold_slots(80, 7, 6, 7, sizeof SLOTS, REFUSED(17), 0);
    hold_slots(79, 7, 7, 6, 0, REFUSED(17), 0); /* 17 comes before 14 */
    hold_slots(79, 7, 7, 7, sizeof SLOTS, REFUSED(14), 0);
    hold_slots(81, 7, 7, 7, sizeof SLOTS, REFUSED(14), 0);
    hold_slots(80, 7, 7, 7, sizeof SLOTS - 1, REFUSED(14), 0);
    memcpy(log, SLOTS[5], 11);
    memcpy(log + 11, SLOTS[6], 11);
    hold_listing(log, sizeof log, LAST_TWO, sizeof LAST_TWO - 1);
}

/* The functions of numbers, and each function that takes a buffer, with none. */
static void hold_rest(void) {
    uint8_t state[MATNOSORU_STATE_LENGTH], wfi = 1;
    HOLD(matnosoru_version(), MATNOSORU_VERSION);
    HOLD(matnosoru_csr_count(0, 0), 90);
    HOLD(matnosoru_csr_count(0xFF, ~(uint64_t)0), 266);
    HOLD(matnosoru_csr(0, 2, 0x7C1), 1);
    HOLD(matnosoru_csr(0, 2, 0x7C0), 0);
    HOLD(matnosoru_sign_extend(0x80, 1), 0xFFFFFFFFFFFFFF80);
    HOLD(matnosoru_sign_extend(0x80, 2), 0x80);
    HOLD(matnosoru_calculate_addr(8, ~(uint64_t)15), 0xFFFFFFFFFFFFFFF8);
    HOLD(matnosoru_write_instruction(0, 0, 1, NULL, 0), REFUSED(14));
    HOLD(matnosoru_write_refusal(0, 1, 0, NULL, 0), REFUSED(14));
    HOLD(matnosoru_write_profile(0, 0, 0, NULL, 0), REFUSED(14));
    HOLD(matnosoru_read_record(0, 0, NULL, 0), REFUSED(12));
    HOLD(matnosoru_line(0, 0, 0, NULL, 0, NULL, 0), REFUSED(12));
    HOLD(matnosoru_line(0, 0, 0, &wfi, 1, NULL, 0), REFUSED(14));
    HOLD(matnosoru_start(NULL, 0), REFUSED(14));
    HOLD(matnosoru_start(state, sizeof state), 81);
    HOLD(matnosoru_next(NULL, 0, NULL, 0), REFUSED(14));
    HOLD(matnosoru_next(state, sizeof state, NULL, 0), REFUSED(12));
    HOLD(matnosoru_next_line(NULL, 0, 0, NULL, 0, NULL, 0), REFUSED(14));
    HOLD(matnosoru_next_line(state, sizeof state, 0, NULL, 0, NULL, 0), REFUSED(12));
    HOLD(matnosoru_next_line(state, sizeof state, 0, &wfi, 1, NULL, 0), REFUSED(14));
    HOLD(matnosoru_header(NULL, 0), REFUSED(14));
    HOLD(matnosoru_end_line(0, NULL, 0), REFUSED(14));
    HOLD(matnosoru_bad_line(1, 0, NULL, 0), REFUSED(14));
    HOLD(matnosoru_bad_line(0, 0, NULL, 0), REFUSED(13));
    HOLD(matnosoru_bad_line(256, 0, NULL, 0), REFUSED(13));
    HOLD(matnosoru_tables_differ(NULL, 0, NULL, 0), REFUSED(14));
    HOLD(matnosoru_batch(NULL, 0, NULL, 0, NULL, 0, NULL, 0, NULL, 0), REFUSED(14));
    HOLD(matnosoru_batch(state, 80, NULL, 0, NULL, 0, NULL, 0, NULL, 0), 0);
}

/* ------------------------------------------------ answers that are compared ------------------------------------------------ */

/* A random word, or one that is a few bits from an instruction. */
static uint64_t raw_word(void) {
    static const uint64_t seeds[14][2] = {
        {0x10500073, 0}, {0x30200073, 0}, {0x10200073, 0}, {0x12000073, 0x01FF8000}, {0x22000073, 0x01FF8000}, {0x62000073, 0x01FF8000},
        {0x73, 0xFFFFFF80}, {0x7C000073, 0x03FFFF80}, {0x03, 0xFFFFFF80}, {0x23, 0xFFFFFF80}, {0x4000, 0x3FFC}, {0xC000, 0x3FFC},
        {0x4002, 0x3FFC}, {0xC002, 0x3FFC}};
    uint64_t pick = next(), any = next();
    if (pick % 8 == 0) return any;
    uint64_t word = seeds[(pick >> 8) % 14][0] | (any & seeds[(pick >> 8) % 14][1]);
    if (pick >> 16 & 1) word ^= (uint64_t)1 << (pick >> 24 & 63);
    if ((pick >> 17 & 3) == 0) word ^= any & ~(uint64_t)0xFFFFFFFF;
    return word;
}

/* The bytes of an instruction word, some of them changed, and rubbish after them. */
static void record(uint8_t *bytes, uint64_t word) {
    uint64_t a = next(), b = next();
    for (int k = 0; k < 8; k++) bytes[k] = (uint8_t)(word >> 8 * k);
    for (int k = 8; k < 16; k++) bytes[k] = (uint8_t)(a >> 8 * (k - 8));
    if (b % 4 == 0) bytes[b >> 8 & 7] ^= (uint8_t)(b >> 16);
    if (b % 16 == 1) bytes[0] = (uint8_t)(b >> 16) % 12;
}

/* The bytes of a buffer as one number. */
static uint64_t hash(const uint8_t *bytes, size_t n) {
    uint64_t h = 0xCBF29CE484222325;
    for (size_t k = 0; k < n; k++) h = (h ^ bytes[k]) * 0x100000001B3;
    return h;
}

/* The calls on a state, and the lines that need no record. */
static void walk(uint64_t any, uint64_t bent, const uint8_t *bytes) {
    uint8_t state[MATNOSORU_STATE_LENGTH], room[ROOM];
    size_t state_len = sizeof state - (bent >> 56 == 0);
    for (int k = 0; k < 80; k++) state[k] = (uint8_t)(any >> (k & 7) * 8) ^ (uint8_t)k;
    state[80] = (uint8_t)(bent % 9);
    memset(room, 0xEE, ROOM);
    put(matnosoru_next_line(state, state_len, any >> (bent & 63), bytes, 16 - (any >> 60), room, any % 8 ? ROOM : (any >> 8) % ROOM));
    put(hash(state, sizeof state));
    put(hash(room, ROOM));
    put(matnosoru_next(state, state_len, bytes, any >> 8 & 15));
    put(hash(state, sizeof state));
    put(matnosoru_header(room, any % 32));
    put(matnosoru_end_line(any >> (bent & 63), room + 16, bent % 40));
    put(matnosoru_bad_line(bent >> 40 & 0x1FF, bent, room + 24, any % 40));
    put(hash(room, ROOM));
}

/* Five trapped words. One call in sixteen has lists of unequal length, one a table that is cut short, one too little room. */
static void batch(uint64_t any, uint64_t bent, const uint8_t *table) {
    uint64_t words[5];
    uint8_t harts[5], readings[5], room[ROOM];
    for (int k = 0; k < 5; k++) {
        words[k] = raw_word();
        harts[k] = (uint8_t)((any >> 8 * k) % 9);
        readings[k] = (uint8_t)((bent >> 8 * k) % 4);
    }
    memset(room, 0xEE, ROOM);
    put(matnosoru_batch(table, 80 - ((any >> 40) % 16 == 0), words, 5, harts, 5 - ((any >> 44) % 16 == 0), readings, 5, room,
                        ROOM - ((any >> 48) % 16 == 0 ? 5 : 0)));
    put(hash(room, ROOM));
}

static void round_of(int round) {
    uint64_t flags = next() % 256, custom = next(), raw = raw_word(), any = next(), bent = next(), read[3];
    uint8_t bytes[16], room[ROOM], tables[2][80];
    for (uint64_t k = 0; k < 3; k++) {
        put(read[k] = reading(k, flags, custom, raw));
        put(matnosoru_write(flags, custom, read[k]));
    }
    uint64_t instruction = read[any % 3] ^ (bent % 4 == 0 ? (uint64_t)1 << (bent >> 8 & 63) : 0);
    put(matnosoru_write(flags, custom, instruction));
    put(matnosoru_csr(flags, custom, any % 4096));
    put(matnosoru_csr(flags, custom, bent));
    put(matnosoru_csr_lookup(flags, custom, any % 4096));
    put(matnosoru_csr_lookup(flags, custom, bent));
    put(matnosoru_csr_count(flags, custom));
    put(matnosoru_sign_extend(any, (uint64_t)1 << (bent % 5)));
    put(matnosoru_calculate_addr(any, (uint64_t)((int64_t)bent >> (any & 63))));
    memset(room, 0xEE, ROOM);
    put(matnosoru_write_instruction(flags, custom, instruction, room, (bent >> 16) % 16));
    put_bytes(room, 16);
    memset(room, 0xEE, ROOM);
    put(matnosoru_write_refusal(any % 5, bent % 18, raw, room, (bent >> 16) % 16));
    put_bytes(room, 16);
    memset(room, 0xEE, ROOM);
    put(matnosoru_write_profile(any % 9, flags, custom, room, (bent >> 16) % 16));
    put_bytes(room, 16);
    record(bytes, instruction);
    put(matnosoru_read_record(flags, custom, bytes, any >> 8 & 15));
    memset(room, 0xEE, ROOM);
    put(matnosoru_line(flags, custom, any >> (bent & 63), bytes, 16 - (any >> 60), room, any % 8 ? ROOM : (any >> 8) % ROOM));
    put_bytes(room, ROOM);
    /* one record in eight sets a profile, one of those a hart's above 7 */
    if ((bent >> 32 & 7) == 0) bytes[0] = 0x0A, bytes[1] = (uint8_t)(any % 9);
    walk(any, bent, bytes);
    /* two tables that are the same but for one bit */
    for (int k = 0; k < 80; k++) tables[0][k] = tables[1][k] = (uint8_t)(custom >> (k & 7) * 8);
    tables[1][any % 80] ^= (uint8_t)(1 << (any >> 8 & 7));
    put(round % 64 ? 0 : matnosoru_tables_differ(tables[0], 80, tables[1], 80 - (any >> 63)));
    batch(any, bent, tables[1]);
}

void begin(void) {
    hold_words();
    hold_lookups();
    hold_stack_writes();
    hold_log();
    hold_batch();
    hold_rest();
    for (int round = 0; round < ROUNDS; round++) {
        round_of(round);
        if (at % BLOCK) call(EXIT, 2, 0, 0);
        if (at == sizeof out) flush();
    }
    flush();
    call(EXIT, 0, 0, 0);
    __builtin_unreachable();
}
