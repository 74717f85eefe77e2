/*
 * matnosoru: a proved RISC-V decoder, encoder and trap log. Link libmatnosoru.a (tools/native matnosoru TARGET).
 *
 * Every function is total: it has an answer for all arguments, keeps no state of its own, allocates nothing and calls nothing back.
 * A pointer may be any where its length is 0, NULL too; else it must be good for that many elements, and words must be aligned as
 * uint64_t is. A buffer that is written must overlap no other argument.
 *
 * A profile is what a hart has, in two words. `flags`, from bit 0 up: zicntr, zihpm, tee, s, h, sstc, v, crypto; bits that mean
 * nothing are ignored. `custom`: bit k makes the CSR address 0x7C0 + k available.
 *
 * An instruction crosses as one 64-bit word, its log record's bytes with the lowest first and zeros above (see
 * MATNOSORU_KIND and the table below it).
 *
 * A call says no in one of two ways. The three readings answer an instruction word, and a refusal is a word of kind 9
 * (MATNOSORU_READ_REFUSAL; MATNOSORU_REASON says why a CSR was refused). Every other answer that may be a refusal is its number times
 * 2^32 for one, and below 2^32 otherwise (MATNOSORU_REFUSAL).
 *
 * This lists a whole log, line by line:
 *
 *     static void list(const uint8_t *log, size_t len, void (*put)(const uint8_t *line, size_t len)) {
 *         uint8_t state[MATNOSORU_STATE_LENGTH], line[MATNOSORU_LONGEST_LINE];
 *         size_t at = 0;
 *         matnosoru_start(state, sizeof state);
 *         put(line, matnosoru_header(line, sizeof line));
 *         while (at < len) {
 *             uint64_t answer = matnosoru_next_line(state, sizeof state, at, log + at, len - at, line, sizeof line);
 *             if (MATNOSORU_REFUSAL(answer)) {
 *                 put(line, matnosoru_bad_line(MATNOSORU_REFUSAL(answer), at, line, sizeof line));
 *                 return;
 *             }
 *             put(line, MATNOSORU_LINE_PART(answer));
 *             at += MATNOSORU_RECORD_PART(answer);
 *         }
 *         put(line, matnosoru_end_line(at, line, sizeof line));
 *     }
 */
#ifndef MATNOSORU_H
#define MATNOSORU_H

#include <stddef.h>
#include <stdint.h>

/* A length crosses as a 64-bit number. */
#if defined(__cplusplus) && __cplusplus >= 201103L
static_assert(sizeof(size_t) == 8, "matnosoru is for machines with 64-bit addresses");
#elif defined(__STDC_VERSION__) && __STDC_VERSION__ >= 201112L
_Static_assert(sizeof(size_t) == 8, "matnosoru is for machines with 64-bit addresses");
#else
typedef char matnosoru_is_for_machines_with_64_bit_addresses[sizeof(size_t) == 8 ? 1 : -1];
#endif

#ifdef __cplusplus
extern "C" {
#endif

/* The number of this header. It is raised when an answer, a length or a function here changes. An archive fits where
 * matnosoru_version() answers the same. */
#define MATNOSORU_VERSION 4

/* The most bytes that a record has. */
#define MATNOSORU_LONGEST_RECORD 11
/* The most bytes that a line of the listing has, its line feed included: a place of 20 digits, then " 09 refused 15". */
#define MATNOSORU_LONGEST_LINE 35
/* The length of a slot: a record, then zeros. */
#define MATNOSORU_SLOT_LENGTH 12
/* The length of a table: for each of the eight harts the flags in two bytes and the mask in eight, low byte first. */
#define MATNOSORU_TABLE_LENGTH 80
/* The length of a log's state: a table, then the current hart in one byte. */
#define MATNOSORU_STATE_LENGTH 81
/* What matnosoru_tables_differ answers where two tables make the same CSRs available. */
#define MATNOSORU_SAME 32768

/* The refusal's number in an answer that may be one, a reading's excepted; 0 where the answer is no refusal.
 * (matnosoru_sign_extend and matnosoru_calculate_addr never refuse, and may answer any number.) */
#define MATNOSORU_REFUSAL(answer) ((uint64_t)(answer) >> 32)

/* The refusal's number in the answer of a reading; 0 where the answer is an instruction. (It uses its argument twice.) */
#define MATNOSORU_READ_REFUSAL(word) (MATNOSORU_KIND(word) == 9 ? (uint64_t)(word) >> 16 & 0xFF : (uint64_t)0)

/* The reason's letter (enum matnosoru_reason) in the answer of a reading; 0 where there is none: only MATNOSORU_INVALID_CSR_OP has
 * one. A log keeps the number and no reason. The reason of a record is had by reading its raw word again, under the profile of its
 * hart. (It uses its argument twice.) */
#define MATNOSORU_REASON(word) (MATNOSORU_KIND(word) == 9 ? (uint64_t)(word) >> 24 & 0xFF : (uint64_t)0)

/* The two lengths in an answer of matnosoru_line and matnosoru_next_line that is no refusal: the record's and the line's. */
#define MATNOSORU_RECORD_PART(answer) ((uint64_t)(answer) & 0xFFFF)
#define MATNOSORU_LINE_PART(answer) ((uint64_t)(answer) >> 16 & 0xFFFF)

/*
 * The kind of an instruction word, its lowest byte, and what the bytes above it are:
 *   1, 2, 3  WFI, MRET, SRET
 *   4        which fence (0 sfence.vma, 1 hfence.vvma, 2 hfence.gvma), rs1, rs2
 *   5        operation (1 write, 2 set, 3 clear), CSR low byte, CSR high byte, rd, rs1
 *   6        the same with an immediate in place of rs1
 *   7        load: width in bytes, flags (1 compressed, 2 unsigned), rd, rs1, immediate in two bytes (two's complement, low first)
 *   8        store: width in bytes, flags (1 compressed), rs1, rs2, immediate in two bytes
 *   9        no instruction, the word is refused: reading (0 SYSTEM, 1 load, 2 store, 3 none of these), number, and with number 2
 *            the reason's letter
 */
#define MATNOSORU_KIND(word) ((uint64_t)(word) & 0xFF)

/* Refusals. */
enum matnosoru_refusal {
    MATNOSORU_UNKNOWN = 1,        /* SYSTEM reading: no such instruction */
    MATNOSORU_INVALID_CSR_OP = 2, /* SYSTEM reading: the CSR is not available, or is read-only and written (enum matnosoru_reason) */
    MATNOSORU_NOT_THE_FORM = 3,   /* load or store reading: not such a form */
    MATNOSORU_WIDTH = 4,          /* load funct3 7, store funct3 4 to 7 */
    MATNOSORU_STACK_FORM = 5,     /* load or store reading: low two bits 10, and no stack-based form of the reading */
    MATNOSORU_REGISTER = 6,       /* writing: a register or an immediate of a CSR form above 31 */
    MATNOSORU_CSR = 7,            /* no address of its own, or the CSR is not available */
    MATNOSORU_READ_ONLY = 8,      /* writing: the CSR operation writes a read-only CSR */
    MATNOSORU_NO_FORM = 9,        /* writing: no form with this width, sign, compression and registers */
    MATNOSORU_IMMEDIATE = 10,     /* writing: immediate outside the form's range or step */
    MATNOSORU_RECORD_KIND = 11,   /* log: the kind byte is not one of those listed */
    MATNOSORU_CUT_SHORT = 12,     /* log: empty, or the body is cut short */
    MATNOSORU_FIELD = 13,         /* log: a field that no writer would write under this profile */
    MATNOSORU_OUTPUT_SHORT = 14,  /* the output buffer is shorter than what is to be written */
    MATNOSORU_HART = 15,          /* the hart is above 7 */
    MATNOSORU_READING = 16,       /* the reading is above 2; in a record alone */
    MATNOSORU_LIST_LENGTHS = 17   /* the lists are not of one length */
};

/* Why the SYSTEM reading refuses with MATNOSORU_INVALID_CSR_OP. The first is given wherever it holds, also where there is no CSR. */
enum matnosoru_reason {
    MATNOSORU_REASON_READ_ONLY = 'a', /* the access writes, and the address is a read-only one: its bits 11 and 10 are both one */
    MATNOSORU_REASON_GATE_OFF = 'b',  /* some profile makes the CSR available, and this one does not */
    MATNOSORU_REASON_NO_SUCH = 'c'    /* no profile makes a CSR available at this address */
};

/* What matnosoru_csr_lookup answers. */
enum matnosoru_lookup {
    MATNOSORU_AVAILABLE = 1, /* this profile makes the CSR available */
    MATNOSORU_GATE_OFF = 2,  /* another profile does, and this one does not */
    MATNOSORU_NO_SUCH = 3    /* no profile does */
};

/* The MATNOSORU_VERSION of the header that the archive fits. */
uint64_t matnosoru_version(void);

/* The SYSTEM reading of a raw word: its instruction word of kind 1 to 6, or the refusal 1 or 2 as a word of kind 9. With 2 the word
 * has the reason's letter (MATNOSORU_REASON). */
uint64_t matnosoru_read_system(uint64_t flags, uint64_t custom, uint64_t raw);

/* The load reading: an instruction word of kind 7, or the refusal 3, 4 or 5 as a word of kind 9. */
uint64_t matnosoru_read_load(uint64_t flags, uint64_t custom, uint64_t raw);

/* The store reading: an instruction word of kind 8, or the refusal 3, 4 or 5 as a word of kind 9. */
uint64_t matnosoru_read_store(uint64_t flags, uint64_t custom, uint64_t raw);

/* The RISC-V word of an instruction word, or the refusal: 11 for a kind not 1 to 8, 13 for a code that no field has, then 6 to 10. */
uint64_t matnosoru_write(uint64_t flags, uint64_t custom, uint64_t instruction_word);

/* Whether the CSR at an address is available: 1 or 0. The address may be any number. */
uint64_t matnosoru_csr(uint64_t flags, uint64_t custom, uint64_t address);

/* What is at a CSR address (enum matnosoru_lookup): 1 where the CSR is available, 2 where it is not and some other profile makes it
 * available, 3 where none does. The address may be any number; above 4095 the answer is 3. */
uint64_t matnosoru_csr_lookup(uint64_t flags, uint64_t custom, uint64_t address);

/* How many CSRs are available. */
uint64_t matnosoru_csr_count(uint64_t flags, uint64_t custom);

/* Writes the log record of an instruction word to the start of `out`: the record's length, or the refusal (those of
 * matnosoru_write, then 14), with `out` unchanged. */
uint64_t matnosoru_write_instruction(uint64_t flags, uint64_t custom, uint64_t instruction_word, uint8_t *out, size_t out_len);

/* Writes the log record of a refused word (kind 9): the record's length, or the refusal 13 for a pair of reading and number that
 * no record has, then 14, with `out` unchanged. */
uint64_t matnosoru_write_refusal(uint64_t reading, uint64_t number, uint64_t raw, uint8_t *out, size_t out_len);

/* Writes the log record that sets a hart's profile (kind 0A): the record's length, or the refusal 15, then 14, with `out`
 * unchanged. */
uint64_t matnosoru_write_profile(uint64_t hart, uint64_t flags, uint64_t custom, uint8_t *out, size_t out_len);

/* Writes the log records of many trapped words, each into a slot of MATNOSORU_SLOT_LENGTH bytes: the record, then zeros. `table` has
 * the profiles of the harts. The word words[i] is read in the reading readings[i] (0 SYSTEM, 1 load, 2 store) under the profile of the
 * hart harts[i]. Its record is the instruction's, or one of kind 9: the reading, the refusal's number, the word in eight bytes, low byte
 * first. A hart above 7 makes a record of kind 9 with number 15 and the reading given, or 3 if that is above 2. Otherwise a reading
 * above 2 makes one with reading 3 and number 16.
 *
 * The slots of a hart depend on its own words, readings and profile alone, and those of a hart above 7 on words and readings alone.
 * Nothing of another hart shows in them, and nothing that was in `out`.
 *
 * The answer is the number of slots (its low 32 bits). The bytes of `out` after the last slot stay as they are. Or the refusal, with
 * `out` unchanged: 17 where the three lists are not of one length, then 14 where `table_len` is not MATNOSORU_TABLE_LENGTH, then 14
 * where `out` is shorter than the slots. The refusals depend on the lengths alone. */
uint64_t matnosoru_batch(const uint8_t *table, size_t table_len, const uint64_t *words, size_t words_len, const uint8_t *harts,
                         size_t harts_len, const uint8_t *readings, size_t readings_len, uint8_t *out, size_t out_len);

/* Checks the first record of a log under one profile: the record's length, or the refusal 12 where the log is empty, then 11, 12,
 * 13. What follows the record is not looked at. */
uint64_t matnosoru_read_record(uint64_t flags, uint64_t custom, const uint8_t *log, size_t log_len);

/* Writes the listing's line for the first record of `log`, whose place in the whole log is `at`, to the start of `out`, its line
 * feed included: the record's length plus 2^16 times the line's length; or the record's refusal, 14 last, with `out` unchanged. */
uint64_t matnosoru_line(uint64_t flags, uint64_t custom, uint64_t at, const uint8_t *log, size_t log_len, uint8_t *out, size_t out_len);

/*
 * A whole log is walked with a state of MATNOSORU_STATE_LENGTH bytes: each hart's profile, and which hart is current. Each record is
 * read under the current hart's profile. A record of kind 0A sets a hart's profile and makes that hart current.
 */

/* Makes the state with which a log begins, all profiles empty and hart 0 current: 81; or the refusal 14 where `state_len` is not 81,
 * with `state` unchanged. */
uint64_t matnosoru_start(uint8_t *state, size_t state_len);

/* Reads the first record of `log`: its length, and the state after it. Or the refusal, with `state` unchanged: 14 where `state_len` is
 * not 81, 15 where the state's hart is above 7, then those of matnosoru_read_record. */
uint64_t matnosoru_next(uint8_t *state, size_t state_len, const uint8_t *log, size_t log_len);

/* The same, and the record's line of the listing as matnosoru_line writes it: the record's length plus 2^16 times the line's length.
 * Or the refusal, with `state` and `out` unchanged: those of matnosoru_next, and last 14 where `out` is shorter than the line. */
uint64_t matnosoru_next_line(uint8_t *state, size_t state_len, uint64_t at, const uint8_t *log, size_t log_len, uint8_t *out,
                             size_t out_len);

/* Writes the listing's first line to the start of `out`: the line's length, or the refusal 14, with `out` unchanged. */
uint64_t matnosoru_header(uint8_t *out, size_t out_len);

/* The last line of a log that is accepted throughout and has `at` bytes: the line's length, or the refusal 14. */
uint64_t matnosoru_end_line(uint64_t at, uint8_t *out, size_t out_len);

/* The last line of a log with a bad record, of its refusal's number and its place: the line's length, or the refusal 13 for a number
 * that is not 1 to 255, then 14. */
uint64_t matnosoru_bad_line(uint64_t number, uint64_t at, uint8_t *out, size_t out_len);

/* Compares two tables of eight profiles: the first hart and then the lowest CSR address where availability differs, as
 * hart * 4096 + address; MATNOSORU_SAME where they differ nowhere; the refusal 14 where a table is not MATNOSORU_TABLE_LENGTH bytes. */
uint64_t matnosoru_tables_differ(const uint8_t *a, size_t a_len, const uint8_t *b, size_t b_len);

/* A value of `bytes` bytes (1, 2, 4 or 8) with its sign copied upwards; any other width leaves the value. */
uint64_t matnosoru_sign_extend(uint64_t value, uint64_t bytes);

/* The address of an access: base plus immediate, modulo 2^64. A negative immediate is in two's complement. */
uint64_t matnosoru_calculate_addr(uint64_t base, uint64_t imm);

#ifdef __cplusplus
}
#endif

#endif
