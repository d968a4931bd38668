/*
 * Nephinor for C: the five calls of the proved library libnephinor.a.
 *
 * A block is a small program of integer statements, which a workstation runs. A list is the same work as vector
 * instructions, which an acquisition card runs. Both are bytes. The calls read a block, write one, make its list, and
 * run either on variables and cells that the caller lends.
 *
 * The library is for Linux on x86-64: `bash build library` writes target/staticlib/libnephinor.a, which is linked with the
 * program. A call returns one number, the answer: look at nephinor_status_of(answer) first; if that is NEPHINOR_DONE, take
 * the size and the prices out of the answer. A room of NEPHINOR_LIST_ROOM bytes fits every list. examples/c/worked_block.c
 * makes a list and runs it beside its block.
 *
 * What is asked of the caller: each pointer stands with the number of elements behind it, is aligned for its type and is
 * not NULL, not even beside the length 0. What a call writes overlaps nothing else that it is given. Nothing is asked of
 * the contents: whatever the bytes are, a call ends and answers.
 *
 * What the library keeps: nothing. It allocates nothing, has no state, and may be called from any thread.
 */
#ifndef NEPHINOR_H
#define NEPHINOR_H

#include <stddef.h>
#include <stdint.h>

#ifdef __cplusplus
extern "C" {
#endif

/* ---- The status: done, or why the call was refused ---- */

/*
 * A refusal returns zeros beside its status, except that NEPHINOR_ROOM_TOO_SMALL also returns the size needed. A call that is
 * refused leaves everything lent as it was.
 */
enum nephinor_status {
    /* Done. */
    NEPHINOR_DONE = 0,
    /* The block's version is not 1. */
    NEPHINOR_BLOCK_VERSION = 1,
    /* The block has under 7 bytes, or its stated length is not the number of bytes given. */
    NEPHINOR_BLOCK_LENGTH = 2,
    /* A count or an array's length is over its limit, an array has length 0, or more variables are live out than there are. */
    NEPHINOR_BLOCK_LIMIT = 3,
    /*
     * The block's bytes end early or are left over, a record's length is wrong, an operation or a kind is unknown, or a
     * constant or a number of operands stands where it is not allowed.
     */
    NEPHINOR_BLOCK_FORM = 4,
    /* The block names a variable, an array or an index that it does not declare. */
    NEPHINOR_BLOCK_UNDECLARED = 5,
    /* The variables or cells lent are not exactly as many as the block declares. */
    NEPHINOR_LENT_SIZE = 6,
    /* The room has fewer elements than the answer takes. The size returned is what it takes. */
    NEPHINOR_ROOM_TOO_SMALL = 7,
    /*
     * The list's bytes are at fault: under 4, version, length, more than 160 instructions, a broken record, an unknown code,
     * kind or operation, lanes not 2 or 4, or bytes left over.
     */
    NEPHINOR_LIST_FORM = 8,
    /* The list reads well, but names a statement, place, lane or register against the rules, a 97th register included. */
    NEPHINOR_LIST_AGAINST_RULES = 9
};

/* The sentence of a status, for people. */
static inline const char *nephinor_sentence(unsigned status)
{
    switch (status) {
    case NEPHINOR_DONE:
        return "done";
    case NEPHINOR_BLOCK_VERSION:
        return "the block's version is not 1";
    case NEPHINOR_BLOCK_LENGTH:
        return "the block has under 7 bytes, or its stated length is not the number of bytes given";
    case NEPHINOR_BLOCK_LIMIT:
        return "a count or an array's length is over its limit, an array has length 0, or more variables are live out than "
               "there are";
    case NEPHINOR_BLOCK_FORM:
        return "the block's bytes end early or are left over, a record's length is wrong, an operation or a kind is unknown, "
               "or a constant or a number of operands stands where it is not allowed";
    case NEPHINOR_BLOCK_UNDECLARED:
        return "the block names a variable, an array or an index that it does not declare";
    case NEPHINOR_LENT_SIZE:
        return "the variables or cells lent are not exactly as many as the block declares";
    case NEPHINOR_ROOM_TOO_SMALL:
        return "the room is smaller than the answer";
    case NEPHINOR_LIST_FORM:
        return "the list's bytes are at fault: under 4, version, length, more than 160 instructions, a broken record, an unknown "
               "code, kind or operation, lanes not 2 or 4, or bytes left over";
    case NEPHINOR_LIST_AGAINST_RULES:
        return "the list reads well, but names a statement, place, lane or register against the rules";
    default:
        return "no status of this library";
    }
}

/* ---- The answer: status, size and prices in one number ---- */

/* The status, one of enum nephinor_status. */
static inline unsigned nephinor_status_of(uint64_t answer)
{
    return (unsigned)(answer & 0xFF);
}

/* How many elements the answer takes in the room or in the table. */
static inline size_t nephinor_size_of(uint64_t answer)
{
    return (size_t)(answer >> 8 & 0xFFFF);
}

/* Of a run the price paid; of a list that was made the price of its block. */
static inline unsigned nephinor_price_of(uint64_t answer)
{
    return (unsigned)(answer >> 24 & 0xFFFF);
}

/* The price of the list that was made. */
static inline unsigned nephinor_list_price_of(uint64_t answer)
{
    return (unsigned)(answer >> 40 & 0xFFFF);
}

/* ---- Limits ---- */

enum {
    /* A block declares at most so many variables and arrays, and has at most so many statements. */
    NEPHINOR_MOST_VARIABLES = 32,
    NEPHINOR_MOST_ARRAYS = 8,
    NEPHINOR_MOST_STATEMENTS = 64,
    /* An array has at least one cell, and at most so many. */
    NEPHINOR_MOST_CELLS_OF_AN_ARRAY = 256,
    /* A list has at most so many instructions, and writes at most so many registers. */
    NEPHINOR_MOST_INSTRUCTIONS = 160,
    NEPHINOR_MOST_REGISTERS = 96,
    /* No block that is read or written takes more bytes: proved, block_length in crates/theorems/proofs/BlockRoundTrip.antt. */
    NEPHINOR_MOST_BLOCK_BYTES = 983,
    /* A room of so many bytes fits every list that is made: proved, room_enough in crates/theorems/proofs/Alike.antt. */
    NEPHINOR_LIST_ROOM = 3844
};

/* ---- A block as a table of numbers ---- */

/*
 * The numbers of a table, by where they stand: the counts, the lengths of the arrays, then ten for each statement. Of these ten
 * the first is the operation, and three each say the destination, the left operand and the right operand.
 */
enum {
    NEPHINOR_TABLE_VARIABLES = 0,       /* how many variables */
    NEPHINOR_TABLE_LIVE_OUT = 1,        /* how many of them, the first ones, are live out */
    NEPHINOR_TABLE_ARRAYS = 2,          /* how many arrays */
    NEPHINOR_TABLE_STATEMENT_COUNT = 3, /* how many statements */
    NEPHINOR_TABLE_LENGTHS = 4,         /* from here on the lengths of 8 arrays */
    NEPHINOR_TABLE_STATEMENTS = 12,     /* from here on 64 statements */
    NEPHINOR_TABLE_STATEMENT_SIZE = 10, /* how many numbers a statement takes */
    NEPHINOR_TABLE_SIZE = 652,          /* how many numbers a table has */

    /* Within the ten numbers of a statement. */
    NEPHINOR_OPERATION = 0,
    NEPHINOR_DESTINATION = 1,
    NEPHINOR_LEFT = 4,
    NEPHINOR_RIGHT = 7,

    /* The first of the three numbers of a place or an operand, and what the other two are. A number that says nothing is 0. */
    NEPHINOR_KIND_CONSTANT = 0, /* the value, 0 */
    NEPHINOR_KIND_VARIABLE = 1, /* the variable's number, 0 */
    NEPHINOR_KIND_CELL = 2,     /* array, index */
    NEPHINOR_KIND_NOTHING = 3   /* 0, 0: the right of a copy */
};

/*
 * The operations. Results of add, subtract and multiply are taken modulo 2^32. The shift count is the right operand modulo 32.
 * A copy has no right operand.
 */
enum nephinor_operation {
    NEPHINOR_COPY = 0,
    NEPHINOR_ADD = 1,
    NEPHINOR_SUBTRACT = 2,
    NEPHINOR_MULTIPLY = 3,
    NEPHINOR_AND = 4,
    NEPHINOR_OR = 5,
    NEPHINOR_EXCLUSIVE_OR = 6,
    NEPHINOR_SHIFT_RIGHT = 7
};

/* ---- The bytes of a block and of a list ---- */

/*
 * Numbers of more than one byte are big-endian.
 *
 * A block: 1, the version; its length in bytes, all of it (2 bytes); how many variables it has, how many of them, the first ones,
 * are live out, how many arrays, how many statements (1 byte each); the length of each array (2 bytes each); the statements. A
 * statement: the number of its bytes behind this one; operation; destination; left; right, but not for a copy. A place or an
 * operand: its kind; then for a constant 4 bytes, for a variable its number, for a cell array and index.
 *
 * A list: 1, the version; its length in bytes, all of it (2 bytes); how many instructions it has (1 byte); the instructions. An
 * instruction: the number of its bytes behind this one; its code; its fields, one byte each, but for the constants of C, 4 bytes
 * each, and the operands of G, written as in a block.
 */
enum nephinor_code {
    /* statement: runs the statement of this number, counted from 0. */
    NEPHINOR_S = 0,
    /* r, k, array, index: loads k cells in a row into register r. */
    NEPHINOR_L = 1,
    /* r, k, k constants: sets the lanes of register r. */
    NEPHINOR_C = 2,
    /* r, k, k operands: gathers the lanes of register r. */
    NEPHINOR_G = 3,
    /* r, operation, k, ra, rb: works on the lanes of ra and rb, lane by lane, into register r; a copy has no rb. */
    NEPHINOR_O = 4,
    /* r, k, array, index: stores the lanes of register r into k cells in a row. */
    NEPHINOR_W = 5,
    /* r, lane, array, index: stores one lane into a cell. */
    NEPHINOR_D = 6,
    /* r, lane, variable: puts one lane into a variable. */
    NEPHINOR_X = 7
};

/* ---- The five calls ---- */

/*
 * Reads a block's bytes into a table of NEPHINOR_TABLE_SIZE numbers. Slots past the counts get lengths of 0 and copies of nothing.
 * Numbers past the table keep their contents.
 * Answers: status; size, which is NEPHINOR_TABLE_SIZE when done and when the table is too small.
 */
uint64_t nephinor_read_block(const uint8_t *bytes, size_t bytes_length, uint32_t *table, size_t table_length);

/*
 * Writes the bytes of the block that a table says into the room. Slots past the counts are not looked at. Bytes past the answer
 * keep their contents. A table of fewer than NEPHINOR_TABLE_SIZE numbers is refused with NEPHINOR_BLOCK_LENGTH.
 * Answers: status; size, the bytes written or, where the room is too small, the bytes needed.
 */
uint64_t nephinor_write_block(const uint32_t *table, size_t table_length, uint8_t *room, size_t room_length);

/*
 * Makes the list of a block into the room. Bytes past the list keep their contents.
 * Answers: status; size, the bytes of the list or, where the room is too small, the bytes needed; price, the block's; list price,
 * never above the block's, and below it exactly when the list has a vector instruction.
 */
uint64_t nephinor_make_list(const uint8_t *bytes, size_t bytes_length, uint8_t *room, size_t room_length);

/*
 * Runs a block, as the workstation does. The variables and cells are exactly as many as the block declares; the cells stand array
 * after array.
 * Answers: status; price, what the run costs.
 */
uint64_t nephinor_run_block(const uint8_t *bytes, size_t bytes_length, uint32_t *variables, size_t variables_length,
                            uint32_t *cells, size_t cells_length);

/*
 * Runs a list beside its block, as the card does, on the same variables and cells. The list that was made for a block leaves every
 * cell and every live-out variable as the block does; variables that are not live out may differ.
 * Answers: status; price, what the run costs.
 */
uint64_t nephinor_run_list(const uint8_t *block, size_t block_length, const uint8_t *list, size_t list_length,
                           uint32_t *variables, size_t variables_length, uint32_t *cells, size_t cells_length);

#ifdef __cplusplus
}
#endif

#endif
