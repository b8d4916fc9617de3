/*
 * The inversion reducer for majority and XOR graphs, for C.
 *
 * Link the static library that `rt lib` in crates/reducer writes, crates/reducer/out/libreducer.a. It needs no other library,
 * keeps no state, allocates nothing and may be called from several threads on tables of their own. Proved, for all bytes, words
 * and numbers, is what is said here of answers: the number returned, and what then stands in the tables, bits, locks, results,
 * moves, buffer, book and answers, at the last pointer or pointers and, after a refusal, in scratch. The rest of this page is not
 * part of the proof.
 *
 * The graph
 *
 *   I inputs, N nodes and O outputs. Index 0 is the constant false, 1 to I are inputs, I + 1 to I + N are nodes. A literal is an
 *   index and a complement bit: 1 if complemented, else 0. The node table has three literals a node in index order, its words 1 to
 *   3, at places 3 * v to 3 * v + 2 for node I + 1 + v; the output table has one literal an output. Places count from 0. A node's
 *   literals name indices below its own; an output may name any.
 *
 *   A table is two slices. The first has a word of 32 bits a place: the literal's index. The second has the complement bits in
 *   words of 64: that of place j is bit j mod 64, bit 0 being the lowest, of word j div 64. So n literals have
 *   REDUCER_BIT_WORDS(n) words of bits. A node whose third index is REDUCER_MARK is an XOR of the first two literals; any other is
 *   a majority of the three. The mark is no literal, and the bit at its place is 0. Bits past the last literal, in the word that
 *   it is in, are 0 too.
 *
 *   Written as one number, as in files, a literal is 2 * index + bit. reducer_literal and reducer_set_literal, below, read and
 *   set one so.
 *
 *   The locks are a byte a node in index order, byte v for node I + 1 + v: 1 for a locked node, which must not turn, and 0 for a
 *   free one. Every function that takes a graph takes its locks after its tables and tests them, also where nothing turns. A
 *   locked node has only move 0 in every call, and the best moves are the best of those that leave locked nodes at move 0; its
 *   own words may still turn, by moves of the nodes that they name. A call may name a locked node, and one on a tree a locked root;
 *   reducer_many and reducer_trial refuse a move other than 0 at one, reducer_majority refuses one, and reducer_find leaves it.
 *
 *   Moves turn bits alone. reducer_load, reducer_import, reducer_join and reducer_replay fill indices and locks; reducer_majority
 *   changes the indices of its node, and reducer_find indices, locks and the number of nodes. No other function changes any of
 *   these.
 *
 *   Tables, bits and locks may be longer than the graph. Only the first 3 * N indices and REDUCER_BIT_WORDS(3 * N) words of bits
 *   of the node table, the first O indices and REDUCER_BIT_WORDS(O) words of bits of the output table, and the first N locks are
 *   looked at or changed.
 *
 * What a call answers
 *
 *   Every function returns 0 or the number of a refusal, below. What it answers beside that goes through its last pointer, and
 *   settling's figures and savings, and those of a class, through its last two. A refused call has changed nothing: tables, bits,
 *   locks, scratch, results, moves, buffer, answers, book and that last number or those arrays are as they were. The first fault
 *   is returned, in the order of the numbers 3, 4, 5, 13, 7, 8, 9, all literals and bits being tested before any lock; loading
 *   meets its file from front to back, importing its text line by line, each line being tested for 10, 11, 12, 3, 4, 5 in that
 *   order, many moves their list entry by entry, after 3, 4, 5 and 13, each entry being tested for 7, 14, 15, 16 in that order, a
 *   trial its two moves, each for 15 and 16, after 7, a majority call its node, its triple and its lock by 7, 7 and 16, before 8,
 *   a class its book by 3 before all else, a comparison 3 and 4 of both graphs before 5 and 13 of both, an assignment 17 and 18
 *   between 13 and 8, a join both graphs whole before 19 and the joined one, and a replay its calls and answers before its file.
 *   Scratch holds nothing of use before or after a call.
 *
 *   A saving is two numbers, of which either may be below 0: how many complemented edges fewer there are, first among the words
 *   of the nodes that the call names, then among all other edges, words of other nodes and outputs. Together they are the
 *   complemented edges before less those after. A node call names its node, a pair call its node and the one that the word
 *   names, a tree call, its preview and a resistive call all nodes of the tree. A call that saves nothing has 0 for both. The saving
 *   of many moves (reducer_many) is one number. They are made as they are given, and so may leave more complemented edges than there
 *   were: the saving is then below 0. So may a resistive call, for which fewer complemented edges come second.
 *
 * What a caller owes
 *
 *   A slice is a pointer and a length in elements. The pointer must not be null, even where the length is 0 (the address of
 *   any variable of the type will do), must be aligned for its type, and must be good for so many elements. Slices of one call
 *   must not overlap, and neither may what the last pointers lead to; two slices that the call only reads may.
 */
#ifndef REDUCER_H
#define REDUCER_H

#include <stddef.h>
#include <stdint.h>

#ifdef __cplusplus
extern "C" {
#endif

/* The third index of an XOR. */
#define REDUCER_MARK UINT32_C(4294967295)

/* Words of complement bits that n literals have. */
#define REDUCER_BIT_WORDS(n) (((size_t)(n) + 63) / 64)

/* Limits: more is refused by REDUCER_OVER_LIMIT. */
#define REDUCER_MOST_INPUTS 4096
#define REDUCER_MOST_NODES 100000
#define REDUCER_MOST_OUTPUTS 4096

/* The most inputs for which an assignment is looked for: more is refused by REDUCER_MANY_INPUTS. */
#define REDUCER_MOST_SEARCHED 16

/* Scratch that calls need, in words of their type, for n nodes. */
#define REDUCER_TREE_SCRATCH(n) (8 * (size_t)(n))
#define REDUCER_SETTLE_SCRATCH(n) (8 * (size_t)(n))
#define REDUCER_EVALUATE_SCRATCH(n) ((size_t)(n))
#define REDUCER_EXPORT_SCRATCH(n) ((size_t)(n))

/* Bytes that are enough for the file of a graph with n nodes, all of them locked, and o outputs. */
#define REDUCER_FILE_BYTES(n, o) (18 + 22 * (size_t)(n) + 7 * (size_t)(o))

/* Bytes that are enough for the AIGER text of a graph with i inputs, n nodes and o outputs. */
#define REDUCER_TEXT_BYTES(i, n, o) (30 + 5 * (size_t)(i) + 84 * (size_t)(n) + 7 * (size_t)(o))

/* Words of the record of a class, and the most graphs that it takes. */
#define REDUCER_CLASS_WORDS 86
#define REDUCER_MOST_GRAPHS 1000

/* Words of one call of a list, and of its answer. */
#define REDUCER_CALL_WORDS 3
#define REDUCER_ANSWER_WORDS 3

/* The kinds of calls in a list. */
enum reducer_kind {
    REDUCER_NODE_CALL = 0,
    REDUCER_PAIR_CALL = 1,
    REDUCER_TREE_CALL = 2,
    REDUCER_SETTLE_CALL = 3,
    REDUCER_MANY_CALL = 4,
    REDUCER_MAJORITY_CALL = 5,
    REDUCER_FIND_CALL = 6,
    REDUCER_RESISTIVE_CALL = 7
};

/*
 * What is returned. 1 to 9 are the refusals of document 01, 10 to 19 those that document 02 adds; 101, 102 and 105 are a replay's
 * own and of neither document.
 */
enum reducer_number {
    REDUCER_OK = 0,
    /* fewer bytes left than the due field's 3-byte head, or than its payload */
    REDUCER_MISSING_BYTES = 1,
    /* tag or length not the one due */
    REDUCER_WRONG_FIELD = 2,
    /* I, N or O above its limit; a book that is full, counts more than it can take, or holds a word of 2 to the 40th or above */
    REDUCER_OVER_LIMIT = 3,
    /*
     * a lent table, its bits, slice of locks, input or result slice or book too short; fewer moves than nodes (preview, many moves,
     * comparison), or fewer wanted bytes than outputs
     */
    REDUCER_SHORT_SLICE = 4,
    /* a literal naming an index not allowed there; a set bit at a mark, or past the last literal in the word that it is in */
    REDUCER_BAD_LITERAL = 5,
    /* bytes after the end field */
    REDUCER_EXTRA_BYTES = 6,
    /*
     * not a node (in a list too), not a root (tree call, preview, resistive call), no such word of the node, or no such triple
     * (majority call)
     */
    REDUCER_NO_SUCH_NODE = 7,
    /* scratch too short */
    REDUCER_SHORT_SCRATCH = 8,
    /* write buffer too short */
    REDUCER_SHORT_BUFFER = 9,
    /* a header without "aag", or a line that lacks its decimal numbers */
    REDUCER_BAD_TEXT = 10,
    /* L is not 0 */
    REDUCER_HAS_LATCHES = 11,
    /* M other than I + A, or inputs or gate numbers not rising by 2 from literal 2 */
    REDUCER_WRONG_NUMBERING = 12,
    /* a lock byte above 1, or in a file a field 06 whose index is no node's or not above the one before */
    REDUCER_BAD_LOCK = 13,
    /* an index of a list of nodes that is not above the one before */
    REDUCER_NOT_RISING = 14,
    /* a move number that the node's kind lacks: a majority has moves 0 and 1, an XOR 0 to 3 */
    REDUCER_NO_SUCH_MOVE = 15,
    /* a move other than 0, or a majority call, at a locked node */
    REDUCER_MOVE_OF_LOCKED = 16,
    /* more than 16 inputs, where an assignment is looked for */
    REDUCER_MANY_INPUTS = 17,
    /* a wanted byte above 2 */
    REDUCER_BAD_WANTED = 18,
    /* the first graph's outputs and the second's inputs differ in number */
    REDUCER_STAGES_DIFFER = 19,
    /* words of the list are left over: their number is not a multiple of 3 */
    REDUCER_LEFT_OVER = 101,
    /* a call of the list has a kind above 7 */
    REDUCER_UNKNOWN_KIND = 102,
    /* a many call's part, or a majority call's triple, reaches past the end of the list of nodes */
    REDUCER_PART_OUTSIDE = 105
};

/* What a majority call answers. */
enum reducer_made {
    /* the node is now one majority of the three */
    REDUCER_MADE = 0,
    /* its value over the three is none's; nothing has changed */
    REDUCER_NOT_MAJORITY = 1,
    /* some way from it down to an input misses all three; nothing has changed */
    REDUCER_NOT_COVERED = 2
};

/* What a comparison answers first; its second number says where. */
enum reducer_difference {
    /* the moves lead from the first graph to the second; 0 */
    REDUCER_MOVES_LEAD = 0,
    /* another size: 0 for the inputs, 1 for the nodes, 2 for the outputs */
    REDUCER_OTHER_SIZE = 1,
    /* another index, so another wiring or kind, at this place of the node table */
    REDUCER_OTHER_NODE_INDEX = 2,
    /* another index at this place of the output table */
    REDUCER_OTHER_OUTPUT_INDEX = 3,
    /* no moves explain the complement bit at this place of the node table, where all places before it agree */
    REDUCER_NODE_BIT = 4,
    /* no moves explain the complement bit at this place of the output table, where all places before it and the node table agree */
    REDUCER_OUTPUT_BIT = 5
};

/*
 * The literal at a place of a table, as one number, or REDUCER_MARK. The table must have this place, and a graph in it that a call
 * has accepted: else the number may be none.
 */
static inline uint32_t reducer_literal(const uint32_t *table, const uint64_t *bits, size_t place)
{
    uint32_t bit = (uint32_t)(bits[place / 64] >> (place % 64) & 1);
    return table[place] == REDUCER_MARK ? REDUCER_MARK : 2 * table[place] + bit;
}

/* Sets a place of a table to a literal, given as one number, or to REDUCER_MARK. The table must have this place. */
static inline void reducer_set_literal(uint32_t *table, uint64_t *bits, size_t place, uint32_t literal)
{
    uint64_t bit = literal == REDUCER_MARK ? 0 : literal % 2;
    table[place] = literal == REDUCER_MARK ? REDUCER_MARK : literal / 2;
    bits[place / 64] = (bits[place / 64] & ~(UINT64_C(1) << (place % 64))) | bit << (place % 64);
}

/* Why a number is returned, in words. */
static inline const char *reducer_why(uint32_t number)
{
    switch (number) {
    case REDUCER_OK: return "it is accepted";
    case REDUCER_MISSING_BYTES: return "the bytes end within a field";
    case REDUCER_WRONG_FIELD: return "a field has not the tag or the length that is due";
    case REDUCER_OVER_LIMIT: return "there are too many inputs, nodes, outputs or graphs of a class";
    case REDUCER_SHORT_SLICE: return "a table or a slice of locks, inputs, results or moves is too short";
    case REDUCER_BAD_LITERAL: return "a literal names an index that is not allowed there";
    case REDUCER_EXTRA_BYTES: return "there are bytes after the end field";
    case REDUCER_NO_SUCH_NODE: return "there is no such node, root or word";
    case REDUCER_SHORT_SCRATCH: return "the scratch is too short";
    case REDUCER_SHORT_BUFFER: return "the buffer is too short";
    case REDUCER_BAD_TEXT: return "the header has no \"aag\", or a line lacks its decimal numbers";
    case REDUCER_HAS_LATCHES: return "there are latches";
    case REDUCER_WRONG_NUMBERING: return "M is not I + A, or inputs or gate numbers do not rise by 2 from literal 2";
    case REDUCER_BAD_LOCK: return "a lock byte is above 1, or a lock of a file is at no node or not above the one before";
    case REDUCER_NOT_RISING: return "an index of the list is not above the one before";
    case REDUCER_NO_SUCH_MOVE: return "a node of this kind has no such move";
    case REDUCER_MOVE_OF_LOCKED: return "a move other than 0 is at a locked node";
    case REDUCER_MANY_INPUTS: return "there are more than 16 inputs";
    case REDUCER_BAD_WANTED: return "a wanted byte is above 2";
    case REDUCER_STAGES_DIFFER: return "the first graph's outputs and the second's inputs differ in number";
    case REDUCER_LEFT_OVER: return "words of the list are left over: they are not three a call";
    case REDUCER_UNKNOWN_KIND: return "a call of the list has a kind that is none";
    case REDUCER_PART_OUTSIDE: return "a many call's part, or a majority call's triple, reaches past the end of the list";
    default: return "there is no such number";
    }
}

/*
 * The field at the front of the bytes: payload[0] is where its payload starts in them, payload[1] the payload's length.
 * Refusals: 1, 2.
 */
uint32_t reducer_field(const uint8_t *bytes, size_t bytes_length, size_t payload[2]);

/*
 * Loads a tagged file: fills the first 3 * N indices of the node table and the first O of the output table, the words of bits that
 * these have, bits past the last literal becoming 0, and the first N locks, with 1 for each node that a field 06 names and 0 for
 * every other. numbers are I, N and O. Refusals: 1, 2, 3, 4, 5, 6, 13.
 */
uint32_t reducer_load(const uint8_t *file, size_t file_length,
                      uint32_t *node_table, size_t node_table_length,
                      uint64_t *node_bits, size_t node_bits_length,
                      uint32_t *output_table, size_t output_table_length,
                      uint64_t *output_bits, size_t output_bits_length,
                      uint8_t *locks, size_t locks_length,
                      uint32_t numbers[3]);

/*
 * Writes the graph's tagged file to the front of the buffer, with a field 06 for each locked node. length is the file's length, at
 * most REDUCER_FILE_BYTES(nodes, outputs). Refusals: 3, 4, 5, 13, 9.
 */
uint32_t reducer_write(uint32_t inputs, uint32_t nodes, uint32_t outputs,
                       const uint32_t *node_table, size_t node_table_length,
                       const uint64_t *node_bits, size_t node_bits_length,
                       const uint32_t *output_table, size_t output_table_length,
                       const uint64_t *output_bits, size_t output_bits_length,
                       const uint8_t *locks, size_t locks_length,
                       uint8_t *buffer, size_t buffer_length,
                       size_t *length);

/*
 * Imports an ASCII AIGER text: fills tables, bits and locks as reducer_load does, every node being free. numbers are I, N and O, N
 * being the header's A. The text is a header "aag M I L O A", a line an input with its literal, a line an output with its own,
 * and a line a gate with the gate's literal and two that name lower indices. Numbers are decimal, below 2 to the 32nd, without
 * leading zeros; one space parts them and a newline ends each line. An AND becomes a majority with word 1 equal to 0 and words 2
 * and 3 in the line's order. What follows the last gate is not read. Refusals: 10, 11, 12, 3, 4, 5.
 */
uint32_t reducer_import(const uint8_t *text, size_t text_length,
                        uint32_t *node_table, size_t node_table_length,
                        uint64_t *node_bits, size_t node_bits_length,
                        uint32_t *output_table, size_t output_table_length,
                        uint64_t *output_bits, size_t output_bits_length,
                        uint8_t *locks, size_t locks_length,
                        uint32_t numbers[3]);

/*
 * Writes the graph's ASCII AIGER text to the front of the buffer: a majority as four ANDs, an XOR as three, and no symbols,
 * comment or locks. length is the text's length; REDUCER_TEXT_BYTES(inputs, nodes, outputs) are enough. reducer_import refuses
 * the text by 3 or 4 only, and else gives a graph with the same value at every output under every assignment. Refusals: 3, 4, 5,
 * 13, 8, 9.
 */
uint32_t reducer_export(uint32_t inputs, uint32_t nodes, uint32_t outputs,
                        const uint32_t *node_table, size_t node_table_length,
                        const uint64_t *node_bits, size_t node_bits_length,
                        const uint32_t *output_table, size_t output_table_length,
                        const uint64_t *output_bits, size_t output_bits_length,
                        const uint8_t *locks, size_t locks_length,
                        uint32_t *scratch, size_t scratch_length,
                        uint8_t *buffer, size_t buffer_length,
                        size_t *length);

/*
 * Joins two graphs: output k of the first drives input k of the second. The joined graph has the first's inputs, the first's nodes and
 * after them the second's, with their locks, and the second's outputs. An edge from input k of the second becomes the first's output k,
 * complemented where just one of the two is; the second's edges from the constant stay. Fills the joined tables, bits and locks as
 * reducer_load fills its own, and numbers are its I, N and O. Each output has the second's value on the first's outputs, under every
 * assignment. Both graphs are only read and may be the same slices; the joined slices overlap none of theirs. Refusals: 3, 4, 5, 13 of the
 * first graph, 3, 4, 5, 13 of the second, 19, then 3 and 4 of the joined one.
 */
uint32_t reducer_join(uint32_t inputs, uint32_t nodes, uint32_t outputs,
                      const uint32_t *node_table, size_t node_table_length,
                      const uint64_t *node_bits, size_t node_bits_length,
                      const uint32_t *output_table, size_t output_table_length,
                      const uint64_t *output_bits, size_t output_bits_length,
                      const uint8_t *locks, size_t locks_length,
                      uint32_t second_inputs, uint32_t second_nodes, uint32_t second_outputs,
                      const uint32_t *second_node_table, size_t second_node_table_length,
                      const uint64_t *second_node_bits, size_t second_node_bits_length,
                      const uint32_t *second_output_table, size_t second_output_table_length,
                      const uint64_t *second_output_bits, size_t second_output_bits_length,
                      const uint8_t *second_locks, size_t second_locks_length,
                      uint32_t *joined_node_table, size_t joined_node_table_length,
                      uint64_t *joined_node_bits, size_t joined_node_bits_length,
                      uint32_t *joined_output_table, size_t joined_output_table_length,
                      uint64_t *joined_output_bits, size_t joined_output_bits_length,
                      uint8_t *joined_locks, size_t joined_locks_length,
                      uint32_t numbers[3]);

/*
 * Evaluates all outputs under 64 assignments: bit j of input word k is input k + 1 under assignment j, and bit j of result o
 * output o under it. Needs I input words and O results. Refusals: 3, 4, 5, 13, 8.
 */
uint32_t reducer_evaluate(uint32_t inputs, uint32_t nodes, uint32_t outputs,
                          const uint32_t *node_table, size_t node_table_length,
                          const uint64_t *node_bits, size_t node_bits_length,
                          const uint32_t *output_table, size_t output_table_length,
                          const uint64_t *output_bits, size_t output_bits_length,
                          const uint8_t *locks, size_t locks_length,
                          const uint64_t *input_words, size_t input_words_length,
                          uint64_t *scratch, size_t scratch_length,
                          uint64_t *results, size_t results_length);

/*
 * Finds the least assignment that gives a wanted output pattern, for up to REDUCER_MOST_SEARCHED inputs. wanted has a byte an output: 0
 * or 1 for what the output must be, 2 for either; later bytes are not read. Assignment n gives input k + 1 the bit k of n, so that input
 * 1 is the lowest bit. found becomes 1 and the assignment, or 0 and 0 exactly if no assignment gives the pattern. Needs
 * REDUCER_EVALUATE_SCRATCH(nodes) words of scratch. Refusals: 3, 4 (tables, locks, or fewer wanted bytes than outputs), 5, 13, 17, 18,
 * 8.
 */
uint32_t reducer_assignment(uint32_t inputs, uint32_t nodes, uint32_t outputs,
                            const uint32_t *node_table, size_t node_table_length,
                            const uint64_t *node_bits, size_t node_bits_length,
                            const uint32_t *output_table, size_t output_table_length,
                            const uint64_t *output_bits, size_t output_bits_length,
                            const uint8_t *locks, size_t locks_length,
                            const uint8_t *wanted, size_t wanted_length,
                            uint64_t *scratch, size_t scratch_length,
                            uint32_t found[2]);

/*
 * How many edges are complemented, those from the constant among them: the number of ones in the words of bits of both tables.
 * Refusals: 3, 4, 5, 13.
 */
uint32_t reducer_count(uint32_t inputs, uint32_t nodes, uint32_t outputs,
                       const uint32_t *node_table, size_t node_table_length,
                       const uint64_t *node_bits, size_t node_bits_length,
                       const uint32_t *output_table, size_t output_table_length,
                       const uint64_t *output_bits, size_t output_bits_length,
                       const uint8_t *locks, size_t locks_length,
                       uint32_t *count);

/* Makes the best move of one node, given by its index. Refusals: 3, 4, 5, 13, 7. */
uint32_t reducer_node(uint32_t inputs, uint32_t nodes, uint32_t outputs,
                      const uint32_t *node_table, size_t node_table_length,
                      uint64_t *node_bits, size_t node_bits_length,
                      const uint32_t *output_table, size_t output_table_length,
                      uint64_t *output_bits, size_t output_bits_length,
                      const uint8_t *locks, size_t locks_length,
                      uint32_t node,
                      int64_t saving[2]);

/*
 * Makes the best moves of a node and of the node that its word 1, 2 or 3 names; a word that names no node changes nothing and
 * saves nothing. Refusals: 3, 4, 5, 13, 7.
 */
uint32_t reducer_pair(uint32_t inputs, uint32_t nodes, uint32_t outputs,
                      const uint32_t *node_table, size_t node_table_length,
                      uint64_t *node_bits, size_t node_bits_length,
                      const uint32_t *output_table, size_t output_table_length,
                      uint64_t *output_bits, size_t output_bits_length,
                      const uint8_t *locks, size_t locks_length,
                      uint32_t node, uint32_t word,
                      int64_t saving[2]);

/*
 * What two moves would save, with nothing changed: named_move at the node that word 1, 2 or 3 of a node names, and node_move at
 * the node. gain is the number of complemented edges before less that after, below 0 where there would be more; 0 for a word that
 * names no node, and then named_move is not looked at. Refusals: 3, 4, 5, 13, 7, 15, 16, those of named_move before those of
 * node_move.
 */
uint32_t reducer_trial(uint32_t inputs, uint32_t nodes, uint32_t outputs,
                       const uint32_t *node_table, size_t node_table_length,
                       const uint64_t *node_bits, size_t node_bits_length,
                       const uint32_t *output_table, size_t output_table_length,
                       const uint64_t *output_bits, size_t output_bits_length,
                       const uint8_t *locks, size_t locks_length,
                       uint32_t node, uint32_t word,
                       uint32_t named_move, uint32_t node_move,
                       int64_t *gain);

/*
 * Makes the best moves of the tree of a root: a node with other than one reader, or with one that is an output. Refusals: 3,
 * 4, 5, 13, 7, 8.
 */
uint32_t reducer_tree(uint32_t inputs, uint32_t nodes, uint32_t outputs,
                      const uint32_t *node_table, size_t node_table_length,
                      uint64_t *node_bits, size_t node_bits_length,
                      const uint32_t *output_table, size_t output_table_length,
                      uint64_t *output_bits, size_t output_bits_length,
                      const uint8_t *locks, size_t locks_length,
                      uint32_t root,
                      uint32_t *scratch, size_t scratch_length,
                      int64_t saving[2]);

/*
 * Tells what reducer_tree would do at a root, and does none of it: both tables are only read. saving is what reducer_tree would
 * answer. moves has a byte a node: byte v becomes the move that node I + 1 + v has in that call, and 0 outside the root's tree and
 * at locked nodes; later bytes are left. Needs REDUCER_TREE_SCRATCH(nodes) words of scratch. Refusals: 3, 4 (tables, locks, or
 * fewer bytes than nodes), 5, 13, 7, 8; a refused call has changed nothing, scratch included.
 */
uint32_t reducer_preview(uint32_t inputs, uint32_t nodes, uint32_t outputs,
                         const uint32_t *node_table, size_t node_table_length,
                         const uint64_t *node_bits, size_t node_bits_length,
                         const uint32_t *output_table, size_t output_table_length,
                         const uint64_t *output_bits, size_t output_bits_length,
                         const uint8_t *locks, size_t locks_length,
                         uint32_t root,
                         uint8_t *moves, size_t moves_length,
                         uint32_t *scratch, size_t scratch_length,
                         int64_t saving[2]);

/*
 * Makes the moves of the tree of a root after which most majorities of the tree have just one complemented input, as memories of
 * resistive cells want them. Inputs are a majority's three words, those from the constant among them; XORs do not count. The
 * root takes only moves that leave its readers unturned: move 0, and an XOR's move 1. Of moves with equally many such majorities those
 * with fewer complemented edges are made, of these the first in reducer_tree's order. saving[0] may be below 0, and saving[1] is
 * always 0. Needs REDUCER_TREE_SCRATCH(nodes) words of scratch. Refusals: 3, 4, 5, 13, 7, 8.
 */
uint32_t reducer_resistive(uint32_t inputs, uint32_t nodes, uint32_t outputs,
                           const uint32_t *node_table, size_t node_table_length,
                           uint64_t *node_bits, size_t node_bits_length,
                           const uint32_t *output_table, size_t output_table_length,
                           uint64_t *output_bits, size_t output_bits_length,
                           const uint8_t *locks, size_t locks_length,
                           uint32_t root,
                           uint32_t *scratch, size_t scratch_length,
                           int64_t saving[2]);

/*
 * Makes rounds of all tree, node and pair calls until one saves nothing. figures are the rounds made, that last one included,
 * and the complemented edges before and after. savings are the sums over all calls of all rounds: of what each saved among the
 * words of the nodes that it names, and of what it saved among all other edges. Refusals: 3, 4, 5, 13, 8.
 */
uint32_t reducer_settle(uint32_t inputs, uint32_t nodes, uint32_t outputs,
                        const uint32_t *node_table, size_t node_table_length,
                        uint64_t *node_bits, size_t node_bits_length,
                        const uint32_t *output_table, size_t output_table_length,
                        uint64_t *output_bits, size_t output_bits_length,
                        const uint8_t *locks, size_t locks_length,
                        uint32_t *scratch, size_t scratch_length,
                        uint32_t figures[3],
                        int64_t savings[2]);

/*
 * Settles a graph just as reducer_settle does, and enters its figures into the record of a class. That is book,
 * REDUCER_CLASS_WORDS words, all of them 0 before the first graph; what they hold is this call's own, and reducer_class_figures tells
 * it. A refused graph is not entered. Refused by 3, before any other check, are a book that counts REDUCER_MOST_GRAPHS graphs or more
 * and one with a word of 2 to the 40th or above; of a book that is too short the words that are there are looked at. Needs
 * REDUCER_SETTLE_SCRATCH(nodes) words of scratch. Refusals: 3 (book), 3, 4 (tables, locks, then book), 5, 13, 8.
 */
uint32_t reducer_class(uint32_t inputs, uint32_t nodes, uint32_t outputs,
                       const uint32_t *node_table, size_t node_table_length,
                       uint64_t *node_bits, size_t node_bits_length,
                       const uint32_t *output_table, size_t output_table_length,
                       uint64_t *output_bits, size_t output_bits_length,
                       const uint8_t *locks, size_t locks_length,
                       uint32_t *scratch, size_t scratch_length,
                       uint64_t *book, size_t book_length,
                       uint32_t figures[3],
                       int64_t savings[2]);

/*
 * What the record of a class tells: where latest is 0 of all graphs that were entered, else of the latest 16, or of all while they are
 * fewer. figures are how many graphs these are, the sums of their complemented edges before and after settling and of the rounds, and
 * their cells before and after, at 13 an inverter, 5 a majority and 12 an XOR. improvement is by how much the complemented edges
 * fell, and how many there were before. If all words of the book were 0 and only reducer_class has written it, these are what is
 * worked out afresh from the graphs. Refusals: 3 (a book that counts more than REDUCER_MOST_GRAPHS graphs, or has a word of 2 to the
 * 40th or above), 4.
 */
uint32_t reducer_class_figures(const uint64_t *book, size_t book_length,
                               uint32_t latest,
                               uint64_t figures[6],
                               int64_t improvement[2]);

/*
 * Makes many moves together, all of them or none: at node list[k] the move moves[k]. The list has indices of nodes, each above
 * the one before. A majority's move 1 turns its three words and every reader, an XOR's move 1 both words, its move 2 word 1 and
 * every reader, its move 3 word 2 and every reader; move 0 turns nothing, and an edge that two moves turn ends as it was. The graph
 * is the one that the moves give one by one, in every order. A locked node may stand in the list with move 0. The bytes that
 * reducer_preview tells, with all nodes as the list, make the moves of reducer_tree. moves may be longer than the list: the rest is
 * not read. saving is the number of complemented edges before less that after, below 0 where there are more. No scratch is needed,
 * but 13 KB of stack. Refusals: 3, 4 (tables, locks, or fewer moves than entries of the list), 5, 13, then entry by entry 7, 14, 15, 16.
 */
uint32_t reducer_many(uint32_t inputs, uint32_t nodes, uint32_t outputs,
                      const uint32_t *node_table, size_t node_table_length,
                      uint64_t *node_bits, size_t node_bits_length,
                      const uint32_t *output_table, size_t output_table_length,
                      uint64_t *output_bits, size_t output_bits_length,
                      const uint8_t *locks, size_t locks_length,
                      const uint32_t *list, size_t list_length,
                      const uint8_t *moves, size_t moves_length,
                      int64_t *saving);

/*
 * Tells the moves that lead from a graph to a second one, which is only read as the first is; both may be the same slices. Where
 * there are such moves, difference[0] is REDUCER_MOVES_LEAD and byte v of moves becomes the move of node I + 1 + v; there is only one
 * choice of moves that leads there, and reducer_many makes it where no locked node moves. Else difference says what differs first:
 * sizes, then indices of both tables, the node table first, then bits in the same order; and moves is left. Later bytes of moves are
 * left in any case. Locks are tested and no more: a locked node's move is told like any. Refusals: 3, 4 (tables, locks, then fewer
 * bytes than nodes) of the first graph, 3, 4 (tables, locks) of the second, then 5, 13 of the first and 5, 13 of the second.
 */
uint32_t reducer_compare(uint32_t inputs, uint32_t nodes, uint32_t outputs,
                         const uint32_t *node_table, size_t node_table_length,
                         const uint64_t *node_bits, size_t node_bits_length,
                         const uint32_t *output_table, size_t output_table_length,
                         const uint64_t *output_bits, size_t output_bits_length,
                         const uint8_t *locks, size_t locks_length,
                         uint32_t second_inputs, uint32_t second_nodes, uint32_t second_outputs,
                         const uint32_t *second_node_table, size_t second_node_table_length,
                         const uint64_t *second_node_bits, size_t second_node_bits_length,
                         const uint32_t *second_output_table, size_t second_output_table_length,
                         const uint64_t *second_output_bits, size_t second_output_bits_length,
                         const uint8_t *second_locks, size_t second_locks_length,
                         uint8_t *moves, size_t moves_length,
                         uint32_t difference[2]);

/*
 * Makes a node one majority of three lower indices, where its value is one's. first, second and third rise, from above 0 to below
 * node, and are taken as free variables; a node among them is free even if only the constant lies below it. If some way from the
 * node down to an input misses all three, answer is REDUCER_NOT_COVERED; a way to the constant is covered. Else, if the node's value
 * over them is that of a majority with words complemented somehow, its words become the three by rising index, complemented as
 * needed, and answer is REDUCER_MADE; else it is REDUCER_NOT_MAJORITY. Every index keeps its value. Needs
 * REDUCER_TREE_SCRATCH(nodes) words of scratch. Refusals: 3, 4, 5, 13, 7 (node, then triple), 16, 8.
 */
uint32_t reducer_majority(uint32_t inputs, uint32_t nodes, uint32_t outputs,
                          uint32_t *node_table, size_t node_table_length,
                          uint64_t *node_bits, size_t node_bits_length,
                          const uint32_t *output_table, size_t output_table_length,
                          const uint64_t *output_bits, size_t output_bits_length,
                          const uint8_t *locks, size_t locks_length,
                          uint32_t node, uint32_t first, uint32_t second, uint32_t third,
                          uint32_t *scratch, size_t scratch_length,
                          uint32_t *answer);

/*
 * Finds hidden majorities, such as reducer_import leaves. Each free node by rising index is tried as by reducer_majority, on the
 * graph as it then is, with every three indices other than 0 that at most three words lead down to from it, the lowest being
 * compared first, up to the first that it is made a majority of; a majority whose words name three different indices other than 0
 * is passed over. Then free nodes that nothing reads are dropped until none is left, and the others renumbered in order with their
 * locks. nodes_after is the number of nodes that are left, N for every later call: at most that given. The node words and lock bytes
 * that are freed become 0, index and bit; what lies past the graph as it was lent stays. Every output keeps its value. Needs
 * REDUCER_TREE_SCRATCH(nodes) words of scratch. Refusals: 3, 4, 5, 13, 8.
 */
uint32_t reducer_find(uint32_t inputs, uint32_t nodes, uint32_t outputs,
                      uint32_t *node_table, size_t node_table_length,
                      uint64_t *node_bits, size_t node_bits_length,
                      uint32_t *output_table, size_t output_table_length,
                      uint64_t *output_bits, size_t output_bits_length,
                      uint8_t *locks, size_t locks_length,
                      uint32_t *scratch, size_t scratch_length,
                      uint32_t *nodes_after);

/*
 * Loads a tagged file and makes a list of calls on the loaded graph and locks, each on what the one before left. A call is three
 * words: its kind, a node's index and a word, of which those that the kind does not want are not looked at. The two words of
 * REDUCER_MANY_CALL are a start and a count instead: its list are so many entries of list from the start on, and its moves those at
 * the same places of moves, as far as there are any; the call itself is refused by 4 where these are too few. Those of
 * REDUCER_MAJORITY_CALL are a node and a start: its triple are three entries of list from the start on.
 *
 * A call's answer is three words at the front of answers: the number that its own function would return, and both numbers of its
 * saving, for settling those of its savings, for many moves their saving and 0, for a majority call its answer and 0, and for the
 * finder the number of nodes after it and 0; a refused call saves nothing, changes nothing, and the list goes on. Each call gets the
 * number of nodes that the one before left. All calls are lent the same scratch. numbers are I, N and O of the graph that the list
 * leaves. Refusals: 101, then call by call 102 and 105,
 * then 4 (fewer than three words of answers a call), then those of reducer_load; then no call is made.
 */
uint32_t reducer_replay(const uint8_t *file, size_t file_length,
                        const uint32_t *calls, size_t calls_length,
                        uint32_t *node_table, size_t node_table_length,
                        uint64_t *node_bits, size_t node_bits_length,
                        uint32_t *output_table, size_t output_table_length,
                        uint64_t *output_bits, size_t output_bits_length,
                        uint8_t *locks, size_t locks_length,
                        const uint32_t *list, size_t list_length,
                        const uint8_t *moves, size_t moves_length,
                        uint32_t *scratch, size_t scratch_length,
                        int64_t *answers, size_t answers_length,
                        uint32_t numbers[3]);

#ifdef __cplusplus
}
#endif

#endif
