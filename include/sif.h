/*
 * The calls of the sif script reader's library, libsif_c.a or libsif_c.so.
 *
 * Who owns what: the caller owns everything. A call allocates nothing and keeps nothing: it works in the
 * memory that it is lent, keeps no pointer to it and has no state of its own, so that any number of
 * threads may call at once, each with memory of its own. What a call writes stays with the caller. The
 * script is only read. The memory of its arguments must not overlap. An array of length 0 may have any
 * pointer that is not null.
 */
#ifndef SIF_H
#define SIF_H

#include <stddef.h>
#include <stdint.h>

#ifdef __cplusplus
extern "C" {
#endif

/* The longest script that is read, in bytes. */
#define SIF_MAX_SCRIPT 65535

/*
 * Elements that are enough for any script of n bytes: of offs, words, heads and loads; of symbols; of
 * places and reasons; of text. With them the refusals 4, 7, 8, 9 and 11 cannot occur.
 */
#define SIF_TOKENS_ROOM(n) ((size_t)(n) + 1)
#define SIF_NODES_ROOM(n) ((size_t)(n) + 1)
#define SIF_SYMBOLS_ROOM(n) (2 * (size_t)(n))
#define SIF_ERRORS_ROOM(n) ((size_t)(n))
#define SIF_TEXT_ROOM(n) (4 * (size_t)(n))

/*
 * The most of the parser's counted calls (SIF_TOO_DEEP) that are active at once while n bytes are read,
 * whatever they are and whatever is lent. This is proved, and up to 255 bytes n opening parentheses reach
 * it (sif_deepest); from 256 bytes on refusal 6 keeps it at 768. An integrator sizes a stack by it:
 * docs/HOSTS.md has the bytes of stack for each of these calls.
 */
#define SIF_DEPTH(n) ((size_t)(n) > 255 ? (size_t)768 : 3 * (size_t)(n) + 3)

/*
 * The refusals. Of 1 to 4 the least that holds is answered; of 5 to 9 the one that the reading meets
 * first; 10 and 11 come last, in this order. sif_tokens answers 0 to 5, sif_reading 0 to 9, sif_text 0
 * to 11, sif_value 0 or 12. 20 is of sif_deepest alone.
 */
enum {
    /* No refusal: the script was lexed or read, or its text was written. */
    SIF_NONE = 0,
    /* The script has more than 65,535 bytes. */
    SIF_LONG_SCRIPT = 1,
    /* The script has a byte of 128 or more; *offset is the first one's. */
    SIF_NOT_ASCII = 2,
    /* Two parallel arrays differ in length: offs and words, heads and loads, or places and reasons. */
    SIF_UNEVEN = 3,
    /* The script has more tokens than the arrays hold; Eof or a fault counts as one. */
    SIF_TOKENS_FULL = 4,
    /*
     * A fault, at which the Rust of sif panics. *kind is 1 for `//` with no newline before the script's
     * end, and 2 for a number with a point that runs to the script's end; *offset is that of the `//`
     * or the number. sif_reading knows three more: 3 for `(` after anything but a name or a string, 4
     * for `.` and 5 for `[` after anything but a single token; *offset is that of this sign.
     */
    SIF_SOURCE_FAULT = 5,
    /* The script nests too deeply: more than 768 nested calls of the parser's recursive parts. */
    SIF_TOO_DEEP = 6,
    /* The tree has more nodes than heads and loads hold. */
    SIF_NODES_FULL = 7,
    /* The script declares more names than the symbol words hold, four words each. */
    SIF_SYMBOLS_FULL = 8,
    /* The script has more errors than places and reasons hold. */
    SIF_ERRORS_FULL = 9,
    /* The script did not read without failure: its flag is up, and it has no canonical text. */
    SIF_FLAGGED = 10,
    /* The canonical text is longer than its buffer. */
    SIF_TEXT_FULL = 11,
    /* The bytes are no number literal of at most 19 digits. */
    SIF_NO_NUMBER = 12,
    /* No deepest script is given: for 0 bytes, for more than 255, or where the buffer is shorter. */
    SIF_NO_LENGTH = 20
};

/* The most digits of a number literal that has a value; leading zeros count. */
#define SIF_MAX_DIGITS 19

/* The kinds of fault, which refusal 5 comes with. */
enum {
    /* `//` with no newline before the script's end. */
    SIF_FAULT_COMMENT = 1,
    /* A number with a point that runs to the script's end. */
    SIF_FAULT_NUMBER = 2,
    /* `(` after anything but a name or a string. */
    SIF_FAULT_CALL = 3,
    /* `.` after anything but a single token. */
    SIF_FAULT_PERIOD = 4,
    /* `[` after anything but a single token. */
    SIF_FAULT_BRACKET = 5
};

/* The kinds of tokens, in the order of TokenTy in the Rust source of sif. */
enum {
    SIF_TOKEN_LEFT_PAREN = 1,
    SIF_TOKEN_RIGHT_PAREN = 2,
    SIF_TOKEN_LEFT_BRACE = 3,
    SIF_TOKEN_RIGHT_BRACE = 4,
    SIF_TOKEN_LEFT_BRACKET = 5,
    SIF_TOKEN_RIGHT_BRACKET = 6,
    SIF_TOKEN_SEMICOLON = 7,
    SIF_TOKEN_EQ = 8,
    SIF_TOKEN_LT = 9,
    SIF_TOKEN_GT = 10,
    SIF_TOKEN_PERIOD = 11,
    SIF_TOKEN_COMMA = 12,
    SIF_TOKEN_BANG = 13,
    SIF_TOKEN_PLUS = 14,
    SIF_TOKEN_MINUS = 15,
    SIF_TOKEN_STAR = 16,
    SIF_TOKEN_SLASH = 17,
    SIF_TOKEN_PERCENT = 18,
    SIF_TOKEN_AMP = 19,
    SIF_TOKEN_PIPE = 20,
    SIF_TOKEN_AT = 21,
    SIF_TOKEN_EQ_EQ = 22,
    SIF_TOKEN_LT_EQ = 23,
    SIF_TOKEN_GT_EQ = 24,
    SIF_TOKEN_EQ_ARROW = 25,
    SIF_TOKEN_BANG_EQ = 26,
    SIF_TOKEN_AMP_AMP = 27,
    SIF_TOKEN_PIPE_PIPE = 28,
    SIF_TOKEN_DOUBLE_LEFT_BRACKET = 29,
    SIF_TOKEN_DOUBLE_RIGHT_BRACKET = 30,
    /* A name. */
    SIF_TOKEN_IDENT = 31,
    /* A string; its length counts the two quotes. */
    SIF_TOKEN_STR = 32,
    /* A number. */
    SIF_TOKEN_VAL = 33,
    SIF_TOKEN_VAR = 34,
    SIF_TOKEN_FN = 35,
    SIF_TOKEN_RETURN = 36,
    SIF_TOKEN_TABLE = 37,
    SIF_TOKEN_ARRAY = 38,
    SIF_TOKEN_IF = 39,
    SIF_TOKEN_ELIF = 40,
    SIF_TOKEN_ELSE = 41,
    SIF_TOKEN_FOR = 42,
    SIF_TOKEN_IN = 43,
    SIF_TOKEN_TRUE = 44,
    SIF_TOKEN_FALSE = 45,
    /* No token has this kind. */
    SIF_TOKEN_STD = 46,
    SIF_TOKEN_EOF = 47,
    /* A fault of kind 1 or 2 that a reading did not come to; it ends the tokens. */
    SIF_TOKEN_FAULT = 48
};

/* The kinds of nodes, in the order of AstNode in the Rust source of sif. Behind each, its children. */
enum {
    SIF_NODE_PROGRAM = 1,          /* declarations */
    SIF_NODE_BLOCK = 2,            /* declarations; its payload is its scope */
    SIF_NODE_IF_STMT = 3,          /* condition, Block, then ElifStmt or Block (an else) in source order */
    SIF_NODE_ELIF_STMT = 4,        /* condition, Block */
    SIF_NODE_FOR_STMT = 5,         /* IdentPair, expression, Block */
    SIF_NODE_RETURN_STMT = 6,      /* none, or the expression */
    SIF_NODE_EXPR_STMT = 7,        /* the expression */
    SIF_NODE_VAR_DECL = 8,         /* none, or the value; the mark is is_global */
    SIF_NODE_FN_DECL = 9,          /* FnParams, Block */
    SIF_NODE_FN_PARAMS = 10,       /* PrimaryExpr each */
    SIF_NODE_IDENT_PAIR = 11,      /* two PrimaryExpr */
    SIF_NODE_ITEM_LIST = 12,       /* TableItem each */
    SIF_NODE_TABLE_ITEM = 13,      /* the value; the key is its token */
    SIF_NODE_TABLE = 14,           /* ItemList */
    SIF_NODE_TABLE_ACCESS = 15,    /* target, expression */
    SIF_NODE_ARRAY = 16,           /* none, or ArrayItems */
    SIF_NODE_ARRAY_ITEMS = 17,     /* expressions */
    SIF_NODE_ARRAY_ACCESS = 18,    /* target, index */
    SIF_NODE_ARRAY_MUT_EXPR = 19,  /* target, index, value */
    SIF_NODE_FN_CALL_EXPR = 20,    /* target, arguments; the mark is is_std */
    SIF_NODE_VAR_ASSIGN_EXPR = 21, /* target, value; its token is the declaration's; the mark is is_global */
    SIF_NODE_BINARY_EXPR = 22,     /* left, right; its token is the operator */
    SIF_NODE_UNARY_EXPR = 23,      /* the operand; its token is the operator */
    SIF_NODE_PRIMARY_EXPR = 24     /* none; its token is the literal or name */
};

/* The reasons of errors, in the order of ParseErrTy in the Rust source of sif. Behind each, what it carries. */
enum {
    SIF_ERROR_INVALID_IDENT = 1,         /* a token */
    SIF_ERROR_INVALID_TKN = 2,           /* a token, or the number of a message */
    SIF_ERROR_INVALID_ASSIGN = 3,        /* a token */
    SIF_ERROR_INVALID_FOR_STMT = 4,      /* nothing; no error has this reason */
    SIF_ERROR_INVALID_IF_STMT = 5,       /* nothing */
    SIF_ERROR_TKN_MISMATCH = 6,          /* the token that was found, and the kind that was expected */
    SIF_ERROR_FN_PARM_CNT_EXCEEDED = 7,  /* the most that there may be */
    SIF_ERROR_WRONG_FN_PARM_CNT = 8,     /* how many were expected, and how many were found */
    SIF_ERROR_UNDECL_SYM = 9,            /* a token */
    SIF_ERROR_UNASSIGNED_VAR = 10,       /* a token; no error has this reason */
    SIF_ERROR_EXPECTED_IDENT = 11        /* a token */
};

/* The messages that SIF_ERROR_INVALID_TKN carries in the place of a token. */
enum {
    SIF_MESSAGE_NONE = 0,
    /* Expected either `=` or `;`. */
    SIF_MESSAGE_EQ_OR_SEMICOLON = 1,
    /* Unexpected end of file. */
    SIF_MESSAGE_END_OF_FILE = 2,
    /* Expected a name. */
    SIF_MESSAGE_NAME = 3
};

/* The parts of a token's word, of a node's first word, and of the two words of an error. */
#define SIF_TOKEN_KIND(word) ((word) % 64)
#define SIF_TOKEN_LENGTH(word) ((word) / 64)
#define SIF_NODE_KIND(head) ((head) % 32)
#define SIF_NODE_MARK(head) ((head) / 32 % 2)
#define SIF_NODE_CHILDREN(head) ((head) / 64)
#define SIF_ERROR_LINE(place) ((place) / 65536 + 1)
#define SIF_ERROR_COLUMN(place) ((place) % 65536)
#define SIF_ERROR_NUMBER(reason) ((reason) % 16)
#define SIF_ERROR_FIRST(reason) ((reason) / 16 % 65536)
#define SIF_ERROR_SECOND(reason) ((reason) / 1048576)

/*
 * Lexes a script into two parallel arrays. Token i is offs[i], the offset of its first byte in the
 * script, and words[i], its kind + 64 * its length in bytes.
 *
 * The kinds are 1 to 47 (SIF_TOKEN_..). The length of a string counts its two quotes. The last token is
 * Eof, of length 0. Its offset is the script's length, also where a string is not closed; or that of the
 * first unknown character, where the tokens end. A script has at most script_len + 1 tokens.
 *
 *   script, script_len   the script's bytes; only read
 *   offs, offs_len       the first array, and how many elements it has
 *   words, words_len     the second array, and how many elements it has; offs_len, or refusal 3
 *   count                receives the number of tokens, Eof included; 0 with every refusal
 *   kind                 receives the kind of fault with refusal 5; 0 otherwise
 *   offset               receives an offset in the script with refusals 2 and 5; 0 otherwise
 *
 * count, kind and offset are always written. All elements past the tokens become 0. Refusals 1 to 3
 * leave both arrays as they were; refusals 4 and 5 set every element to 0.
 *
 * Answers the number of the refusal, or 0.
 */
uint32_t sif_tokens(const uint8_t *script, size_t script_len,
                    uint32_t *offs, size_t offs_len,
                    uint32_t *words, size_t words_len,
                    uint32_t *count, uint32_t *kind, uint32_t *offset);

/*
 * Reads a script into seven arrays. All of them belong to the caller, who lends them for the call; the
 * call keeps no pointer, and what it writes stays with the caller. They may be full of anything
 * beforehand.
 *
 *   script, script_len     the script's bytes; only read
 *   offs, words            the tokens, as sif_tokens writes them; script_len + 1 elements are enough. A
 *                          fault of kind 1 or 2 that the reading does not come to stands as a last token
 *                          of kind 48 and length 0
 *   heads, loads           the tree, children first: heads[i] is the kind + 32 * mark + 64 * the number
 *                          of children of node i, loads[i] its scope (Block), the index of its token, or
 *                          0. The kinds are 1 to 24 in the order of AstNode in the Rust source of sif,
 *                          from Program to PrimaryExpr; the mark is is_global or is_std. The last node is
 *                          the Program. There are at most as many nodes as tokens
 *   symbols                working memory, four words for each declared name; all 0 afterwards. 2 *
 *                          script_len words are enough
 *   places, reasons        the listed errors: places[i] is 65536 * (line - 1) + column of error i, and
 *                          reasons[i] is number + 16 * first + 1048576 * second. The number is 1 to 11
 *                          in the order of ParseErrTy. First is the index of the token or the count that
 *                          the reason carries, second the expected kind (6), the second count (8) or the
 *                          number of a fixed message (2), else 0. script_len elements are enough
 *
 * Every number below is always written; what it does not say is 0, and with a refusal all but kind and
 * offset are 0.
 *
 *   tokens, nodes, errors  receive how many there are
 *   flag                   receives 1 if the script did not read without failure (has_err), else 0
 *   early_line, early_pos, early_number
 *                          receive line (from 1), column (from 0) and reason number of the error that
 *                          ended the reading before the script's end: 6 TknMismatch or 7
 *                          FnParmCntExceeded; the number is 0 where none did
 *   early_offset           receives the offset in the script of the token that it carries (6)
 *   early_value            receives the kind that it expected (6), or its count (7)
 *   kind                   receives the kind of fault with refusal 5
 *   offset                 receives an offset in the script with refusals 2 and 5
 *
 * All elements past the used ones become 0. Refusals 1 to 3 leave all arrays as they were; refusals 4 to
 * 9 set every element to 0.
 *
 * The call recurses as the script nests, up to the limit of refusal 6. It takes at most about 2.4 MB of
 * stack (measured; docs/PERFORMANCE.md): a thread that calls it needs more than that. On short scripts it
 * takes less: SIF_DEPTH.
 *
 * Answers the number of the refusal, or 0.
 */
uint32_t sif_reading(const uint8_t *script, size_t script_len,
                     uint32_t *offs, size_t offs_len,
                     uint32_t *words, size_t words_len,
                     uint32_t *heads, size_t heads_len,
                     uint32_t *loads, size_t loads_len,
                     uint32_t *symbols, size_t symbols_len,
                     uint32_t *places, size_t places_len,
                     uint32_t *reasons, size_t reasons_len,
                     size_t *tokens, size_t *nodes, size_t *errors, uint32_t *flag,
                     size_t *early_line, size_t *early_pos, uint32_t *early_number,
                     size_t *early_offset, size_t *early_value,
                     uint32_t *kind, size_t *offset);

/*
 * Reads a script and writes its canonical text: the same bytes for all scripts that have the same tree,
 * and others for all that have another. The tokens stand with one space between them and a newline after
 * each top-level declaration; there are no comments, no `@`, no trailing commas, and no parentheses but
 * those that the tree needs. Numbers and strings are written as in the script. A script without
 * declarations has no bytes. The text is itself a script that is read with the flag down to the same tree,
 * and its canonical text is itself, unless it is too long or nests too deeply to be read.
 *
 *   script, script_len     the script's bytes; only read
 *   offs, words, heads, loads, symbols, places, reasons
 *                          the arrays of sif_reading. They hold afterwards what it would leave there
 *   text, text_len         the buffer for the text, and how many bytes it has; it may be full of anything
 *                          beforehand. The text stands at its front, and all bytes behind it become 0.
 *                          4 * script_len bytes are enough
 *
 *   count                  receives the number of bytes of the text; 0 with every refusal
 *   kind                   receives the kind of fault with refusal 5; 0 otherwise
 *   offset                 receives an offset in the script with refusals 2 and 5; 0 otherwise
 *
 * count, kind and offset are always written. Refusals 1 to 3 leave all arrays and the text as they were;
 * refusals 4 to 11 set every element of the arrays and every byte of the text to 0.
 *
 * The call takes as much stack as sif_reading takes on the script, or as writing its text takes, which
 * recurses as the script nests.
 *
 * Answers the number of the refusal, or 0.
 */
uint32_t sif_text(const uint8_t *script, size_t script_len,
                  uint32_t *offs, size_t offs_len,
                  uint32_t *words, size_t words_len,
                  uint32_t *heads, size_t heads_len,
                  uint32_t *loads, size_t loads_len,
                  uint32_t *symbols, size_t symbols_len,
                  uint32_t *places, size_t places_len,
                  uint32_t *reasons, size_t reasons_len,
                  uint8_t *text, size_t text_len,
                  size_t *count, uint32_t *kind, size_t *offset);

/*
 * Gives a script of n bytes in whose reading as many of the parser's counted calls (SIF_TOO_DEEP) are active
 * at once as in any script of n bytes, and their number: n opening parentheses, and SIF_DEPTH(n). With it
 * an integrator tries a stack, or measures what it takes.
 *
 *   n                      the length, from 1 to 255
 *   script, script_len     the buffer for the script, and how many bytes it has; it may be full of anything
 *                          beforehand. The script stands at its front, and all bytes behind it become 0
 *   depth                  receives the number of calls; 0 with refusal 20. It is always written
 *
 * Refusal 20 leaves the buffer as it was. The call takes little stack.
 *
 * Answers the number of the refusal, or 0.
 */
uint32_t sif_deepest(size_t n, uint8_t *script, size_t script_len, size_t *depth);

/*
 * The value of a number literal: its digits as a whole number, over ten to the power of how many of them
 * stand behind the point, rounded to the nearest double, ties to even, as IEEE 754 says.
 *
 *   literal, literal_len   the literal's bytes; only read. One or more digits, with at most one point
 *                          behind the first of them (`5`, `5.`, `0.25`), and at most 19 digits in all,
 *                          leading zeros counted. A token of kind SIF_TOKEN_VAL is one, unless it has
 *                          more digits. No byte behind the twentieth digit is looked at
 *   value                  receives the value; +0 with refusal 12. It is always written
 *
 * The value is 0 or lies between 1e-18 and 1e19. The call takes little stack.
 *
 * Answers 0, or 12 for anything else than such a literal.
 */
uint32_t sif_value(const uint8_t *literal, size_t literal_len, double *value);

#ifdef __cplusplus
}
#endif

#endif
