/* Nurqeshil: a verified reader for IronPLC bytecode containers, as a static library.
 *
 *     (cd crates/capi && rt lib)  builds crates/capi/out/libcapi.a
 *     cc -I include main.c crates/capi/out/libcapi.a
 *
 * The library keeps nothing between calls. No function has a precondition on the bytes: every file gets an answer or a refusal.
 * Pointers must not be null, even where a length or room is 0. A lent buffer (`out`, `digest`) must not overlap anything that is
 * read, nor another lent buffer.
 *
 * A file of more than 65,536 bytes is refused with CONTAINER_TOO_LONG; a buffer of 65,537 bytes is enough to detect one.
 *
 * What a call costs. container_load, container_ask, container_line, container_content_hash and container_list read the whole file at
 * every call, and hash it if it carries a content hash or a debug hash. container_lookup reads only the section that it looks in: load
 * a file once, and look up over the numbers of its record.
 *
 * Answers in numbers. A function that answers in numbers writes them at the start of `out`: 0 and the answer's numbers, or a refusal's
 * number and its values. It returns their count; the numbers behind them are left as they were. `room` counts numbers; if it is below
 * CONTAINER_ROOM, nothing is written and 0 is returned.
 */
#ifndef NURQESHIL_H
#define NURQESHIL_H

#include <stddef.h>
#include <stdint.h>

#ifdef __cplusplus
extern "C" {
#endif

#define CONTAINER_ROOM 64    /* numbers that `out` must have room for */
#define CONTAINER_LOADED 62  /* numbers of a file that loads; later versions may write more behind them */
#define CONTAINER_RECORD 44  /* the first of them, which stand for the file's record in container_lookup */
#define CONTAINER_DIGEST 32  /* bytes of a hash */

/* The refusals, with the values behind their numbers. README.md says what each means. */
enum container_refusal {
    CONTAINER_SHORT_INPUT = 1,
    CONTAINER_INVALID_MAGIC = 2,
    CONTAINER_UNSUPPORTED_VERSION = 3,
    CONTAINER_SECTION_SIZE_MISMATCH = 4,
    CONTAINER_CONTENT_HASH_MISMATCH = 5,
    CONTAINER_INVALID_TASK_TYPE = 6,       /* the type */
    CONTAINER_INVALID_FIELD_TYPE = 7,      /* the type */
    CONTAINER_INVALID_ARRAY_STRIDE = 8,    /* the element's type, the stride */
    CONTAINER_INVALID_CONSTANT_TYPE = 9,   /* the type */
    CONTAINER_TOO_LONG = 10,
    CONTAINER_INVALID_CONSTANT_INDEX = 11, /* the index */
    CONTAINER_NO_FUNCTION = 12,
    CONTAINER_NO_LINE = 13,
    CONTAINER_UNSORTED_MAP = 14,
    CONTAINER_NO_DEBUG = 15,
    CONTAINER_NO_ARRAY = 16,
    CONTAINER_SIZE_OVERFLOW = 17,
    CONTAINER_NO_ENTRY = 29
};

/* Loads a file. After the 0 come, with their places in `out`:
 *   1 to 3    version, profile, flags
 *   4 to 17   offset and size of signature, debug signature, types, tasks, constants, code, debug
 *   18 to 28  maximum stack depth, maximum call depth, variables, data region bytes, temporary buffers, bytes of the largest of them,
 *             functions, FB types, input, output and memory image bytes
 *   29 to 31  count of tasks, count of programs, shared globals size
 *   32        1 if there are types, else 0;  33 to 35  counts of FB types, arrays, user FBs, 0 without types
 *   36        count of constants
 *   37        1 if there is debug, else 0;  38 to 43  counts of lines, variables, functions, strings, files, enumerations, 0 without
 *             debug
 *   44 to 61  which debug table is in force: three numbers for each of lines (tag 1), variables (2), functions (3), strings (4),
 *             files (6), enumerations (9): 1 if a row of the debug section's directory has the tag, else 0; the number of the
 *             last such row, the directory's first row being 0; how many earlier rows of the tag it replaced. 0 0 0 with no such
 *             row, and without debug
 * The first CONTAINER_RECORD numbers, the 0 included, stand for the file's record in container_lookup. They are all that earlier versions
 * wrote, with CONTAINER_LOADED 44: a program built with that keeps working, unless it tests the returned count for 44. */
size_t container_load(const uint8_t *file, size_t length, uint64_t *out, size_t room);

/* The kinds of lookup, with the answer's numbers. Each takes `index`; those with a pair in parentheses also take `second`.
 * A part is two numbers: its place in the file and its length. Where bytes are given as one number, the first is the lowest. */
enum container_kind {
    CONTAINER_TASK = 0,               /* id, priority, type, flags, interval, single variable, watchdog, input and output image
                                         offset, the 4 reserved bytes as one number */
    CONTAINER_PROGRAM = 1,            /* instance, task, entry function, variable offset and count, FB instance offset and count,
                                         init function */
    CONTAINER_FB_TYPE = 2,            /* id, field count */
    CONTAINER_FIELD = 3,              /* (FB type, field): type, extra */
    CONTAINER_ARRAY = 4,              /* type, elements, extra, stride */
    CONTAINER_ARRAY_SIZE = 5,         /* bytes */
    CONTAINER_USER_FB = 6,            /* type id, function, variable offset, fields */
    CONTAINER_CONSTANT = 7,           /* type; for types 0 to 5 the eight kept bytes as one number, for 6 and 7 a part */
    CONTAINER_GET_I32 = 8,            /* the value as 64 bits of two's complement: cast it to int64_t */
    CONTAINER_GET_U32 = 9,            /* the value */
    CONTAINER_GET_I64 = 10,           /* the value, to be cast to int64_t */
    CONTAINER_GET_U64 = 11,           /* the value */
    CONTAINER_GET_F32 = 12,           /* the bits */
    CONTAINER_GET_F64 = 13,           /* the bits */
    CONTAINER_GET_STR = 14,           /* a part */
    CONTAINER_CHAR_WIDTH = 15,        /* 1 or 2 */
    CONTAINER_FUNCTION = 16,          /* the stored id, offset, length, stack, locals, parameters */
    CONTAINER_BYTECODE = 17,          /* a part */
    CONTAINER_LINE = 18,              /* (function, offset in its bytecode): function, offset, file, line, column */
    CONTAINER_LINE_ENTRY = 19,        /* the same for an entry of the line map */
    CONTAINER_VARIABLE = 20,          /* index, function, section, type, the name's part, the type name's part */
    CONTAINER_FUNCTION_NAME = 21,     /* id, the name's part */
    CONTAINER_STRING_LAYOUT = 22,     /* variable, data offset, length */
    CONTAINER_SOURCE_FILE = 23,       /* the path's part, the 32 bytes of its hash as four numbers */
    CONTAINER_ENUMERATION = 24,       /* the name's part, value count */
    CONTAINER_ENUMERATION_VALUE = 25  /* (enumeration, value): the name's part */
};

/* Looks up over a file and the record of a file: `record` is what container_load wrote, its first 0 included, and `numbers` is its
 * length; `out` must not be the same buffer. Only the first CONTAINER_RECORD numbers count. The record is not trusted: it may be made
 * up, or be that of another file. The lookup reads its section again, in `file`, at the record's place, size and function count. Over
 * the record of the file itself it answers what container_ask answers. Hashes are not checked again.
 *
 * The numbers stand for no record if there are fewer than CONTAINER_RECORD, the first is not 0, a number does not fit its
 * header field or a 16-bit count, a flag (types, debug) is neither 0 nor 1, or a count beside a flag 0 is not 0. Then, and
 * for an unknown kind, nothing is written and 0 is returned.
 *
 * Kind, index and second have 16 bits: the C compiler cuts a larger number to its low 16 bits, usually without a warning, and another
 * entry is looked up. Test first that it is at most 65,535. */
size_t container_lookup(const uint8_t *file, size_t length, const uint64_t *record, size_t numbers, uint16_t kind, uint16_t index,
                        uint16_t second, uint64_t *out, size_t room);

/* Loads a file and looks up in it, in one call; for a file that does not load the answer is its refusal. For an unknown kind in a
 * file that loads nothing is written and 0 is returned. Kind, index and second as in container_lookup. */
size_t container_ask(const uint8_t *file, size_t length, uint16_t kind, uint16_t index, uint16_t second, uint64_t *out, size_t room);

/* The same as container_ask of CONTAINER_LINE, with a function and an offset of 16 bits. */
size_t container_line(const uint8_t *file, size_t length, uint16_t function, uint16_t offset, uint64_t *out, size_t room);

/* The content hash in the header of a file that loads; 32 zeros mean that the file is not hashed and nothing was checked. `out` then
 * starts with 0, or with a refusal's number and its values, and the function returns the count of these numbers (1, 2 or 3). With 0
 * the hash is in the first 32 bytes of `digest`, and the bytes behind them are left as they were; after a refusal all of `digest` is
 * as it was. If `digest_length`, in bytes, is below CONTAINER_DIGEST or `room` below CONTAINER_ROOM, nothing is written and 0 is
 * returned. */
size_t container_content_hash(const uint8_t *file, size_t length, uint8_t *digest, size_t digest_length, uint64_t *out, size_t room);

/* BLAKE3 of any bytes, in the same way; CONTAINER_TOO_LONG if there are more than 261,376. */
size_t container_hash(const uint8_t *bytes, size_t length, uint8_t *digest, size_t digest_length, uint64_t *out, size_t room);

/* Lists a file, as the lister does: the text is written at the start of `out`, and its length is returned; the rest is left as it
 * was. `room` counts bytes. If the text does not fit, 0 is returned, and `out` may hold anything. 26 bytes for each byte of the file
 * and 300 more are always enough. */
size_t container_list(const uint8_t *file, size_t length, uint8_t *out, size_t room);

#ifdef __cplusplus
}
#endif

#endif
