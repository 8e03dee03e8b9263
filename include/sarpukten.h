/* Sarpukten: Git's tree objects and commit headers, read and written. The library is libsarpukten.a, for x86-64 Linux.
 *
 *     struct sarpukten_entry entries[64];
 *     size_t answer[SARPUKTEN_LENGTH_COUNT];
 *     if (sarpukten_read_tree_strict_entries(object, len, SARPUKTEN_SHA1, SARPUKTEN_RULES_PRESENT, entries, 64, answer) != SARPUKTEN_DONE)
 *         ... refused: answer[SARPUKTEN_ANSWER_NUMBER] says why, answer[SARPUKTEN_ANSWER_PLACE] where
 *     ... answer[SARPUKTEN_ANSWER_COUNT] entries were read
 *
 * docs/FORMAT.md says what is read, refused and written. crates/sarpukten/src/lib.rt has the same calls with their contracts, which are
 * proved: each result, and each array and buffer afterwards, is a stated function of what was passed, whatever was passed.
 *
 * What holds for all calls
 *   - A call's answer stands in `answer`, an array of fixed length that the caller lends. It is written in full, refused or not.
 *   - It begins with number, place and part ("Answers"). The number is returned too: 0 is done, any other is a refusal. No refusal is
 *     below 0.
 *   - Nothing else that is lent is changed by a refusal, and past what a call says it writes, nothing is changed at all.
 *   - Bytes and lists are pointer and length. The length of a list is in NUMBERS, a record being several ("Records"); the functions at the
 *     end ("Records as structs") take lists of structs instead, and count records. Numbers at the end of a list that are too few for a
 *     record are no record.
 *   - The library keeps nothing between calls, allocates nothing and prints nothing. It needs memcpy and memset from whoever links it, and
 *     calls nothing else. Any thread may call it.
 *   - A strict read keeps marks on the stack, numbers of 4 bytes: 64 where the object has at most 2,079 bytes, 512 where it has at most
 *     131,072, 4,096 where it has at most 8,388,608, else 46,341. The last two are in functions of their own, so that an object of at most
 *     131,072 bytes takes less than 3 KB of stack, one of at most 8 MiB less than 20 KB, and only a longer one some 190 KB.
 *     A plain read keeps the lengths of the first 2,040 names there, a byte each, and takes less than 3 KB; of an object of more than 8 MiB
 *     it keeps those of the first 131,072, in a function of its own, and takes some 134 KB. sarpukten_bisect_entries keeps 192 numbers of
 *     its own. Like every other call it takes less than 2 KB.
 *   - sarpukten_check_bundle and sarpukten_follow_path take less than 6 KB of stack, and 4 MiB more where a bundle has more than 1,024 objects
 *     and their ids do not ascend: the places of the ids are then sorted in an array of 1,048,576 numbers of 4 bytes, in a function of its
 *     own, so that no other bundle takes it. Each component of a path takes some 300 bytes more, 64 of them less than 20 KB.
 *   - sarpukten_compare_trees takes less than 10 KB of stack, some 900 bytes more for each level of folders, 32 of them less than 40 KB in all;
 *     the marks of a strict read on top of that where a tree has more than 131,072 bytes; and 4 MiB more, for an index, where a bundle has more
 *     than 1,024 objects, whether or not their ids ascend.
 *
 * What a hypervisor, or whoever has no operating system below, has to know
 *   - The code is for x86-64 in 64-bit mode with SSE2, whose registers (xmm) it uses, and with no later extension: no AVX, no x87. Whoever
 *     interrupts a call saves them.
 *   - It uses the red zone, the 128 bytes below the stack pointer: an interrupt handler needs a stack of its own (an IST entry), or interrupts
 *     are off during a call.
 *   - It makes no system call, has no thread-local storage, no writable data and no start-up code, and is position independent.
 *   - The most stack that any call needs is said above, at reads and at each call that needs more. Large frames are touched page by
 *     page from the top, so that a guard page below the stack is met.
 *
 * What the caller owes, since C cannot show it
 *   - No pointer is NULL, not even with length 0. Each is aligned for its type and points to as many elements as its length or its array
 *     type says, all of them initialised (those of `answer` and of an output too: any value will do).
 *   - What a call may write (`answer`, and each parameter without `const`) overlaps nothing else that is passed to it, and no other thread
 *     touches it meanwhile. Nothing writes to what is passed as `const` meanwhile.
 */
#ifndef SARPUKTEN_H
#define SARPUKTEN_H

#include <stdbool.h>
#include <stddef.h>
#include <stdint.h>

#if !defined(__x86_64__) || SIZE_MAX != 0xffffffffffffffff
#error "libsarpukten.a is for 64-bit x86"
#endif

/* The version of this header and of the archive beside it. */
#define SARPUKTEN_VERSION "0.2.0"

/* A compiler that knows how says so where a result is not looked at; whoever does not want that defines it as nothing. */
#if defined(SARPUKTEN_CHECKED)
#elif defined(__GNUC__)
#define SARPUKTEN_CHECKED __attribute__((warn_unused_result))
#else
#define SARPUKTEN_CHECKED
#endif

/* At least so many elements are lent: a C compiler that sees a shorter array, or NULL, says so. C++ has no such word. */
#ifdef __cplusplus
#define SARPUKTEN_LENT(n) n
#else
#define SARPUKTEN_LENT(n) static n
#endif

#ifdef __cplusplus
extern "C" {
#endif

/* ---- Numbers ---- */

enum {
    SARPUKTEN_DONE = 0,
    SARPUKTEN_REFUSED_ID_LENGTH = 1,         /* the length of ids is neither 20 nor 32, or digits are neither 40 nor 64; place 0 */
    SARPUKTEN_REFUSED_BOUND = 2,             /* a buffer or list is over its bound, or an object has more entries than that; place 0 */
    SARPUKTEN_REFUSED_BROKEN_ENTRY = 3,      /* an entry cannot be read; place: its first byte. A mode text alone: place 0 */
    SARPUKTEN_REFUSED_FEW_RECORDS = 4,       /* the lent list is too short; place: how many records are needed */
    SARPUKTEN_REFUSED_MODE_TEXT = 5,         /* strict: the mode text is none of the rule set's; place: the entry's first byte */
    SARPUKTEN_REFUSED_NAME = 6,              /* strict: the name is not permitted; place: the entry's first byte */
    SARPUKTEN_REFUSED_ORDER = 7,             /* strict: the entry is not after the one before; place: the entry's first byte */
    SARPUKTEN_REFUSED_SHORT_OUTPUT = 8,      /* the output is too short; place: how many bytes are needed */
    SARPUKTEN_REFUSED_NUL_IN_NAME = 9,       /* a name to be written has a NUL; place: the record's index */
    SARPUKTEN_REFUSED_BAD_RECORD = 10,       /* a record is not well formed, or what it names is no hex or not folded; place: its index. Of many
                                        lookups: the index of the first name that met it. Digits alone: place 0 */
    SARPUKTEN_REFUSED_COMMIT_FIELD = 11,     /* a commit's field is missing or malformed; place: bytes consumed before it */
    SARPUKTEN_REFUSED_ACTOR = 12,            /* author or committer has not the actor form; place: bytes consumed before its line */
    SARPUKTEN_REFUSED_EMPTY_ENCODING = 13,   /* writing: the encoding is there and empty; place 0 */
    SARPUKTEN_REFUSED_LF_IN_ENCODING = 14,   /* writing: the encoding has an LF; place 0 */
    SARPUKTEN_REFUSED_NOT_THERE = 15,        /* lookup: no such entry; place 0 */
    SARPUKTEN_REFUSED_LONG_NAME = 16,        /* a check in pieces: a name has more than 4,096 bytes; place: the entry's first byte */
    SARPUKTEN_REFUSED_SAME_NAME = 17,        /* strict: an entry before has this name; place: the entry's first byte */
    SARPUKTEN_REFUSED_DOT_GIT = 18,          /* strict: the name is .git with letters in upper case; place: the entry's first byte */
    SARPUKTEN_REFUSED_RULE_SET = 19,         /* strict: there is no such rule set; place 0 */
    SARPUKTEN_REFUSED_BAD_TEXT = 20,         /* a record of text is malformed; the record's first byte in the text */
    SARPUKTEN_REFUSED_NO_MODE_OR_KIND = 23,  /* a number is no mode, or no kind of object; place 0 */
    SARPUKTEN_REFUSED_NOT_FRAMED = 24,       /* the bundle is not well framed, or the root id is not of its h; place 0 */
    SARPUKTEN_REFUSED_ID_TWICE = 25,         /* an id stands twice in the bundle; place 0 */
    SARPUKTEN_REFUSED_NO_PATH = 26,          /* an empty component in a path that is not empty, or more than 64 components; place 0 */
    SARPUKTEN_REFUSED_TOO_DEEP = 27,         /* a folder at depth 33 would have to be opened; place 0 */
    SARPUKTEN_REFUSED_NO_TREE = 28           /* an object that has to be opened is missing, or no tree; place 0 */
};

/* What a number says, in words. */
SARPUKTEN_CHECKED static inline const char *sarpukten_reason(size_t number)
{
    switch (number) {
    case 0: return "done";
    case 1: return "the length of ids is neither 20 nor 32";
    case 2: return "a buffer or list is over its bound";
    case 3: return "an entry cannot be read";
    case 4: return "too few records are lent";
    case 5: return "the mode text is none of the rule set's";
    case 6: return "the name is not permitted";
    case 7: return "the entry does not stand after the one before";
    case 8: return "the output is too short";
    case 9: return "a name to be written has a NUL";
    case 10: return "a record is not well formed";
    case 11: return "a field of the commit is missing or malformed";
    case 12: return "author or committer has not the actor form";
    case 13: return "the encoding is empty";
    case 14: return "the encoding has an LF";
    case 15: return "not there";
    case 16: return "a name is longer than 4,096 bytes";
    case 17: return "an entry before has this name";
    case 18: return "the name is .git with letters in upper case";
    case 19: return "there is no such rule set";
    case 20: return "a record of the text is malformed";
    case 23: return "a number is no mode or no kind of object";
    case 24: return "the bundle is not well framed, or the root id is not of its length";
    case 25: return "an id stands twice in the bundle";
    case 26: return "the path has an empty component, or more than 64";
    case 27: return "folders are nested deeper than 32";
    case 28: return "an object is missing from the bundle, or is no tree";
    default: return "no number of this library";
    }
}

/* The parts that come with SARPUKTEN_REFUSED_BROKEN_ENTRY. A mode text alone: always the mode. */
enum {
    SARPUKTEN_BROKEN_NO_MODE = 1,           /* the mode cannot be read */
    SARPUKTEN_BROKEN_NO_NUL = 2,            /* no NUL follows the mode */
    SARPUKTEN_BROKEN_CUT_ID = 3             /* fewer than h bytes follow the NUL */
};

/* ---- Answers ----
 * Where a number stands in an answer. The first three are in every answer.
 */
enum {
    SARPUKTEN_ANSWER_NUMBER = 0,     /* the number */
    SARPUKTEN_ANSWER_PLACE = 1,      /* the place that belongs to it: of an entry its first byte, of a record its index, or how many
                                        records or bytes are needed. 0 where the number is 0 */
    SARPUKTEN_ANSWER_PART = 2,       /* the part, with number 3 only. With any other it is 0 */
    /* of a call that counts */
    SARPUKTEN_ANSWER_COUNT = 3,      /* how many entries were read, how many names were looked up, how many bytes were written or would
                                        be; 0 on a refusal */
    SARPUKTEN_LENGTH_COUNT = 4,
    /* of a mode */
    SARPUKTEN_ANSWER_MODE = 3,       /* the mode; 0 on a refusal */
    SARPUKTEN_LENGTH_MODE = 4,
    /* of a step */
    SARPUKTEN_ANSWER_FOUND = 3,      /* 1 if an entry was found, else 0 */
    SARPUKTEN_ANSWER_NEXT = 4,       /* where to go on */
    SARPUKTEN_ANSWER_ENTRY = 5,      /* the first of the entry's five numbers, which are all 0 if none was found */
    SARPUKTEN_LENGTH_STEP = 10,
    /* of a lookup */
    SARPUKTEN_ANSWER_INDEX = 3,      /* the record's index; 0 on a refusal */
    SARPUKTEN_ANSWER_COMPARED = 4,   /* how many records were compared; 0 on a refusal other than 15 */
    SARPUKTEN_LENGTH_LOOKUP = 5,
    /* of a commit; after the field all are 0 on a refusal */
    SARPUKTEN_ANSWER_FIELD = 3,      /* with 11 the field: 1 tree, 2 author, 3 committer, 4 blank line; else 0 */
    SARPUKTEN_ANSWER_PARENTS = 4,    /* how many parents */
    SARPUKTEN_ANSWER_HEADERS = 5,    /* how many extra headers */
    SARPUKTEN_ANSWER_PARTS = 6,      /* the first of the ten numbers of the parts: `answer + SARPUKTEN_ANSWER_PARTS` can be passed as parts */
    SARPUKTEN_LENGTH_COMMIT = 16,
    /* of a bundle that is checked; all 0 on a refusal */
    SARPUKTEN_ANSWER_H = 3,          /* the length of its ids */
    SARPUKTEN_ANSWER_RULES = 4,      /* its rule set */
    SARPUKTEN_ANSWER_OBJECTS = 5,    /* how many objects it has */
    SARPUKTEN_LENGTH_BUNDLE = 6,
    /* of an object in a bundle; all 0 on a refusal */
    SARPUKTEN_ANSWER_KIND = 3,       /* its kind: 1 commit, 2 tree, 3 blob, 4 tag */
    SARPUKTEN_ANSWER_START = 4,      /* where its bytes stand in the bundle: start, end */
    SARPUKTEN_ANSWER_END = 5,
    SARPUKTEN_LENGTH_OBJECT = 6,
    /* of a path; both 0 on a refusal */
    SARPUKTEN_ANSWER_PATH_MODE = 3,  /* the mode of the entry that it leads to */
    SARPUKTEN_ANSWER_ID_LENGTH = 4,  /* how many bytes its id has */
    SARPUKTEN_LENGTH_PATH = 5,
    /* of mending, behind the bytes written (SARPUKTEN_ANSWER_COUNT) */
    SARPUKTEN_ANSWER_ENTRIES = 4,    /* how many entries the object has; 0 on a refusal */
    SARPUKTEN_LENGTH_MEND = 5
};

/* ---- Bounds, lengths and rule sets ---- */

#define SARPUKTEN_SHA1 ((size_t)20)               /* the two lengths of ids in bytes: `h` below */
#define SARPUKTEN_SHA256 ((size_t)32)
#define SARPUKTEN_ROOM_ID 32  /* the longest id, in bytes */
#define SARPUKTEN_ROOM_HEX 64 /* and in digits */
#define SARPUKTEN_RULES_EARLY ((uint16_t)1)       /* the two rule sets of strict reading: with mode 100664 besides the five, as early Git wrote it */
#define SARPUKTEN_RULES_PRESENT ((uint16_t)2)     /* and with the five alone */
#define SARPUKTEN_MOST_BYTES ((size_t)1073741824) /* the longest byte buffer */
#define SARPUKTEN_MOST_RECORDS ((size_t)1048576)  /* the longest list, in records */

/* ---- Records ----
 * Every position is one in the lent bytes. An end is past the last byte.
 */

/* An entry of a tree: five numbers. */
enum {
    SARPUKTEN_ENTRY_MODE = 0,
    SARPUKTEN_ENTRY_NAME_START = 1,
    SARPUKTEN_ENTRY_NAME_END = 2,
    SARPUKTEN_ENTRY_ID_START = 3,    /* its id has h bytes */
    SARPUKTEN_ENTRY_TEXT_START = 4,  /* where its mode text starts, which readers give: the entry's first byte. To be well formed it is not
                                        above the name's start; nothing is written of it */
    SARPUKTEN_WIDTH_ENTRY = 5
};

/* A name that is sought, one of many: three numbers. To be well formed it runs forward inside the lent names. */
enum {
    SARPUKTEN_SOUGHT_START = 0,      /* where it stands in the lent names: start, end */
    SARPUKTEN_SOUGHT_END = 1,
    SARPUKTEN_SOUGHT_FOLDER = 2,     /* 1 for a folder, 0 for anything else, and no other number */
    SARPUKTEN_WIDTH_SOUGHT = 3
};

/* What was found for it: three numbers. */
enum {
    SARPUKTEN_FOUND_NUMBER = 0,      /* SARPUKTEN_DONE or SARPUKTEN_REFUSED_NOT_THERE */
    SARPUKTEN_FOUND_INDEX = 1,       /* the record's index; 0 where it is not there */
    SARPUKTEN_FOUND_COMPARED = 2,    /* how many records were compared */
    SARPUKTEN_WIDTH_FOUND = 3
};

/* An item of a comparison: where its path starts and ends in the lent bytes, both modes, and where both ids start in the bundle; mode and
 * start are 0 on the side where nothing is. */
enum {
    SARPUKTEN_ITEM_PATH_START = 0,
    SARPUKTEN_ITEM_PATH_END = 1,
    SARPUKTEN_ITEM_LEFT_MODE = 2,
    SARPUKTEN_ITEM_RIGHT_MODE = 3,
    SARPUKTEN_ITEM_LEFT_ID = 4,
    SARPUKTEN_ITEM_RIGHT_ID = 5,
    SARPUKTEN_WIDTH_ITEM = 6
};

/* An extra header of a commit: five numbers. */
enum {
    SARPUKTEN_HEADER_NAME_START = 0,
    SARPUKTEN_HEADER_NAME_END = 1,
    SARPUKTEN_HEADER_VALUE_START = 2,
    SARPUKTEN_HEADER_VALUE_END = 3,
    SARPUKTEN_HEADER_MARK = 4,       /* 1 where the value is folded over several lines (it then runs through its last LF), else 0 */
    SARPUKTEN_WIDTH_HEADER = 5
};

/* A parent: where its 2h hex digits start. */
enum { SARPUKTEN_WIDTH_PARENT = 1 };

/* The parts of a commit: ten numbers. */
enum {
    SARPUKTEN_PART_TREE = 0,             /* where the tree's 2h hex digits start */
    SARPUKTEN_PART_AUTHOR = 1,           /* the author's value: start, end */
    SARPUKTEN_PART_AUTHOR_END = 2,
    SARPUKTEN_PART_COMMITTER = 3,        /* the committer's value: start, end */
    SARPUKTEN_PART_COMMITTER_END = 4,
    SARPUKTEN_PART_HAS_ENCODING = 5,     /* 1 where there is an encoding, else 0 */
    SARPUKTEN_PART_ENCODING = 6,         /* its value: start, end (both 0 where there is none) */
    SARPUKTEN_PART_ENCODING_END = 7,
    SARPUKTEN_PART_MESSAGE = 8,          /* the message: start, end */
    SARPUKTEN_PART_MESSAGE_END = 9,
    SARPUKTEN_WIDTH_PARTS = 10
};

/* ---- Modes ----
 * A mode is 16 bits.
 */

/* The mode that a text says, with or without a space after it. Refuses 2, 3. */
SARPUKTEN_CHECKED size_t sarpukten_mode_read(const uint8_t *text, size_t text_len, size_t answer[SARPUKTEN_LENT(SARPUKTEN_LENGTH_MODE)]);

/* The mode that a 32-bit number says. Refuses 23. */
SARPUKTEN_CHECKED size_t sarpukten_mode_from_number(uint32_t n, size_t answer[SARPUKTEN_LENT(SARPUKTEN_LENGTH_MODE)]);

/* The number a mode stands for: itself, but 040000 where the top four bits are those of 0140000. */
SARPUKTEN_CHECKED uint16_t sarpukten_mode_value(uint16_t mode);

/* A mode's kind, as the written mode that has it: 040000 tree, 0100644 file, 0100755 executable file, 0120000 link, 0160000 commit. */
SARPUKTEN_CHECKED uint16_t sarpukten_mode_kind(uint16_t mode);

/* Seven questions to a mode, each answered 1 for yes or 0 for no. */
enum {
    SARPUKTEN_IS_TREE = 0,
    SARPUKTEN_IS_NO_TREE = 1,
    SARPUKTEN_IS_BLOB = 2,             /* a file, executable or not */
    SARPUKTEN_IS_EXECUTABLE = 3,
    SARPUKTEN_IS_BLOB_OR_SYMLINK = 4,
    SARPUKTEN_IS_LINK = 5,
    SARPUKTEN_IS_COMMIT = 6,
    SARPUKTEN_WIDTH_QUESTIONS = 7
};
void sarpukten_mode_ask(uint16_t mode, size_t answer[SARPUKTEN_LENT(SARPUKTEN_WIDTH_QUESTIONS)]);

#define SARPUKTEN_ROOM_WORD 6 /* room for the longest word and the longest text */

/* The word of a mode's kind: tree, blob, exe, link or commit. All six bytes are written, 0 behind the word; returns its length. */
SARPUKTEN_CHECKED size_t sarpukten_mode_word(uint16_t mode, uint8_t word[SARPUKTEN_LENT(SARPUKTEN_ROOM_WORD)]);

/* A mode's octal text, as a tree has it. All six bytes are written, 0 behind the text; returns its length. */
SARPUKTEN_CHECKED size_t sarpukten_mode_text(uint16_t mode, uint8_t text[SARPUKTEN_LENT(SARPUKTEN_ROOM_WORD)]);

/* ---- Names ---- */

/* Git's comparison of two names, each of a folder (true) or not: -1 where a is before b, 0, or 1. Names of any length; refuses nothing. */
SARPUKTEN_CHECKED int8_t sarpukten_name_order(const uint8_t *a, size_t a_len, bool a_is_tree, const uint8_t *b, size_t b_len, bool b_is_tree);

/* ---- Trees ---- */

/* The entry that starts at a place of a tree object, without counting entries. Refuses 1, 2, 3.
 * At or past the end it is done and finds nothing. After a 3 it goes on at the end, after a 1 or 2 where it stood. */
SARPUKTEN_CHECKED size_t sarpukten_tree_step(
    const uint8_t *bytes, size_t bytes_len, size_t h, size_t at, size_t answer[SARPUKTEN_LENT(SARPUKTEN_LENGTH_STEP)]);

/* All entries of a tree object into lent records; records_len is in numbers. Refuses 1, 2, 3, 4.
 * An object of n bytes has at most n / (h + 2) entries, one that is read strictly at most n / (h + 8): so many records are enough (but
 * not more than SARPUKTEN_MOST_RECORDS may be lent). An empty list asks how many are needed: that is the place with 4. */
SARPUKTEN_CHECKED size_t sarpukten_read_tree(
    const uint8_t *bytes, size_t bytes_len, size_t h, size_t *records, size_t records_len,
    size_t answer[SARPUKTEN_LENT(SARPUKTEN_LENGTH_COUNT)]);

/* The same for an object as Git writes it, by a rule set. Refuses also 19 (after 1 and before 2), 5, 6, 7, 17, 18. For an object from
 * outside this is the one to call: two objects that it takes with the same entries are the same bytes, and so have the same id. */
SARPUKTEN_CHECKED size_t sarpukten_read_tree_strict(
    const uint8_t *bytes, size_t bytes_len, size_t h, uint16_t rules, size_t *records, size_t records_len,
    size_t answer[SARPUKTEN_LENT(SARPUKTEN_LENGTH_COUNT)]);

/* The entry with a name, of a folder (true) or not, by halving. Among the records of an object that was read strictly, and for a name
 * without a slash, it is found exactly where it is there; `a/b` is answered as folder `a` is. Refuses 1, 2, 10 (for a record that it
 * compares), 15. */
SARPUKTEN_CHECKED size_t sarpukten_bisect_entry(
    const uint8_t *object, size_t object_len, size_t h, const size_t *records, size_t records_len, const uint8_t *name, size_t name_len,
    bool is_folder, size_t answer[SARPUKTEN_LENT(SARPUKTEN_LENGTH_LOOKUP)]);

/* The entry with a name, of whatever sort: sought as anything but a folder, and where that is not there, as a folder. In the records of
 * an object that was read strictly, and for a name without a slash, it finds the one entry of that name, or there is none. The records
 * that both searches compared are counted. Refuses 1, 2, 10 (for a record that it compares), 15. */
SARPUKTEN_CHECKED size_t sarpukten_bisect_any(
    const uint8_t *object, size_t object_len, size_t h, const size_t *records, size_t records_len, const uint8_t *name, size_t name_len,
    size_t answer[SARPUKTEN_LENT(SARPUKTEN_LENGTH_LOOKUP)]);

/* Many names, each as sarpukten_bisect_entry finds it: what it finds for the sought name i is put into found at i, with 15 too. The names
 * lie in `names`, one after the other or not, and may overlap. Counts the names. Refuses 1, 2, 4 (place: how many names), 10 (place: the
 * index of the first name that is not well formed or meets such a record). A refusal stores nothing. Of more than 64 names those after
 * the 64th are looked up twice. */
SARPUKTEN_CHECKED size_t sarpukten_bisect_entries(
    const uint8_t *object, size_t object_len, size_t h, const size_t *records, size_t records_len, const uint8_t *names, size_t names_len,
    const size_t *sought, size_t sought_len, size_t *found, size_t found_len, size_t answer[SARPUKTEN_LENT(SARPUKTEN_LENGTH_COUNT)]);

/* The most records that a lookup among n compares; sarpukten_bisect_any compares at most twice as many. */
SARPUKTEN_CHECKED size_t sarpukten_most_comparisons(size_t n);

/* How many bytes the tree object has that records name. Refuses 1, 2, 10. */
SARPUKTEN_CHECKED size_t sarpukten_tree_size(
    const uint8_t *bytes, size_t bytes_len, size_t h, const size_t *records, size_t records_len,
    size_t answer[SARPUKTEN_LENT(SARPUKTEN_LENGTH_COUNT)]);

/* Writes the tree object that records name to the front of out, in the order given: it sorts nothing, so that records in another order
 * than Git's give an object that a strict read refuses. Refuses 1, 2, 10, 9, 8. */
SARPUKTEN_CHECKED size_t sarpukten_write_tree(
    const uint8_t *bytes, size_t bytes_len, size_t h, const size_t *records, size_t records_len, uint8_t *out, size_t out_len,
    size_t answer[SARPUKTEN_LENT(SARPUKTEN_LENGTH_COUNT)]);

/* ---- Bundles and paths ----
 * A bundle is one buffer with many objects (docs/FORMAT.md, "Bundles"); `./bundle` packs one.
 */

/* Checks a bundle whole: its framing, and that no id stands twice. Refuses 2, 24, 25. */
SARPUKTEN_CHECKED size_t sarpukten_check_bundle(const uint8_t *bundle, size_t bundle_len, size_t answer[SARPUKTEN_LENT(SARPUKTEN_LENGTH_BUNDLE)]);

/* The first object of an id, by where its bytes stand in the bundle. It looks no further than that object: whether the bundle is well
 * framed, sarpukten_check_bundle says. Refuses 2, 15. */
SARPUKTEN_CHECKED size_t sarpukten_bundle_object(
    const uint8_t *bundle, size_t bundle_len, const uint8_t *id, size_t id_len, size_t answer[SARPUKTEN_LENT(SARPUKTEN_LENGTH_OBJECT)]);

/* Follows a path, `guest2/skin/logo`, through the trees of a bundle from the id of a root tree, and gives mode and id of the entry that it
 * leads to: of each component the first entry of that name, before any that cannot be read. An object that is missing or no tree on the
 * way, and the empty path, are 15. The bundle is checked first, at each call. All 32 bytes of `id` are written, 0 behind the id and on a
 * refusal. What another part of the bundle holds cannot alter the answer: only the objects on the path do. Refuses 2, 24, 25, 26, 15. */
SARPUKTEN_CHECKED size_t sarpukten_follow_path(
    const uint8_t *bundle, size_t bundle_len, const uint8_t *root, size_t root_len, const uint8_t *path, size_t path_len,
    size_t answer[SARPUKTEN_LENT(SARPUKTEN_LENGTH_PATH)], uint8_t id[SARPUKTEN_LENT(SARPUKTEN_ROOM_ID)]);

/* What differs between two trees of a bundle, by their ids: every entry that is only left, only right, or in both with another mode or id.
 * The count is of items (SARPUKTEN_ITEM_..), in Git's order at each level; a folder's item comes before those inside it, and a folder on one
 * side comes with all below it. Whoever does not know how much to lend lends nothing and is told, the items first. Refuses 2, 24, 25; as they
 * are met 27, 28, the strict reader's (place: in that tree) and 2 (more than SARPUKTEN_MOST_RECORDS items); 4 (place: items), 8 (place: bytes of
 * all paths). */
SARPUKTEN_CHECKED size_t sarpukten_compare_trees(
    const uint8_t *bundle, size_t bundle_len, const uint8_t *left, size_t left_len, const uint8_t *right, size_t right_len, size_t *items,
    size_t items_len, uint8_t *paths, size_t paths_len, size_t answer[SARPUKTEN_LENT(SARPUKTEN_LENGTH_COUNT)]);

/* Mends an object: puts to the front of out one that rule set 2 accepts, and into fates at i what was done to entry i: 0 kept, 1 kept with
 * another mode text, 2 dropped for its name, 3 dropped for its mode, 4 dropped because an entry before it that was kept has its name.
 * Refuses 1, 2, 3, 4 (place: entries of the object), 8. The new object is never longer than the old one. Stack: some 7 KiB up to 1,024
 * entries, else a little over 4 MiB. */
SARPUKTEN_CHECKED size_t sarpukten_mend_tree(
    const uint8_t *bytes, size_t bytes_len, size_t h, size_t *fates, size_t fates_len, uint8_t *out, size_t out_len,
    size_t answer[SARPUKTEN_LENT(SARPUKTEN_LENGTH_MEND)]);

/* ---- A check in pieces ----
 * A strict check of an object of which no more than a piece is there at a time. Its state is lent: one struct of fixed length, the same from the
 * start to the end, whatever it holds before the start. However the object is cut, empty pieces among them or not, the end says the same;
 * and but for 16 and for 2 past the bound it is what a strict read with records enough says of the whole object.
 *
 *     struct sarpukten_check check;
 *     size_t answer[SARPUKTEN_LENGTH_COUNT];
 *     sarpukten_check_begin(&check, SARPUKTEN_SHA1, SARPUKTEN_RULES_PRESENT);
 *     while ((n = receive(piece, sizeof piece)) > 0)
 *         sarpukten_check_feed(&check, piece, n);
 *     if (sarpukten_check_answer(&check, answer) != SARPUKTEN_DONE)
 *         ... refused
 */

/* Where a mark stands among the numbers of a state. The first three are the refusal that is settled, 0 while there is none. */
enum {
    SARPUKTEN_MARK_NUMBER = 0,
    SARPUKTEN_MARK_PLACE = 1,
    SARPUKTEN_MARK_PART = 2,
    SARPUKTEN_MARK_H = 3,            /* the length of ids, and the rule set */
    SARPUKTEN_MARK_RULES = 4,
    SARPUKTEN_MARK_AT = 5,           /* how many bytes have come */
    SARPUKTEN_MARK_FIRST = 6,        /* where the entry that arrives begins */
    SARPUKTEN_MARK_COUNT = 7,        /* how many entries are finished */
    SARPUKTEN_MARK_LAST_SIZE = 8,    /* of the entry before: how many bytes its name has, 0 where there is none, and whether it is a folder */
    SARPUKTEN_MARK_LAST_FOLDER = 9,
    SARPUKTEN_MARK_ENDED = 10,       /* how many names are open: how many of `ends` count */
    SARPUKTEN_MARK_PHASE = 11,       /* 0 in an entry's first eight bytes, 1 in its name, 2 in its id; any other number is 2 */
    SARPUKTEN_MARK_LEFT = 12,        /* how many of the eight have come, or how many bytes of the id are to come */
    SARPUKTEN_MARK_WRITTEN = 13,     /* of the entry that arrives: whether its mode text is permitted, and whether it is a folder */
    SARPUKTEN_MARK_FOLDER = 14,
    SARPUKTEN_MARK_SIZE = 15,        /* how many bytes of its name have come, and with how many of them the held name begins */
    SARPUKTEN_MARK_SHARED = 16,
    SARPUKTEN_MARK_STAND = 17,       /* how it stands to the held name: 0 alike so far, 1 above it, 2 not above it; any other number is 2 */
    SARPUKTEN_LENGTH_MARKS = 18
};

#define SARPUKTEN_MOST_HELD 4096 /* the longest name that is held, and how many names may be open */
#define SARPUKTEN_MOST_ENDS 4097
#define SARPUKTEN_ROOM_FIRST 8   /* the first bytes of an entry, which decide its mode */

/* The state: 20,640 bytes. Whoever fills one otherwise than by these calls gets an answer all the same, and no place outside of it is touched. */
struct sarpukten_check {
    size_t marks[SARPUKTEN_LENGTH_MARKS];
    uint32_t ends[SARPUKTEN_MOST_ENDS]; /* the lengths of the names of earlier files with which the held name begins */
    uint8_t name[SARPUKTEN_MOST_HELD];  /* the name before, which the one that arrives overwrites */
    uint8_t first[SARPUKTEN_ROOM_FIRST];
};
typedef char sarpukten_check_is_20640_bytes[sizeof(struct sarpukten_check) == 20640 ? 1 : -1];

/* Begins a check. Refuses 1, 19: whatever follows, the end says so. */
size_t sarpukten_check_start(
    size_t h, uint16_t rules, size_t marks[SARPUKTEN_LENT(SARPUKTEN_LENGTH_MARKS)], uint8_t first[SARPUKTEN_LENT(SARPUKTEN_ROOM_FIRST)]);

/* A piece more, of any length, none too; returns the refusal that is settled with it, or 0. Refuses 2 (past SARPUKTEN_MOST_BYTES or
 * SARPUKTEN_MOST_RECORDS, where nothing else is settled), 3, 5, 6, 7, 16, 17, 18. Where a refusal is settled already it changes nothing. */
size_t sarpukten_check_piece(
    uint8_t name[SARPUKTEN_LENT(SARPUKTEN_MOST_HELD)], uint32_t ends[SARPUKTEN_LENT(SARPUKTEN_MOST_ENDS)],
    size_t marks[SARPUKTEN_LENT(SARPUKTEN_LENGTH_MARKS)], uint8_t first[SARPUKTEN_LENT(SARPUKTEN_ROOM_FIRST)], const uint8_t *piece,
    size_t piece_len);

/* The answer if the object ends here, with the entries counted: the refusal that is settled, or 3, or done. The check may go on after it. */
SARPUKTEN_CHECKED size_t sarpukten_check_end(
    const size_t marks[SARPUKTEN_LENT(SARPUKTEN_LENGTH_MARKS)], const uint8_t first[SARPUKTEN_LENT(SARPUKTEN_ROOM_FIRST)],
    size_t answer[SARPUKTEN_LENT(SARPUKTEN_LENGTH_COUNT)]);

/* The same three over the struct. */
static inline size_t sarpukten_check_begin(struct sarpukten_check *check, size_t h, uint16_t rules)
{
    return sarpukten_check_start(h, rules, check->marks, check->first);
}

static inline size_t sarpukten_check_feed(struct sarpukten_check *check, const uint8_t *piece, size_t piece_len)
{
    return sarpukten_check_piece(check->name, check->ends, check->marks, check->first, piece, piece_len);
}

SARPUKTEN_CHECKED static inline size_t sarpukten_check_answer(
    const struct sarpukten_check *check, size_t answer[SARPUKTEN_LENT(SARPUKTEN_LENGTH_COUNT)])
{
    return sarpukten_check_end(check->marks, check->first, answer);
}

/* ---- Commits ---- */

/* A commit's parts, its parents and its extra headers, the two lists into lent records; their lengths are in numbers.
 * Refuses 1, 2, 11, 12, 4 (for the parents, then for the headers). A commit of n bytes has at most n / (2h + 8) parents and n / 3
 * headers. */
SARPUKTEN_CHECKED size_t sarpukten_read_commit(
    const uint8_t *bytes, size_t bytes_len, size_t h, size_t *parents, size_t parents_len, size_t *headers, size_t headers_len,
    size_t answer[SARPUKTEN_LENT(SARPUKTEN_LENGTH_COMMIT)]);

/* The value of a header to the front of out: with mark 1 it is unfolded, one space taken off each line but the first; with mark 0 it is
 * copied. It is never longer than it stands in the bytes. Refuses 2, 10 (place 0), 8. */
SARPUKTEN_CHECKED size_t sarpukten_unfold(
    const uint8_t *bytes, size_t bytes_len, const size_t header[SARPUKTEN_LENT(SARPUKTEN_WIDTH_HEADER)], uint8_t *out, size_t out_len,
    size_t answer[SARPUKTEN_LENT(SARPUKTEN_LENGTH_COUNT)]);

/* How many bytes the commit has that parts, parents and headers name. Refuses 1, 2, 10. */
SARPUKTEN_CHECKED size_t sarpukten_commit_size(
    const uint8_t *bytes, size_t bytes_len, size_t h, const size_t parts[SARPUKTEN_LENT(SARPUKTEN_WIDTH_PARTS)], const size_t *parents,
    size_t parents_len, const size_t *headers, size_t headers_len, size_t answer[SARPUKTEN_LENT(SARPUKTEN_LENGTH_COUNT)]);

/* Writes that commit to the front of out. A value with mark 0 is folded, one with mark 1 is copied. Refuses 1, 2, 10 (place: the index
 * counted over tree, parents, author, committer, encoding, headers, message), 13, 14, 8. */
SARPUKTEN_CHECKED size_t sarpukten_write_commit(
    const uint8_t *bytes, size_t bytes_len, size_t h, const size_t parts[SARPUKTEN_LENT(SARPUKTEN_WIDTH_PARTS)], const size_t *parents,
    size_t parents_len, const size_t *headers, size_t headers_len, uint8_t *out, size_t out_len,
    size_t answer[SARPUKTEN_LENT(SARPUKTEN_LENGTH_COUNT)]);

/* ---- Loose objects ---- */

enum { SARPUKTEN_KIND_COMMIT = 1, SARPUKTEN_KIND_TREE = 2, SARPUKTEN_KIND_BLOB = 3, SARPUKTEN_KIND_TAG = 4 };

#define SARPUKTEN_ROOM_LOOSE_HEADER 28 /* the longest one */

/* The header of a loose object to the front of out: kind word, space, size in decimal, NUL. Refuses 23, 8. */
SARPUKTEN_CHECKED size_t sarpukten_loose_header(
    size_t kind, uint64_t size, uint8_t *out, size_t out_len, size_t answer[SARPUKTEN_LENT(SARPUKTEN_LENGTH_COUNT)]);

/* ---- Ids ----
 * A tree has ids as bytes, a commit has their hex digits.
 */

/* The id that hex digits of either case say, to the front of out. Refuses 1 (neither 40 nor 64 digits), 2, 10 (place 0), 8. */
SARPUKTEN_CHECKED size_t sarpukten_id_of_hex(
    const uint8_t *digits, size_t digits_len, uint8_t *out, size_t out_len, size_t answer[SARPUKTEN_LENT(SARPUKTEN_LENGTH_COUNT)]);

/* The hex digits of an id, in lower case, to the front of out; no NUL is put behind them. Refuses 1 (neither 20 nor 32 bytes), 2, 8. */
SARPUKTEN_CHECKED size_t sarpukten_hex_of_id(
    const uint8_t *id, size_t id_len, uint8_t *out, size_t out_len, size_t answer[SARPUKTEN_LENT(SARPUKTEN_LENGTH_COUNT)]);

/* ---- Text ----
 * A listing as `git ls-tree -z` prints it and `git mktree -z` takes it: for each entry six octal digits, space, blob, tree or commit, space,
 * the id in lower-case hex, tab, name, NUL.
 */

/* The text of the entries of an object that a strict read accepts by the rule set, to the front of out; it is less than twice as long as the
 * object. Refuses what a strict read refuses but 4 (with its stack), then 8. */
SARPUKTEN_CHECKED size_t sarpukten_export_tree(
    const uint8_t *bytes, size_t bytes_len, size_t h, uint16_t rules, uint8_t *out, size_t out_len,
    size_t answer[SARPUKTEN_LENT(SARPUKTEN_LENGTH_COUNT)]);

/* The strict object of a text as the call above writes it, its records in any order, to the front of out; it is shorter than the text. Refuses 1, 19,
 * 2; then record by record, the place being the record's first byte: 2 (more than SARPUKTEN_MOST_RECORDS records; place 0), 20, 5, 6, 18; after
 * all records 7 and 17 at the first record that repeats an earlier one; 8. With more than 1,024 records it takes four mebibytes of the stack. */
SARPUKTEN_CHECKED size_t sarpukten_import_tree(
    const uint8_t *text, size_t text_len, size_t h, uint16_t rules, uint8_t *out, size_t out_len,
    size_t answer[SARPUKTEN_LENT(SARPUKTEN_LENGTH_COUNT)]);

/* ---- Edits ----
 * One entry of a tree object that rule set 1 or 2 accepts is changed; the new object goes to the front of out, and the answer counts its bytes.
 * Every other entry's bytes are carried over in the same order. An edit needs as much stack as a strict reading of the object.
 */

/* A name with its mode, which is a number, and its id, in the place of any entry of that name, file or folder. Refuses 1, 19, 2; what strict
 * reading refuses; 10 (the id has not h bytes; place 0), 5, 6, 18 (of the new entry, place 0), 2 (the name is new and there are
 * SARPUKTEN_MOST_RECORDS entries), 8. */
SARPUKTEN_CHECKED size_t sarpukten_put_in_tree(
    const uint8_t *bytes, size_t bytes_len, size_t h, uint16_t rules, size_t mode, const uint8_t *name, size_t name_len,
    const uint8_t *id, size_t id_len, uint8_t *out, size_t out_len, size_t answer[SARPUKTEN_LENT(SARPUKTEN_LENGTH_COUNT)]);

/* Without the entry of a name; the last one removed leaves the empty object. Refuses 1, 19, 2; what strict reading refuses; 15 (no entry has the
 * name, whatever it is), 8. */
SARPUKTEN_CHECKED size_t sarpukten_remove_from_tree(
    const uint8_t *bytes, size_t bytes_len, size_t h, uint16_t rules, const uint8_t *name, size_t name_len, uint8_t *out, size_t out_len,
    size_t answer[SARPUKTEN_LENT(SARPUKTEN_LENGTH_COUNT)]);

/* ---- Records as structs ----
 * The numbers of an entry, of a sought name, of what was found, of an item, of a commit's header and of a commit's parts, by name. The functions
 * below take lists of them and count RECORDS; else each is the call without `entries`, `in_entries`, `items` or `headers`,
 * sarpukten_bisect_in_entries being sarpukten_bisect_entry, and sarpukten_bisect_all_in_entries being sarpukten_bisect_entries.
 */
struct sarpukten_entry {
    size_t mode, name_start, name_end, id_start, text_start;
};
typedef char sarpukten_entry_is_five_numbers[sizeof(struct sarpukten_entry) == SARPUKTEN_WIDTH_ENTRY * sizeof(size_t) ? 1 : -1];

struct sarpukten_sought {
    size_t start, end, is_folder;
};
typedef char sarpukten_sought_is_three_numbers[sizeof(struct sarpukten_sought) == SARPUKTEN_WIDTH_SOUGHT * sizeof(size_t) ? 1 : -1];

struct sarpukten_found {
    size_t number, index, compared;
};
typedef char sarpukten_found_is_three_numbers[sizeof(struct sarpukten_found) == SARPUKTEN_WIDTH_FOUND * sizeof(size_t) ? 1 : -1];

/* The entry of a step's answer. */
SARPUKTEN_CHECKED static inline struct sarpukten_entry sarpukten_entry_of_step(const size_t answer[SARPUKTEN_LENT(SARPUKTEN_LENGTH_STEP)])
{
    const size_t *entry = answer + SARPUKTEN_ANSWER_ENTRY;
    struct sarpukten_entry e;

    e.mode = entry[SARPUKTEN_ENTRY_MODE];
    e.name_start = entry[SARPUKTEN_ENTRY_NAME_START];
    e.name_end = entry[SARPUKTEN_ENTRY_NAME_END];
    e.id_start = entry[SARPUKTEN_ENTRY_ID_START];
    e.text_start = entry[SARPUKTEN_ENTRY_TEXT_START];
    return e;
}

SARPUKTEN_CHECKED static inline size_t sarpukten_read_tree_entries(
    const uint8_t *bytes, size_t bytes_len, size_t h, struct sarpukten_entry *entries, size_t many,
    size_t answer[SARPUKTEN_LENT(SARPUKTEN_LENGTH_COUNT)])
{
    return sarpukten_read_tree(bytes, bytes_len, h, (size_t *)(void *)entries, many * SARPUKTEN_WIDTH_ENTRY, answer);
}

SARPUKTEN_CHECKED static inline size_t sarpukten_read_tree_strict_entries(
    const uint8_t *bytes, size_t bytes_len, size_t h, uint16_t rules, struct sarpukten_entry *entries, size_t many,
    size_t answer[SARPUKTEN_LENT(SARPUKTEN_LENGTH_COUNT)])
{
    return sarpukten_read_tree_strict(bytes, bytes_len, h, rules, (size_t *)(void *)entries, many * SARPUKTEN_WIDTH_ENTRY, answer);
}

SARPUKTEN_CHECKED static inline size_t sarpukten_bisect_in_entries(
    const uint8_t *object, size_t object_len, size_t h, const struct sarpukten_entry *entries, size_t many, const uint8_t *name,
    size_t name_len, bool is_folder, size_t answer[SARPUKTEN_LENT(SARPUKTEN_LENGTH_LOOKUP)])
{
    return sarpukten_bisect_entry(
        object, object_len, h, (const size_t *)(const void *)entries, many * SARPUKTEN_WIDTH_ENTRY, name, name_len, is_folder, answer);
}

SARPUKTEN_CHECKED static inline size_t sarpukten_bisect_any_in_entries(
    const uint8_t *object, size_t object_len, size_t h, const struct sarpukten_entry *entries, size_t many, const uint8_t *name,
    size_t name_len, size_t answer[SARPUKTEN_LENT(SARPUKTEN_LENGTH_LOOKUP)])
{
    return sarpukten_bisect_any(
        object, object_len, h, (const size_t *)(const void *)entries, many * SARPUKTEN_WIDTH_ENTRY, name, name_len, answer);
}

SARPUKTEN_CHECKED static inline size_t sarpukten_bisect_all_in_entries(
    const uint8_t *object, size_t object_len, size_t h, const struct sarpukten_entry *entries, size_t many, const uint8_t *names,
    size_t names_len, const struct sarpukten_sought *sought, size_t many_sought, struct sarpukten_found *found, size_t many_found,
    size_t answer[SARPUKTEN_LENT(SARPUKTEN_LENGTH_COUNT)])
{
    return sarpukten_bisect_entries(
        object, object_len, h, (const size_t *)(const void *)entries, many * SARPUKTEN_WIDTH_ENTRY, names, names_len,
        (const size_t *)(const void *)sought, many_sought * SARPUKTEN_WIDTH_SOUGHT, (size_t *)(void *)found, many_found * SARPUKTEN_WIDTH_FOUND,
        answer);
}

SARPUKTEN_CHECKED static inline size_t sarpukten_tree_size_entries(
    const uint8_t *bytes, size_t bytes_len, size_t h, const struct sarpukten_entry *entries, size_t many,
    size_t answer[SARPUKTEN_LENT(SARPUKTEN_LENGTH_COUNT)])
{
    return sarpukten_tree_size(bytes, bytes_len, h, (const size_t *)(const void *)entries, many * SARPUKTEN_WIDTH_ENTRY, answer);
}

SARPUKTEN_CHECKED static inline size_t sarpukten_write_tree_entries(
    const uint8_t *bytes, size_t bytes_len, size_t h, const struct sarpukten_entry *entries, size_t many, uint8_t *out, size_t out_len,
    size_t answer[SARPUKTEN_LENT(SARPUKTEN_LENGTH_COUNT)])
{
    return sarpukten_write_tree(bytes, bytes_len, h, (const size_t *)(const void *)entries, many * SARPUKTEN_WIDTH_ENTRY, out, out_len, answer);
}

struct sarpukten_item {
    size_t path_start, path_end, left_mode, right_mode, left_id, right_id;
};
typedef char sarpukten_item_is_six_numbers[sizeof(struct sarpukten_item) == SARPUKTEN_WIDTH_ITEM * sizeof(size_t) ? 1 : -1];

SARPUKTEN_CHECKED static inline size_t sarpukten_compare_trees_items(
    const uint8_t *bundle, size_t bundle_len, const uint8_t *left, size_t left_len, const uint8_t *right, size_t right_len,
    struct sarpukten_item *items, size_t many, uint8_t *paths, size_t paths_len, size_t answer[SARPUKTEN_LENT(SARPUKTEN_LENGTH_COUNT)])
{
    return sarpukten_compare_trees(
        bundle, bundle_len, left, left_len, right, right_len, (size_t *)(void *)items, many * SARPUKTEN_WIDTH_ITEM, paths, paths_len, answer);
}

struct sarpukten_header {
    size_t name_start, name_end, value_start, value_end, mark;
};
typedef char sarpukten_header_is_five_numbers[sizeof(struct sarpukten_header) == SARPUKTEN_WIDTH_HEADER * sizeof(size_t) ? 1 : -1];

struct sarpukten_parts {
    size_t tree, author, author_end, committer, committer_end, has_encoding, encoding, encoding_end, message, message_end;
};
typedef char sarpukten_parts_is_ten_numbers[sizeof(struct sarpukten_parts) == SARPUKTEN_WIDTH_PARTS * sizeof(size_t) ? 1 : -1];

/* The parts of a commit's answer. */
SARPUKTEN_CHECKED static inline struct sarpukten_parts sarpukten_parts_of_commit(const size_t answer[SARPUKTEN_LENT(SARPUKTEN_LENGTH_COMMIT)])
{
    const size_t *parts = answer + SARPUKTEN_ANSWER_PARTS;
    struct sarpukten_parts p;

    p.tree = parts[SARPUKTEN_PART_TREE];
    p.author = parts[SARPUKTEN_PART_AUTHOR];
    p.author_end = parts[SARPUKTEN_PART_AUTHOR_END];
    p.committer = parts[SARPUKTEN_PART_COMMITTER];
    p.committer_end = parts[SARPUKTEN_PART_COMMITTER_END];
    p.has_encoding = parts[SARPUKTEN_PART_HAS_ENCODING];
    p.encoding = parts[SARPUKTEN_PART_ENCODING];
    p.encoding_end = parts[SARPUKTEN_PART_ENCODING_END];
    p.message = parts[SARPUKTEN_PART_MESSAGE];
    p.message_end = parts[SARPUKTEN_PART_MESSAGE_END];
    return p;
}

/* A parent is one number, so that `parents` is a list of numbers here too. */
SARPUKTEN_CHECKED static inline size_t sarpukten_read_commit_headers(
    const uint8_t *bytes, size_t bytes_len, size_t h, size_t *parents, size_t many_parents, struct sarpukten_header *headers,
    size_t many_headers, size_t answer[SARPUKTEN_LENT(SARPUKTEN_LENGTH_COMMIT)])
{
    return sarpukten_read_commit(
        bytes, bytes_len, h, parents, many_parents * SARPUKTEN_WIDTH_PARENT, (size_t *)(void *)headers, many_headers * SARPUKTEN_WIDTH_HEADER, answer);
}

SARPUKTEN_CHECKED static inline size_t sarpukten_unfold_header(
    const uint8_t *bytes, size_t bytes_len, const struct sarpukten_header *header, uint8_t *out, size_t out_len,
    size_t answer[SARPUKTEN_LENT(SARPUKTEN_LENGTH_COUNT)])
{
    return sarpukten_unfold(bytes, bytes_len, (const size_t *)(const void *)header, out, out_len, answer);
}

SARPUKTEN_CHECKED static inline size_t sarpukten_commit_size_headers(
    const uint8_t *bytes, size_t bytes_len, size_t h, const struct sarpukten_parts *parts, const size_t *parents, size_t many_parents,
    const struct sarpukten_header *headers, size_t many_headers, size_t answer[SARPUKTEN_LENT(SARPUKTEN_LENGTH_COUNT)])
{
    return sarpukten_commit_size(
        bytes, bytes_len, h, (const size_t *)(const void *)parts, parents, many_parents * SARPUKTEN_WIDTH_PARENT,
        (const size_t *)(const void *)headers, many_headers * SARPUKTEN_WIDTH_HEADER, answer);
}

SARPUKTEN_CHECKED static inline size_t sarpukten_write_commit_headers(
    const uint8_t *bytes, size_t bytes_len, size_t h, const struct sarpukten_parts *parts, const size_t *parents, size_t many_parents,
    const struct sarpukten_header *headers, size_t many_headers, uint8_t *out, size_t out_len,
    size_t answer[SARPUKTEN_LENT(SARPUKTEN_LENGTH_COUNT)])
{
    return sarpukten_write_commit(
        bytes, bytes_len, h, (const size_t *)(const void *)parts, parents, many_parents * SARPUKTEN_WIDTH_PARENT,
        (const size_t *)(const void *)headers, many_headers * SARPUKTEN_WIDTH_HEADER, out, out_len, answer);
}

#ifdef __cplusplus
}
#endif

#endif
