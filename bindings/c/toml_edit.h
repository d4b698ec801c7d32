/*
 * Reads and edits TOML documents, and keeps the comments, the spacing and the spelling of what is
 * not changed.
 *
 * Each call takes a whole text and gives a text, as `snprintf` does: the caller lends the room, and
 * the answer says how many bytes are needed. If they do not fit, nothing is written.
 *
 *     struct toml_edit_answer answer =
 *         toml_edit_set(0, text, text_size, path, path_size, value, value_size, room, room_size);
 *     if (answer.status == TOML_EDIT_SHORT) { .. lend answer.needed bytes, and call again .. }
 *
 * Texts are UTF-8, without a zero byte at the end.
 *
 * A pointer is never null, not even that of a text or a room of no bytes.
 *
 * What a call writes to does not overlap a text, nor each other, and no other thread reads or
 * writes any of it during the call. A call writes to nothing but the rooms, the place of
 * `toml_edit_check`, the sizes of `toml_edit_run`, and memory that it takes by `malloc` and gives
 * back before it returns.
 *
 * A document, a path or a value with more than 80 keys in a path or 80 brackets in one another is
 * refused. Within these limits 1 MB of stack is enough for every call. Edits that build a deeper
 * document before it is refused can take more. An overflow ends the process.
 *
 * A call may not be made from a signal handler, or from the child of a fork of a process with
 * threads. `malloc`, `realloc` and `free` have to be of one allocator.
 *
 * Nothing checks that a caller keeps to this page.
 */
#ifndef TOML_EDIT_H
#define TOML_EDIT_H

#include <stddef.h>
#include <stdint.h>

/* The version of this header, and as a number: 10000 for each major version, 100 for each minor
 * one. */
#define TOML_EDIT_VERSION "0.1.0"
#define TOML_EDIT_VERSION_NUMBER 100

#ifdef __cplusplus
extern "C" {
#endif

/* Flags of all calls, which can be put together by `|`. Without them a text is read as TOML 1.1,
 * and every line that is printed ends in a line feed (LF). */
enum {
    /* Keeps the line endings of the text, and prints no newline at the end if it has none. */
    TOML_EDIT_EXACT = 1,
    /* Reads the text and the value as TOML 1.0. */
    TOML_EDIT_TOML_1_0 = 2,
};

/* How a call ended. */
enum {
    /* The text is in the room. */
    TOML_EDIT_DONE = 0,
    /* The text does not fit in the room. Nothing was written. */
    TOML_EDIT_SHORT = 1,
    /* The text is not TOML. `toml_edit_check` says why. */
    TOML_EDIT_REFUSED = 2,
    /* The text is not UTF-8. */
    TOML_EDIT_NOT_UTF8 = 3,
    /* The path is not valid. */
    TOML_EDIT_BAD_PATH = 4,
    /* The value is not valid. */
    TOML_EDIT_BAD_VALUE = 5,
    /* Nothing is at the path. */
    TOML_EDIT_NO_SUCH_PATH = 6,
    /* A table is at the path of a value to be set, or a scalar before its end. */
    TOML_EDIT_WRONG_KIND = 7,
    /* The changed document would not be valid, as after 80 brackets in one another. */
    TOML_EDIT_UNFIT = 8,
    TOML_EDIT_OUT_OF_MEMORY = 9,
    /* The flags are not valid. */
    TOML_EDIT_BAD_FLAGS = 10,
    /* The script is not UTF-8, or an edit has no such word, or too few operands. */
    TOML_EDIT_BAD_SCRIPT = 11,
    /* No element of the array is equal. */
    TOML_EDIT_NO_SUCH_ELEMENT = 12,
    /* A key has the new name already. */
    TOML_EDIT_TAKEN = 13,
    /* The comment has a control character. */
    TOML_EDIT_BAD_COMMENT = 14,
};

struct toml_edit_answer {
    /* One of the numbers above. */
    uint32_t status;
    /* How many bytes the text has, whether they fit or not. If there is none: 0, but for
     * `toml_edit_check` and `toml_edit_edit`, which say what it is then. */
    size_t needed;
};

/* Where in a text a message is about. All numbers are 0 if it is about no place. */
struct toml_edit_place {
    /* The first byte, from 0, and the byte after the last. */
    size_t start;
    size_t end;
    /* The line of the first byte, from 1. */
    size_t line;
    /* The column of the first byte, from 1 and in characters. */
    size_t column;
};

/* Gives the print of a text: as it was, but for byte order mark, line endings and a last newline,
 * and dotted keys that are brought together. */
struct toml_edit_answer toml_edit_print(
    uint32_t flags, const uint8_t *text, size_t text_size, uint8_t *room, size_t room_size);

/* Gives the item at a path: a value as it is spelled and a newline, the lines of a table, or an
 * array of tables as an array. The lines of tables that have headers of their own are left out.
 *
 * A path has keys with dots between them, as TOML spells them. In an array, or in an array of
 * tables, a key is the decimal number of an element, from 0. */
struct toml_edit_answer toml_edit_get(
    uint32_t flags, const uint8_t *text, size_t text_size, const uint8_t *path, size_t path_size,
    uint8_t *room, size_t room_size);

/* Gives the text with a value at a path. A value that is there is replaced, and its comments stay.
 * A key that is missing is added at the end of its table, below other missing keys in an inline
 * table, in its default spelling. Every other statement stays as `toml_edit_print` gives it. */
struct toml_edit_answer toml_edit_set(
    uint32_t flags, const uint8_t *text, size_t text_size, const uint8_t *path, size_t path_size,
    const uint8_t *value, size_t value_size, uint8_t *room, size_t room_size);

/* Gives the text without the item at a path. Every other statement stays as `toml_edit_print` gives
 * it. Of an element of an array the value goes alone, and its comments stay: the edit `remove` of
 * `toml_edit_edit` takes its line and its comments too. */
struct toml_edit_answer toml_edit_remove(
    uint32_t flags, const uint8_t *text, size_t text_size, const uint8_t *path, size_t path_size,
    uint8_t *room, size_t room_size);

/* Checks a text. The status is TOML_EDIT_DONE if it is accepted. If it is TOML_EDIT_REFUSED,
 * `place` is what the message is about, and `needed` is how many bytes the message has. It is
 * written if it fits in the room. */
struct toml_edit_answer toml_edit_check(
    uint32_t flags, const uint8_t *text, size_t text_size, struct toml_edit_place *place,
    uint8_t *room, size_t room_size);

/* Gives the item at a path as JSON, on one line. The empty path leads to the whole document.
 *
 * Tables are objects, with their keys in order. Dates, times, `inf` and `nan` are strings. */
struct toml_edit_answer toml_edit_json(
    uint32_t flags, const uint8_t *text, size_t text_size, const uint8_t *path, size_t path_size,
    uint8_t *room, size_t room_size);

/* Gives the text formatted by the usual rules: spaces, empty lines, indentation, and the lines of
 * arrays and inline tables. Keys and values keep their spelling and their order, and each comment
 * stays with what it belongs to. Formatted again, the text stays as it is.
 *
 * By TOML_EDIT_EXACT, lines that are made end in CR LF if the first line of the text does. */
struct toml_edit_answer toml_edit_format(
    uint32_t flags, const uint8_t *text, size_t text_size, uint8_t *room, size_t room_size);

/* Gives the text with the edits of a script, which are made one after another or not at all.
 *
 * A script has for each edit its word and its operands, each with a zero byte after it, which the
 * last may lack:
 *
 *     set PATH VALUE       puts a value, below inline tables where tables are missing
 *     string PATH TEXT     puts the string of these characters, as `set` does
 *     header PATH VALUE    puts a value, below headers where tables are missing
 *     table PATH VALUE     adds `[[PATH]]` with the pairs of an inline table
 *     section PATH         adds an empty `[PATH]` after all other headers
 *     remove PATH          removes an item: an element of an array with its line and its comments
 *     append PATH VALUE    adds a value at the end of an array, on a line if the others are
 *     insert PATH VALUE    inserts a value before an element, or at the end
 *     take PATH VALUE      removes the first equal value of an array, with its line and comments
 *     rename PATH KEY      gives a key another name; KEY is one key, spelled as in a path
 *     move PATH PATH       moves a key with its item
 *     sort PATH            sorts the keys of a table
 *     comment PATH TEXT    sets the comment after a value or a header to TEXT, if that begins with
 *                          `#`, else to `# TEXT`; the empty TEXT, and `#` alone, remove it
 *
 * The empty path is the root. New keys get their default spelling, bare where they can be. In an
 * array of tables `append`, `insert` and `take` go by the pairs of an inline table, `remove` and
 * `move` by the number of a table.
 *
 * If an edit is refused, or its words are not valid, `needed` is its number, from 1: the first for
 * which that is so. It is 0 for TOML_EDIT_UNFIT, which is about all edits, and for reasons that are
 * about none. The words are read before the text.
 *
 * A zero byte in a word ends it, and what is behind it are the words of other edits: the library
 * can't see that, and refuses only what makes no edits. So refuse it in words from elsewhere.
 */
struct toml_edit_answer toml_edit_edit(
    uint32_t flags, const uint8_t *text, size_t text_size, const uint8_t *script, size_t script_size,
    uint8_t *room, size_t room_size);

/* The bytes from `start` up to `end`. Both numbers are 0 where there are none. */
struct toml_edit_span {
    size_t start;
    size_t end;
};

/* What a node of an index is. */
enum {
    TOML_EDIT_ROOT = 0,
    TOML_EDIT_STRING = 1,
    TOML_EDIT_INTEGER = 2,
    TOML_EDIT_FLOAT = 3,
    TOML_EDIT_BOOLEAN = 4,
    TOML_EDIT_OFFSET_DATETIME = 5,
    TOML_EDIT_LOCAL_DATETIME = 6,
    TOML_EDIT_LOCAL_DATE = 7,
    TOML_EDIT_LOCAL_TIME = 8,
    TOML_EDIT_ARRAY = 9,
    TOML_EDIT_INLINE_TABLE = 10,
    /* An inline table that came about by a dotted key in another one. */
    TOML_EDIT_DOTTED_INLINE_TABLE = 11,
    /* A table with a header of its own. */
    TOML_EDIT_TABLE = 12,
    /* A table that came about by the header of one below it. */
    TOML_EDIT_IMPLICIT_TABLE = 13,
    /* A table that came about by a dotted key. */
    TOML_EDIT_DOTTED_TABLE = 14,
    TOML_EDIT_ARRAY_OF_TABLES = 15,
};

/* An item of a document, by numbers alone. */
struct toml_edit_node {
    size_t kind;
    /* The number of the node that holds it; that of the root is 0. */
    size_t parent;
    /* The number of the first node behind it and what is below it. */
    size_t next;
    /* The name of its key, in `names`. An element of an array has none. */
    struct toml_edit_span name;
    /* The characters of a string, in `names`. */
    struct toml_edit_span content;
    /* The key, in the text. */
    struct toml_edit_span key;
    /* In the text: a value, the header of a table with its brackets, the key of a table without a
     * header, or from the first header of an array of tables to the last. */
    struct toml_edit_span item;
    /* White space and comments before the key of a value, a header, or an element. */
    struct toml_edit_span before;
    /* White space and the comment after a value or a header, and by TOML_EDIT_EXACT the CR of the
     * newline; of the root, what is after the last statement. */
    struct toml_edit_span after;
    /* The line and the column where its key begins, or itself if it has none, from 1. Columns are
     * in characters. */
    size_t line;
    size_t column;
};

/* Gives the nodes of a document: the root, and then each item, before those below it. The items of
 * a table are in the order in which their keys are first in the text. `needed` is how many nodes
 * there are, in any case.
 *
 * The names are those of the keys and the characters of the strings, one behind another. If `names`
 * has as many bytes as the text, they fit. If the nodes or the names do not fit, the status is
 * TOML_EDIT_SHORT and nothing is written.
 *
 * This goes over what is below a node:
 *
 *     for (size_t at = node + 1; at < nodes[node].next; at = nodes[at].next) { .. } */
struct toml_edit_answer toml_edit_index(
    uint32_t flags, const uint8_t *text, size_t text_size, struct toml_edit_node *nodes,
    size_t nodes_count, uint8_t *names, size_t names_size);

/* Gives the keys of the table at a path, as they are spelled, one a line. The empty path leads to
 * the root. The status is TOML_EDIT_WRONG_KIND if no table is there. */
struct toml_edit_answer toml_edit_keys(
    uint32_t flags, const uint8_t *text, size_t text_size, const uint8_t *path, size_t path_size,
    uint8_t *room, size_t room_size);

/* Returns TOML_EDIT_DONE if something is at a path, and TOML_EDIT_NO_SUCH_PATH if not. */
uint32_t toml_edit_has(
    uint32_t flags, const uint8_t *text, size_t text_size, const uint8_t *path, size_t path_size);

/* Gives the default spelling of the string of these characters. */
struct toml_edit_answer toml_edit_string(
    const uint8_t *text, size_t text_size, uint8_t *room, size_t room_size);

/* Gives the default spelling of the key of this name, bare where it can be. */
struct toml_edit_answer toml_edit_key(
    const uint8_t *name, size_t name_size, uint8_t *room, size_t room_size);

/* How many bytes the texts of a run have. */
struct toml_edit_sizes {
    size_t output;
    size_t errors;
};

/* How a run ended. */
enum {
    /* The command is done: what it writes is in the room for the output, and no error. */
    TOML_EDIT_RUN_DONE = 0,
    /* The input is not TOML: why is in the room for the errors, and there is no output. */
    TOML_EDIT_RUN_REFUSED = 1,
    /* The words are not a command, whatever the input is, or it cannot be done: likewise. */
    TOML_EDIT_RUN_MISTAKEN = 2,
    /* Memory ran out. Nothing was written. */
    TOML_EDIT_RUN_OUT_OF_MEMORY = 3,
    /* A text does not fit in its room. Nothing was written, and `sizes` says what is needed. */
    TOML_EDIT_RUN_SHORT = 5,
};

/* Runs the program `tomled` with these words on an input, and gives its output, its errors and its
 * exit status. Each word has a zero byte after it, which the last may lack. Invalid words, and an
 * invalid path or value, are reported before an invalid input. */
uint32_t toml_edit_run(
    const uint8_t *words, size_t words_size, const uint8_t *input, size_t input_size,
    uint8_t *output, size_t output_size, uint8_t *errors, size_t errors_size,
    struct toml_edit_sizes *sizes);

#ifdef __cplusplus
}
#endif

#endif
