/* Sets the version of a manifest, formats it, or makes edits: reads the standard input, and writes the standard output.
 *
 *     example VALUE < Cargo.toml > Cargo.toml.new
 *     example < Cargo.toml > Cargo.toml.new
 *     example string package.name a remove bin.0 < Cargo.toml > Cargo.toml.new
 */
#include <stdio.h>
#include <stdlib.h>
#include <string.h>

#include "toml_edit.h"

/* Reads a file to its end. Returns its bytes, which the caller frees, or a null pointer. */
static uint8_t *read_all(FILE *file, size_t *size)
{
    size_t room = 4096;
    uint8_t *bytes = malloc(room);
    *size = 0;
    while (bytes) {
        *size += fread(bytes + *size, 1, room - *size, file);
        if (*size < room)
            break;
        uint8_t *more = realloc(bytes, room *= 2);
        if (!more)
            free(bytes);
        bytes = more;
    }
    if (bytes && ferror(file)) {
        free(bytes);
        bytes = NULL;
    }
    return bytes;
}

/* Writes why a text is refused. */
static void complain(const uint8_t *text, size_t size)
{
    uint8_t message[200];
    struct toml_edit_place place;
    struct toml_edit_answer answer = toml_edit_check(0, text, size, &place, message, sizeof message);
    if (answer.status == TOML_EDIT_REFUSED && answer.needed <= sizeof message)
        fprintf(stderr, "%zu:%zu: %.*s\n", place.line, place.column, (int)answer.needed, message);
}

/* Gives the text with the edits of these words, of which there are two or more. */
static struct toml_edit_answer edit(const uint8_t *text, size_t size, char **words, uint8_t *room, size_t room_size)
{
    uint8_t script[4096];
    size_t used = 0;
    for (; *words; words++) {
        size_t more = strlen(*words) + 1;
        if (more > sizeof script - used)
            return (struct toml_edit_answer){.status = TOML_EDIT_BAD_SCRIPT};
        memcpy(script + used, *words, more);
        used += more;
    }
    return toml_edit_edit(TOML_EDIT_EXACT, text, size, script, used, room, room_size);
}

/* Gives the text with this version, formatted if there are no words, or with edits if there are more. */
static struct toml_edit_answer change(
    const uint8_t *text, size_t size, char **words, uint8_t *room, size_t room_size)
{
    static const char path[] = "package.version";
    if (!words[0])
        return toml_edit_format(TOML_EDIT_EXACT, text, size, room, room_size);
    if (words[1])
        return edit(text, size, words, room, room_size);
    return toml_edit_set(
        TOML_EDIT_EXACT, text, size, (const uint8_t *)path, strlen(path), (const uint8_t *)words[0], strlen(words[0]), room,
        room_size);
}

int main(int count, char **words)
{
    size_t size;
    uint8_t *text = count ? read_all(stdin, &size) : NULL;
    if (!text)
        return 1;
    size_t room_size = size + 16;
    uint8_t *room = malloc(room_size);
    struct toml_edit_answer answer = {.status = TOML_EDIT_OUT_OF_MEMORY};
    while (room) {
        answer = change(text, size, words + 1, room, room_size);
        if (answer.status != TOML_EDIT_SHORT)
            break;
        free(room);
        room = malloc(room_size = answer.needed);
    }
    if (answer.status == TOML_EDIT_DONE)
        fwrite(room, 1, answer.needed, stdout);
    else if (answer.status == TOML_EDIT_REFUSED)
        complain(text, size);
    else
        fprintf(stderr, "nothing was changed: edit %zu, status %u\n", answer.needed, (unsigned)answer.status);
    free(room);
    free(text);
    return answer.status != TOML_EDIT_DONE;
}
