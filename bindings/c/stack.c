/* Measures the stack that a call takes: runs calls in a thread whose stack is painted before, and writes how many bytes were used, for a usual
 * document and for documents at the limits. Ends with status 1 if one is more than the header says. */
#include <pthread.h>
#include <stdio.h>
#include <stdlib.h>
#include <string.h>

#include "toml_edit.h"

enum { SAID = 1024, LENT = 48 * 1024 * 1024, PAINT = 0xA5, LIMIT = 80 };

static char text[1 << 16], path[1 << 12], value[1 << 15];
static uint8_t room[1 << 18];
static struct toml_edit_node nodes[1 << 14];

static const char *const names[] = {"print", "get", "set", "remove", "check", "json", "edit", "format", "keys", "index", "run"};
enum { CALLS = sizeof names / sizeof *names };
static int call;

static void *work(void *unused)
{
    const uint8_t *t = (const uint8_t *)text, *p = (const uint8_t *)path, *v = (const uint8_t *)value;
    static uint8_t script[1 << 16], errors[1 << 10];
    struct toml_edit_place place;
    struct toml_edit_sizes sizes;
    size_t size = (size_t)sprintf((char *)script, "set%c%s%c%s", 0, path, 0, value);
    switch (call) {
    case 0: toml_edit_print(TOML_EDIT_EXACT, t, strlen(text), room, sizeof room); break;
    case 1: toml_edit_get(0, t, strlen(text), p, strlen(path), room, sizeof room); break;
    case 2: toml_edit_set(0, t, strlen(text), p, strlen(path), v, strlen(value), room, sizeof room); break;
    case 3: toml_edit_remove(0, t, strlen(text), p, strlen(path), room, sizeof room); break;
    case 4: toml_edit_check(TOML_EDIT_TOML_1_0, t, strlen(text), &place, room, sizeof room); break;
    case 5: toml_edit_json(0, t, strlen(text), p, 0, room, sizeof room); break;
    case 6: toml_edit_edit(0, t, strlen(text), script, size, room, sizeof room); break;
    case 7: toml_edit_format(TOML_EDIT_EXACT, t, strlen(text), room, sizeof room); break;
    case 8: toml_edit_keys(0, t, strlen(text), p, 0, room, sizeof room); break;
    case 9: toml_edit_index(0, t, strlen(text), nodes, sizeof nodes / sizeof *nodes, room, sizeof room); break;
    default: toml_edit_run(script, size, t, strlen(text), room, sizeof room, errors, sizeof errors, &sizes);
    }
    return unused;
}

/* Returns how much of a painted stack the call takes. */
static size_t used(void)
{
    unsigned char *stack = aligned_alloc(4096, LENT);
    pthread_attr_t how;
    pthread_t thread;
    if (!stack)
        exit(1);
    memset(stack, PAINT, LENT);
    pthread_attr_init(&how);
    pthread_attr_setstack(&how, stack, LENT);
    if (pthread_create(&thread, &how, work, NULL) || pthread_join(thread, NULL))
        exit(1);
    size_t left = 0;
    while (left < LENT && stack[left] == PAINT)
        left++;
    free(stack);
    return LENT - left;
}

static void repeat(char *to, const char *part, int count)
{
    while (count-- > 0)
        strcat(to, part);
}

/* Writes how many KB each call takes. Returns 1 if one takes more than is said. */
static int row(const char *title)
{
    int over = 0;
    printf("%-24s", title);
    for (call = 0; call < CALLS; call++) {
        size_t most = (used() + 1023) / 1024;
        printf(" %s %zu", names[call], most);
        over |= most > SAID;
    }
    printf(" KB\n");
    text[0] = path[0] = value[0] = 0;
    return over;
}

int main(void)
{
    int over = 0;
    strcat(text, "# a\n[package]\nname = 'a'\nversion = '1'\n[[bin]]\nname = 'b'\n");
    strcat(path, "package.version");
    strcat(value, "'2'");
    over |= row("a usual document");
    strcat(text, "a = ");
    repeat(text, "[", LIMIT), repeat(text, "]", LIMIT), strcat(text, "\n");
    strcat(path, "a"), repeat(path, ".0", LIMIT - 1);
    repeat(value, "[", LIMIT), repeat(value, "]", LIMIT);
    over |= row("arrays in arrays");
    strcat(text, "a = ");
    repeat(text, "{ b = ", LIMIT), strcat(text, "1"), repeat(text, " }", LIMIT), strcat(text, "\n");
    strcat(path, "a"), repeat(path, ".b", LIMIT - 1);
    repeat(value, "{ b = ", LIMIT), strcat(value, "1"), repeat(value, " }", LIMIT);
    over |= row("inline tables in each other");
    strcat(text, "a"), repeat(text, ".b", LIMIT - 1), strcat(text, " = 1\n[c");
    repeat(text, ".d", LIMIT - 1), strcat(text, "]\nx"), repeat(text, ".y", LIMIT - 1), strcat(text, " = ");
    repeat(text, "[", LIMIT), repeat(text, "]", LIMIT), strcat(text, "\n");
    strcat(path, "a"), repeat(path, ".b", LIMIT - 1);
    repeat(value, "[{ a = ", LIMIT / 2), strcat(value, "1"), repeat(value, " }]", LIMIT / 2);
    over |= row("paths and arrays");
    for (int count = 0; count < LIMIT; count++)
        strcat(text, "a"), repeat(text, ".b", LIMIT - 1), strcat(text, " = { ");
    strcat(text, "c = 1"), repeat(text, " }", LIMIT), strcat(text, "\n");
    strcat(path, "a"), repeat(path, ".b", LIMIT - 1);
    static char kept[1 << 16];
    strcpy(kept, text);
    for (int count = 0; count < LIMIT; count++)
        strcat(value, "{ a"), repeat(value, ".b", LIMIT - 1), strcat(value, " = ");
    strcat(value, "1"), repeat(value, " }", LIMIT);
    over |= row("paths in inline tables");
    strcat(text, "[[t]]\n"), strcat(text, kept);
    strcat(path, "t"), strcat(value, "1");
    over |= row("those in an array");
    return over;
}
