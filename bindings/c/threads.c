/* Makes calls in two threads side by side, on texts that they share, and compares what each gives with what it gave in one thread. Ends with
 * status 1 if one differs. With the thread sanitizer it looks for races.
 *
 *     threads [ROUNDS]
 */
#include <pthread.h>
#include <stdio.h>
#include <stdlib.h>
#include <string.h>

#include "toml_edit.h"

enum { CALLS = 14, ROOM = 4096 };

static const char text[] = "# a\n[package]\nname = 'a' # b\nversion = '1'\nlist = [1, { c.d = 2 }]\n\n[[bin]]\nname = \"b\\n\"\n[[bin]]\n";
static const char path[] = "package.version", value[] = "'2'", script[] = "set\0package.list.0\0 2\0remove\0bin.1\0sort\0package";

/* What a call gives. */
struct given {
    uint32_t status;
    size_t needed;
    uint8_t room[ROOM], more[ROOM];
};

static struct given wanted[CALLS];
static long rounds;

static void made(int call, struct given *to)
{
    const uint8_t *t = (const uint8_t *)text, *p = (const uint8_t *)path, *v = (const uint8_t *)value, *s = (const uint8_t *)script;
    size_t size = sizeof text - 1, path_size = sizeof path - 1, value_size = sizeof value - 1;
    struct toml_edit_answer answer = {.status = 0};
    memset(to, 0, sizeof *to);
    switch (call) {
    case 0: answer = toml_edit_print(TOML_EDIT_EXACT, t, size, to->room, ROOM); break;
    case 1: answer = toml_edit_get(0, t, size, p, path_size, to->room, ROOM); break;
    case 2: answer = toml_edit_set(0, t, size, p, path_size, v, value_size, to->room, ROOM); break;
    case 3: answer = toml_edit_remove(0, t, size, p, path_size, to->room, ROOM); break;
    case 4: answer = toml_edit_check(0, t, size - 2, (struct toml_edit_place *)to->more, to->room, ROOM); break;
    case 5: answer = toml_edit_json(0, t, size, p, 0, to->room, ROOM); break;
    case 6: answer = toml_edit_edit(0, t, size, s, sizeof script - 1, to->room, ROOM); break;
    case 7: answer = toml_edit_format(0, t, size, to->room, ROOM); break;
    case 8: answer = toml_edit_keys(0, t, size, p, 0, to->room, ROOM); break;
    case 9: answer.status = toml_edit_has(0, t, size, p, path_size); break;
    case 10: answer = toml_edit_string(t, size, to->room, ROOM); break;
    case 11: answer = toml_edit_key(t, size, to->room, ROOM); break;
    case 12: answer = toml_edit_index(0, t, size, (struct toml_edit_node *)to->room, ROOM / sizeof(struct toml_edit_node), to->more, ROOM); break;
    default: answer.status = toml_edit_run((const uint8_t *)"get\0package", 11, t, size, to->room, ROOM, to->more, ROOM, &(struct toml_edit_sizes){0});
    }
    to->status = answer.status, to->needed = answer.needed;
}

static void *work(void *own)
{
    static struct given found[2];
    struct given *to = &found[*(int *)own];
    for (long at = 0; at < rounds * CALLS; at++) {
        int call = (int)((at + *(int *)own * CALLS / 2) % CALLS);
        made(call, to);
        if (memcmp(to, &wanted[call], sizeof *to)) {
            fprintf(stderr, "call %d gives something else\n", call);
            exit(1);
        }
    }
    return NULL;
}

int main(int count, char **words)
{
    pthread_t threads[2];
    int numbers[2] = {0, 1};
    rounds = count > 1 ? strtol(words[1], NULL, 10) : 1000;
    for (int call = 0; call < CALLS; call++) {
        made(call, &wanted[call]);
        /* The text of the check is refused; all else is done. */
        if (wanted[call].status != (call == 4 ? TOML_EDIT_REFUSED : TOML_EDIT_DONE))
            return fprintf(stderr, "call %d: status %u\n", call, (unsigned)wanted[call].status), 1;
    }
    for (int at = 0; at < 2; at++)
        if (pthread_create(&threads[at], NULL, work, &numbers[at]))
            return 1;
    for (int at = 0; at < 2; at++)
        pthread_join(threads[at], NULL);
    printf("%ld calls in two threads\n", 2 * rounds * CALLS);
    return 0;
}
