/* Lists what is in a document, with lines and columns: reads the standard input, and writes the standard output. */
#include <stdio.h>
#include <stdlib.h>

#include "toml_edit.h"

enum { MOST = 1 << 16 };

static uint8_t text[MOST], names[MOST];
static struct toml_edit_node nodes[MOST];

/* Writes the keys of a node, with dots between them. An element has its number. */
static void write_path(size_t node)
{
    size_t parent = nodes[node].parent, at = 0;
    if (parent)
        write_path(parent), printf(".");
    if (nodes[node].key.end) {
        struct toml_edit_span name = nodes[node].name;
        printf("%.*s", (int)(name.end - name.start), names + name.start);
        return;
    }
    for (size_t it = parent + 1; it < node; it = nodes[it].next)
        at++;
    printf("%zu", at);
}

int main(void)
{
    size_t size = fread(text, 1, sizeof text, stdin);
    struct toml_edit_answer answer = toml_edit_index(0, text, size, nodes, MOST, names, sizeof names);
    if (answer.status != TOML_EDIT_DONE)
        return (int)answer.status;
    for (size_t node = 1; node < answer.needed; node++) {
        struct toml_edit_span item = nodes[node].item;
        printf("%zu:%zu ", nodes[node].line, nodes[node].column);
        write_path(node);
        if (nodes[node].kind <= TOML_EDIT_LOCAL_TIME)
            printf(" = %.*s", (int)(item.end - item.start), text + item.start);
        printf("\n");
    }
    return 0;
}
