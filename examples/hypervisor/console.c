/* A guest's console: the firmware's, by line, so that two guests don't mix. */
#include "hypervisor.h"

void console_write(struct guest *g, char c) {
    if (c != '\n' && g->column < (int)sizeof g->line - 1) g->line[g->column++] = c;
    if (c != '\n') return;
    g->line[g->column] = 0, g->column = 0;
    say((char[]){g->name, ' ', 0}), say(g->line), say("\n");
}

u64 console_char(struct guest *g) {
    u64 unused;
    (void)g;
    return firmware(2, 0, (u64[6]){0}, &unused);
}

u64 console_read(struct guest *g, unsigned char *to, u64 most) {
    u64 n = 0;
    for (u64 c; n < most && (c = console_char(g)) <= 0xff; n++) to[n] = (unsigned char)c;
    return n;
}
