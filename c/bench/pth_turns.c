// The same work with GNU Pth: two threads that yield to each other, N turns.
//
//     pth_turns N
#include <pth.h>
#include <stdio.h>
#include <stdlib.h>

static unsigned long turns, made;

static void *work(void *unused) {
    (void)unused;
    while (made < turns) {
        made++;
        pth_yield(NULL);
    }
    return NULL;
}

int main(int argc, char **argv) {
    turns = argc > 1 ? strtoul(argv[1], NULL, 10) : 1000000;
    pth_init();
    pth_t other = pth_spawn(PTH_ATTR_DEFAULT, work, NULL);
    work(NULL);
    pth_join(other, NULL);
    pth_kill();
    printf("%lu turns\n", made);
    return 0;
}
