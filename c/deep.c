/* Awaits a tree of so many levels: one that is nested too deep is refused, and no stack is used up. */
#include "hengomaru.h"
#include <stdio.h>
#include <stdlib.h>

/* What the await of a tree of so many levels is answered, on a machine of its own; where the machine has failed, its code. */
static uint32_t awaited(size_t levels) {
    static const char type[] = "application/vnd.restate.invocation.v7";
    hengomaru_vm vm = { NULL };
    hengomaru_node *tree = malloc((levels + 1) * sizeof *tree);
    uint32_t code, behavior, outcome, detail, status = HENGOMARU_MEMORY;
    uint64_t delay;
    int64_t command;
    if (!tree) return status;
    for (size_t at = 0; at < levels; at++) tree[at] = (hengomaru_node){ HENGOMARU_ALL_COMPLETED, 1, 0 };
    tree[levels] = (hengomaru_node){ HENGOMARU_HANDLE, 17, 0 };
    if (hengomaru_vm_new(&vm, (const uint8_t *)type, sizeof type - 1, 0, 0, &code) == HENGOMARU_OK) {
        status = hengomaru_vm_do_await(&vm, tree, levels + 1, &outcome, &detail);
        if (status == HENGOMARU_FAILED && hengomaru_vm_last_error(&vm, &code, &behavior, &delay, &command) == HENGOMARU_OK) status = code;
        hengomaru_vm_free(&vm);
    }
    free(tree);
    return status;
}

int main(void) {
    printf("100 levels: %u, 256: %u, 257: %u, 1000000: %u\n", awaited(100), awaited(256), awaited(257), awaited(1000000));
    return 0;
}
