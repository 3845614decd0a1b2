/* The handler `nap` in C: it sleeps until 10, and its answer is "ok". Two attempts at it are fed by hand. The first finds nothing recorded:
 * it asks for the sleep, and is suspended. The second finds that the sleep is over, and ends. */
#include "hengomaru.h"
#include <stdio.h>

static uint8_t reply[65536];

static size_t take_reply(hengomaru_vm *vm) { return hengomaru_vm_reply(vm, reply, sizeof reply); }

static const uint8_t *bytes(const char *text) { return (const uint8_t *)text; }

/* Tells what a call has come to, and whether it is done. */
static int is_done(hengomaru_vm *vm, const char *call, uint32_t status) {
    printf("  %s: %u", call, status);
    if (status == HENGOMARU_FAILED || status == HENGOMARU_SUSPENDED) {
        uint32_t code, behavior;
        uint64_t delay;
        int64_t command;
        if (hengomaru_vm_last_error(vm, &code, &behavior, &delay, &command) == HENGOMARU_OK) {
            size_t length = take_reply(vm);
            printf(" (%u %.*s)", code, (int)length, (const char *)reply);
        }
    }
    printf("\n");
    return status == HENGOMARU_OK;
}

/* The handler. It is left as soon as a call is not done. */
static void nap(hengomaru_vm *vm) {
    uint64_t seed;
    uint32_t sleep, outcome, detail, kind, found;
    if (!is_done(vm, "input", hengomaru_vm_sys_input(vm, &seed))) return;
    if (hengomaru_vm_input_part(vm, HENGOMARU_ID, 0, &found) == HENGOMARU_OK && found) {
        size_t length = take_reply(vm);
        printf("  of %.*s\n", (int)length, (const char *)reply);
    }
    if (!is_done(vm, "sleep", hengomaru_vm_sys_sleep(vm, bytes(""), 0, 10, &sleep))) return;
    hengomaru_node tree[] = { { HENGOMARU_HANDLE, sleep, 0 } };
    if (!is_done(vm, "await", hengomaru_vm_do_await(vm, tree, 1, &outcome, &detail))) return;
    printf("  outcome %u\n", outcome);
    if (!is_done(vm, "take", hengomaru_vm_take_notification(vm, sleep, &kind))) return;
    printf("  kind %u\n", kind);
    if (!is_done(vm, "output", hengomaru_vm_sys_write_output(vm, bytes("ok"), 2, 0, 0))) return;
    is_done(vm, "end", hengomaru_vm_sys_end(vm));
}

/* Prints the frames that the attempt has written: for each its type, and its payload. */
static void show_output(hengomaru_vm *vm) {
    if (!is_done(vm, "take output", hengomaru_vm_take_output(vm))) return;
    size_t length = take_reply(vm);
    for (size_t at = 0; at + 8 <= length;) {
        size_t payload = (size_t)reply[at + 4] << 24 | (size_t)reply[at + 5] << 16 | (size_t)reply[at + 6] << 8 | reply[at + 7];
        printf("  frame %02x%02x", reply[at], reply[at + 1]);
        for (size_t byte = 0; byte < payload && at + 8 + byte < length; byte++) printf(byte ? "%02x" : " %02x", reply[at + 8 + byte]);
        printf("\n");
        at += 8 + payload;
    }
}

static void attempt(const char *name, const uint8_t *frames, size_t length) {
    static const char type[] = "application/vnd.restate.invocation.v7";
    hengomaru_vm vm = { NULL };
    uint32_t code;
    printf("%s\n", name);
    if (!is_done(&vm, "new", hengomaru_vm_new(&vm, bytes(type), sizeof type - 1, 0, 0, &code))) return;
    uint32_t status = HENGOMARU_OK;
    for (size_t at = 0; at < length && status == HENGOMARU_OK; at++) status = hengomaru_vm_notify_input(&vm, frames + at, 1);
    if (is_done(&vm, "feed", status) && is_done(&vm, "input closed", hengomaru_vm_notify_input_closed(&vm))) {
        nap(&vm);
        show_output(&vm);
    }
    hengomaru_vm_free(&vm);
}

/* Each frame is a header of its type, and its length, and a payload. */
#define START(entries) 0, 0, 0, 0, 0, 0, 0, 16, 0x0a, 5, 'i', 'n', 'v', '_', '1', 0x12, 5, 'i', 'n', 'v', '_', '1', 0x18, entries
#define INPUT 4, 0, 0, 0, 0, 0, 0, 2, 0x72, 0
#define SLEEP 4, 0x0c, 0, 0, 0, 0, 0, 4, 8, 10, 0x58, 1
#define SLEPT 0x80, 0x0c, 0, 0, 0, 0, 0, 4, 8, 1, 0x22, 0

int main(void) {
    static const uint8_t first[] = { START(1), INPUT };
    static const uint8_t second[] = { START(3), INPUT, SLEEP, SLEPT };
    attempt("the first attempt", first, sizeof first);
    attempt("the second attempt", second, sizeof second);
    return 0;
}
