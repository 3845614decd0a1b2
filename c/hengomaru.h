/* hengomaru.h: the machine of an invocation's attempt, for C and for whatever calls C. Its code is crates/vm_c.
 *
 * A handler is a program whose steps are recorded. An attempt at it is fed what was recorded (`notify_input`), makes its calls (`sys_..`),
 * waits for what they bring (`do_await`, `take_notification`), and hands out what is to be recorded (`take_output`). Where the bytes come
 * from and go to is the host's: a store, a socket, a test. What they are is docs/FORMATS.md.
 *
 * HANDLES. A `hengomaru_vm` is a struct of one pointer that the caller keeps. { NULL } has no machine: each call on it answers
 * HENGOMARU_NO_MACHINE and does nothing, `reply` answers 0, and `free` does nothing. `new` lets go what the handle had, and makes a
 * machine; `free` lets it go, after which the handle is { NULL } again. The pointer is written by these calls alone. A handle is not
 * copied, and has one call at a time; different handles may be used by different threads, each on its own.
 *
 * BYTES go in as a pointer and a length, and are copied: the caller keeps what it has handed over. The pointer is never NULL, also where
 * the length is 0 (write ""). Texts are UTF-8, and need no 0 at their end. Pointers for results are never NULL, and do not overlap; what
 * they point to is set where the call is done, and may be set where it is not.
 *
 * What a call answers as bytes is its REPLY. It stands until the next call on the handle but `reply`; a call that is not done, or answers no
 * bytes, leaves it empty. `reply` copies as much as there is room for, and answers the whole length: ask with room 0 to learn it.
 *
 * STATUS. Each call answers one. What it leaves is told beside each.
 *
 * NOTIFICATIONS are named by handles, which are numbers. Where a call gives one, what the call brings is awaited and taken by it.
 *
 * COMPOSITE arguments and replies are payloads of the protocol's own records (hengomaru.proto), in the wire format of Protocol Buffers. A
 * tree of handles is an array of its nodes, each before those of its children:
 *
 *     hengomaru_node two_of_three[] = {
 *         { HENGOMARU_AT_LEAST, 3, 2 }, { HENGOMARU_HANDLE, a }, { HENGOMARU_HANDLE, b }, { HENGOMARU_HANDLE, c } };
 *     hengomaru_vm_do_await(&vm, two_of_three, 4, &outcome, &detail);
 *
 * Of a tree 256 combinators at most stand one in another; else it is none. The machine fails (573) where more than 99 do.
 *
 * Whatever these calls are called with, in any order, none crashes, hangs or reads past its arguments: that is proved. It needs what this
 * page asks of the caller, which nothing checks: handles as above; pointers that are valid for so many bytes, numbers or nodes, and
 * unchanged during the call; and `malloc`, `realloc` and `free` of one C library.
 */
#ifndef HENGOMARU_H
#define HENGOMARU_H
#include <stddef.h>
#include <stdint.h>
#ifdef __cplusplus
extern "C" {
#endif

#define HENGOMARU_ABI 1

typedef struct hengomaru_vm { void *at; } hengomaru_vm;

/* What a call answers. */
enum {
    HENGOMARU_OK,         /* done */
    HENGOMARU_NO_MACHINE, /* the handle has none */
    HENGOMARU_MEMORY,     /* memory was refused, and the machine is as it was: ask again */
    HENGOMARU_NOT_READ,   /* a text is not UTF-8, or a record, tree or policy is none; the machine is as it was */
    HENGOMARU_FAILED,     /* the machine has failed, and answers so from then on. `last_error` has code and text. What it has written says so
                             too, so that the attempt is tried again, pauses or ends: take the output, and let the machine go. */
    HENGOMARU_SUSPENDED,  /* the attempt waits, and gets no more input: its usual end. Take the output, and let the machine go. */
    HENGOMARU_UNTOLD      /* done, but memory was refused for the reply, which is lost: let the machine go, and begin another attempt. The
                             input alone can be asked for again, by `input_part`. */
};

/* A node of a tree. */
typedef struct hengomaru_node {
    uint32_t kind;     /* below */
    uint32_t number;   /* the handle, or how many children there are */
    uint32_t required; /* how many children are to succeed, for HENGOMARU_AT_LEAST, which needs version 9; else 0 */
} hengomaru_node;
enum {
    HENGOMARU_HANDLE,
    HENGOMARU_FIRST_COMPLETED,
    HENGOMARU_ALL_COMPLETED,
    HENGOMARU_FIRST_SUCCEEDED_OR_ALL_FAILED,
    HENGOMARU_ALL_SUCCEEDED_OR_FIRST_FAILED,
    HENGOMARU_AT_LEAST,
    HENGOMARU_UNKNOWN /* as the first completed */
};

/* What an await has come to, and its detail. */
enum {
    HENGOMARU_COMPLETED,      /* the tree is, or some node of it: take notifications */
    HENGOMARU_WAITING,        /* nothing more can be done here. Detail 1: for input, 2: for the proposal of a run, 3: for both */
    HENGOMARU_EXECUTE_RUN,    /* the body of a run is to be executed, and its outcome proposed. Detail: its handle */
    HENGOMARU_CANCELLED,      /* the invocation was cancelled */
    HENGOMARU_EPHEMERAL_READY /* an ephemeral read can be taken. Detail: its id */
};

/* What was taken, and its reply. */
enum {
    HENGOMARU_NOTHING,
    HENGOMARU_VOID,
    HENGOMARU_VALUE,        /* its bytes */
    HENGOMARU_FAILURE,      /* a Failure */
    HENGOMARU_KEYS,         /* a StateKeys */
    HENGOMARU_INVOCATION_ID /* a text */
};

/* Options of `new`, added; 0 is the usual. */
enum {
    HENGOMARU_NO_IMPLICIT_CANCELLATION = 1, /* a cancellation is a signal like any other */
    HENGOMARU_KEEP_CALLS = 2,               /* a cancellation is not passed on to what was called */
    HENGOMARU_CANCEL_SENDS = 4,             /* and is passed on to what was sent */
    HENGOMARU_NO_PAYLOAD_CHECKS = 8,        /* the bytes of a repeated call are not compared with the recorded ones */
    HENGOMARU_TELL_AWAITS_ALWAYS = 16,      /* tell what is waited for also while a run is executed */
    HENGOMARU_TELL_AWAITS_NEVER = 32,
    HENGOMARU_PAUSE_ON_MISMATCH = 64,       /* where a handler makes other calls than were recorded */
    HENGOMARU_FAIL_ON_MISMATCH = 128,
    HENGOMARU_NO_REPLAY = 256,              /* what was recorded is not replayed */
    HENGOMARU_OVERWRITE_SIGNALS = 512       /* a signal takes the place of one of its name that was not taken */
};

/* Parts of the input. */
enum {
    HENGOMARU_INPUT,
    HENGOMARU_ID,
    HENGOMARU_KEY,
    HENGOMARU_SCOPE,
    HENGOMARU_LIMIT_KEY,
    HENGOMARU_IDEMPOTENCY_KEY,
    HENGOMARU_HEADER_NAME, /* of the header of this index */
    HENGOMARU_HEADER_VALUE
};

#define HENGOMARU_NO_DELAY UINT64_MAX
#define HENGOMARU_CANCEL_HANDLE 1

/* When the body of a run that has failed is executed again. { 0 }: always, after an interval that the runtime chooses. */
typedef struct hengomaru_policy {
    uint32_t kind;                                   /* 0 always, 1 never, 2 after one interval, 3 after intervals that grow by the factor */
    uint32_t pause;                                  /* at a bound: 0 the failure is the outcome, else the invocation is paused (from version 7) */
    uint64_t interval_millis;                        /* of kind 2, 0: the runtime chooses it */
    uint32_t factor_numerator, factor_denominator;   /* of kind 3 */
    uint64_t max_interval_millis;                    /* 0: no bound, as the two below */
    uint64_t max_duration_millis;
    uint32_t max_attempts;
} hengomaru_policy;

/* ---- a machine, its input and its output */

/* For a request of this content type (`application/vnd.restate.invocation.v7`). The code is 0, or why it has FAILED, as in HTTP. */
uint32_t hengomaru_vm_new(hengomaru_vm *, const uint8_t *content_type, size_t, uint32_t options, uint64_t fallback_random_seed, uint32_t *code);
void     hengomaru_vm_free(hengomaru_vm *);
/* How the response begins. Reply: its content type. */
uint32_t hengomaru_vm_response_head(hengomaru_vm *, uint32_t *status_code);
/* Bytes have come, cut anywhere. */
uint32_t hengomaru_vm_notify_input(hengomaru_vm *, const uint8_t *bytes, size_t);
uint32_t hengomaru_vm_notify_input_closed(hengomaru_vm *);
/* The host has failed: the attempt is tried again after the delay, or HENGOMARU_NO_DELAY, or the invocation is paused (from version 7). */
uint32_t hengomaru_vm_notify_error(hengomaru_vm *, uint16_t code, const uint8_t *message, size_t, uint64_t delay_millis, uint32_t pause);
/* Reply: all bytes that were written and not taken. They are to be recorded, or sent, in their order. */
uint32_t hengomaru_vm_take_output(hengomaru_vm *);
size_t   hengomaru_vm_reply(hengomaru_vm *, uint8_t *out, size_t room);
/* What was answered last as FAILED or SUSPENDED: its code, 0 where nothing was; 0 it is tried again, 1 paused, 2 failed; the delay, or
 * HENGOMARU_NO_DELAY; the index of the command that it is about, or -1. Reply: its text. */
uint32_t hengomaru_vm_last_error(hengomaru_vm *, uint32_t *code, uint32_t *behavior, uint64_t *delay_millis, int64_t *command_index);
/* Whether all has come that was recorded before, so that calls can be made. */
uint32_t hengomaru_vm_is_ready_to_execute(hengomaru_vm *, uint32_t *ready);
/* 0 its start has not come, 1 replaying, 2 processing, 3 closed. */
uint32_t hengomaru_vm_state(hengomaru_vm *, uint32_t *state);
/* Of the command that was asked for last; -1 before the first. */
uint32_t hengomaru_vm_last_command_index(hengomaru_vm *, int64_t *index);

/* ---- waiting */

uint32_t hengomaru_vm_do_await(hengomaru_vm *, const hengomaru_node *tree, size_t nodes, uint32_t *outcome, uint32_t *detail);
uint32_t hengomaru_vm_is_completed(hengomaru_vm *, uint32_t notification, uint32_t *completed);
uint32_t hengomaru_vm_take_notification(hengomaru_vm *, uint32_t notification, uint32_t *kind);

/* ---- the handler's calls. An empty name or key of a target is one that is not given. `unstable`: the bytes may differ in the next
 * attempt. `failed`: the value is a Failure. */

/* Comes before all others. The seed is for random numbers that are the same in each attempt. Reply: the input's bytes. */
uint32_t hengomaru_vm_sys_input(hengomaru_vm *, uint64_t *random_seed);
/* Reply: the part, where it is found. */
uint32_t hengomaru_vm_input_part(hengomaru_vm *, uint32_t part, uint32_t index, uint32_t *found);

uint32_t hengomaru_vm_sys_state_get(hengomaru_vm *, const uint8_t *key, size_t, uint32_t unstable, uint32_t *notification);
uint32_t hengomaru_vm_sys_state_get_keys(hengomaru_vm *, uint32_t *notification);
uint32_t hengomaru_vm_sys_state_set(hengomaru_vm *, const uint8_t *key, size_t, const uint8_t *value, size_t, uint32_t unstable);
uint32_t hengomaru_vm_sys_state_clear(hengomaru_vm *, const uint8_t *key, size_t);
uint32_t hengomaru_vm_sys_state_clear_all(hengomaru_vm *);
/* A read of which nothing is recorded (from version 8); it is not awaited by a handle, but told by any await. */
uint32_t hengomaru_vm_ephemeral_state_get(hengomaru_vm *, const uint8_t *key, size_t, uint32_t *id);
uint32_t hengomaru_vm_take_ephemeral_notification(hengomaru_vm *, uint32_t id, uint32_t *kind);

/* Until so many milliseconds after 1970, or whenever the host's time begins. */
uint32_t hengomaru_vm_sys_sleep(hengomaru_vm *, const uint8_t *name, size_t, uint64_t wake_up_millis, uint32_t *notification);

/* The target is a CallCommand. Two notifications: of the id of the invocation that is called, and of its answer. */
uint32_t hengomaru_vm_sys_call(hengomaru_vm *, const uint8_t *target, size_t, const uint8_t *parameter, size_t, uint32_t unstable, uint32_t *invocation_id, uint32_t *answer);
/* Without an answer, at a moment, or at once where it is 0. */
uint32_t hengomaru_vm_sys_send(hengomaru_vm *, const uint8_t *target, size_t, const uint8_t *parameter, size_t, uint64_t execution_time_millis, uint32_t unstable, uint32_t *invocation_id);
uint32_t hengomaru_vm_sys_cancel_invocation(hengomaru_vm *, const uint8_t *target_id, size_t);
/* The target is an AttachInvocationCommand. The first waits for the answer of another invocation, the second looks whether there is one. */
uint32_t hengomaru_vm_sys_attach_invocation(hengomaru_vm *, const uint8_t *target, size_t, uint32_t *notification);
uint32_t hengomaru_vm_sys_get_invocation_output(hengomaru_vm *, const uint8_t *target, size_t, uint32_t *notification);

/* Reply: the text by which the outside completes it. */
uint32_t hengomaru_vm_sys_awakeable(hengomaru_vm *, uint32_t *notification);
uint32_t hengomaru_vm_sys_complete_awakeable(hengomaru_vm *, const uint8_t *id, size_t, const uint8_t *value, size_t, uint32_t failed, uint32_t unstable);
uint32_t hengomaru_vm_create_signal_handle(hengomaru_vm *, const uint8_t *name, size_t, uint32_t *notification);
uint32_t hengomaru_vm_sys_complete_signal(hengomaru_vm *, const uint8_t *target_id, size_t, const uint8_t *name, size_t, const uint8_t *value, size_t, uint32_t failed);

uint32_t hengomaru_vm_sys_get_promise(hengomaru_vm *, const uint8_t *key, size_t, uint32_t *notification);
uint32_t hengomaru_vm_sys_peek_promise(hengomaru_vm *, const uint8_t *key, size_t, uint32_t *notification);
uint32_t hengomaru_vm_sys_complete_promise(hengomaru_vm *, const uint8_t *key, size_t, const uint8_t *value, size_t, uint32_t failed, uint32_t unstable, uint32_t *notification);

/* `replayed`: its outcome is recorded, and its body is not executed. Else an await says when the body is to be executed. Take the output and
 * have it recorded before that; then propose what the body has ended with. */
uint32_t hengomaru_vm_sys_run(hengomaru_vm *, const uint8_t *name, size_t, uint32_t *replayed, uint32_t *notification);
uint32_t hengomaru_vm_propose_run_success(hengomaru_vm *, uint32_t notification, const uint8_t *value, size_t);
uint32_t hengomaru_vm_propose_run_failure(hengomaru_vm *, uint32_t notification, const uint8_t *failure, size_t);
uint32_t hengomaru_vm_propose_run_retryable(hengomaru_vm *, uint32_t notification, uint64_t attempt_millis, uint16_t code, const uint8_t *message, size_t, const hengomaru_policy *);

/* The result of the invocation, and its end. */
uint32_t hengomaru_vm_sys_write_output(hengomaru_vm *, const uint8_t *value, size_t, uint32_t failed, uint32_t unstable);
uint32_t hengomaru_vm_sys_end(hengomaru_vm *);

#ifdef __cplusplus
}
#endif
#endif
