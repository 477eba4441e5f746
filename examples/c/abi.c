/* What a program that was built with the header of 1.0 rests on, so that it runs with each later library of 1.x: the types of
 * all calls, the numbers, and the sizes and places of what the caller makes room for. It is compiled with the header as it is:
 * a call that is declared otherwise is a fault, and so is each sentence below that isn't true. Calls may be added. */
#include "p11.h"

#define IS(what) _Static_assert(what, #what)
#define AT(kind, field, place, size) IS(offsetof(struct kind, field) == (place) && sizeof(((struct kind *)0)->field) == (size))

int32_t p11_session(uint32_t, uint32_t, const uint8_t *, size_t, const uint8_t *, size_t, uint8_t *, size_t, size_t *, uint8_t *,
                    size_t, size_t *);
int32_t p11_typed(uint32_t, uint32_t, const uint8_t *, size_t, const uint8_t *, size_t, uint8_t *, size_t, size_t *, uint8_t *,
                  size_t, size_t *);
int32_t p11_new(uint32_t, uint32_t, const uint8_t *, size_t, struct p11_handle *);
int32_t p11_line(struct p11_handle *, const uint8_t *, size_t);
int32_t p11_run(struct p11_handle *, uint32_t, uint32_t, struct p11_run_told *);
int32_t p11_put_file(struct p11_handle *, const uint8_t *, size_t, const uint8_t *, size_t);
int32_t p11_file(struct p11_handle *, const uint8_t *, size_t, uint8_t *, size_t, size_t *);
int32_t p11_forget(struct p11_handle *, const uint8_t *, size_t);
int32_t p11_answer(struct p11_handle *, uint8_t *, size_t, size_t *);
int32_t p11_typed_text(struct p11_handle *, uint8_t *, size_t, size_t *);
int32_t p11_regs(struct p11_handle *, struct p11_registers *);
int32_t p11_keys_waiting(struct p11_handle *, uint32_t *);
int32_t p11_files(struct p11_handle *, uint8_t *, size_t, size_t *);
void p11_drop(struct p11_handle *);
int32_t p11_console_new(uint32_t, uint32_t, uint32_t, uint32_t, uint32_t, uint32_t, struct p11_console *);
int32_t p11_console_open(struct p11_console *, const uint8_t *, size_t);
int32_t p11_console_remember(struct p11_console *, const uint8_t *, size_t);
int32_t p11_console_keys(struct p11_console *, const uint8_t *, size_t);
int32_t p11_console_closed(struct p11_console *);
int32_t p11_console_paused(struct p11_console *);
int32_t p11_console_ticked(struct p11_console *);
int32_t p11_console_resized(struct p11_console *, size_t);
int32_t p11_console_redrawn(struct p11_console *);
int32_t p11_console_step(struct p11_console *, uint32_t, uint32_t *);
int32_t p11_console_screen(struct p11_console *, uint8_t *, size_t, size_t *);
int32_t p11_console_record(struct p11_console *, uint8_t *, size_t, size_t *);
int32_t p11_console_past(struct p11_console *, uint8_t *, size_t, size_t *);
int32_t p11_console_shown(struct p11_console *, size_t);
int32_t p11_console_recorded(struct p11_console *, size_t);
int32_t p11_console_kept(struct p11_console *, size_t);
int32_t p11_console_errors(struct p11_console *, uint8_t *, size_t, size_t *);
int32_t p11_console_told(struct p11_console *);
int32_t p11_console_name(struct p11_console *, uint8_t *, size_t, size_t *);
int32_t p11_console_image(struct p11_console *, uint8_t *, size_t, size_t *);
int32_t p11_console_request(struct p11_console *, uint32_t *, uint32_t *);
int32_t p11_console_fetched(struct p11_console *, const uint8_t *, size_t);
int32_t p11_console_missed(struct p11_console *, uint32_t);
int32_t p11_console_put(struct p11_console *, uint32_t);
int32_t p11_console_front(struct p11_console *, uint8_t *, size_t, size_t *);
int32_t p11_console_names(struct p11_console *, const uint8_t *, size_t);
int32_t p11_console_status(struct p11_console *, uint32_t *);
int32_t p11_console_regs(struct p11_console *, struct p11_registers *);
int32_t p11_console_devices(struct p11_console *, uint8_t *, size_t, size_t *);
void p11_console_drop(struct p11_console *);

IS(P11_DONE == 0 && P11_NO_MEMORY == 1 && P11_BAD_SIZE == 2 && P11_BAD_FILES == 3 && P11_TOO_SMALL == 4);
IS(P11_TOO_LONG == 5 && P11_NO_MACHINE == 6 && P11_NO_FILE == 7 && P11_TOO_MANY == 8);
IS(P11_HALT == 0 && P11_TURNS == 1 && P11_IDLE == 2 && P11_MEMORY == 3);
IS(P11_READY == 0 && P11_WAITING == 1 && P11_HALTED == 2);

IS(P11_TYPED == 0 && P11_GIVEN == 1 && P11_BATCH == 2);
IS(P11_WANTS_STEP == 0 && P11_WANTS_KEYS == 1 && P11_WANTS_IDLE == 2 && P11_WANTS_MEMORY == 3);
IS(P11_WANTS_FETCH == 4 && P11_WANTS_PUT == 5 && P11_WANTS_NAMES == 6 && P11_WANTS_END == 7);
IS(P11_FILE_WRITTEN == 0 && P11_FILE_THERE == 1 && P11_FILE_MISSING == 2 && P11_FILE_DENIED == 3 && P11_FILE_FOLDER == 4);
IS(P11_FILE_PATH == 5 && P11_FILE_LONG == 6 && P11_FILE_MEMORY == 7 && P11_FILE_FAULT == 8);

IS(sizeof(struct p11_handle) == 16);
IS(sizeof(struct p11_console) == 16);
IS(sizeof(struct p11_run_told) == 8);
AT(p11_run_told, turns, 0, 4);
AT(p11_run_told, reason, 4, 2);
AT(p11_run_told, pc, 6, 2);
IS(sizeof(struct p11_registers) == 40);
AT(p11_registers, turns, 0, 8);
AT(p11_registers, general, 8, 12);
AT(p11_registers, kernel_sp, 20, 2);
AT(p11_registers, user_sp, 22, 2);
AT(p11_registers, pc, 24, 2);
AT(p11_registers, status, 26, 2);
AT(p11_registers, status_0, 28, 2);
AT(p11_registers, status_2, 30, 2);
AT(p11_registers, mark, 32, 2);

/* That the library has each of them. */
int main(void) {
    void (*const calls[])(void) = {
        (void (*)(void))p11_session, (void (*)(void))p11_typed, (void (*)(void))p11_new, (void (*)(void))p11_line,
        (void (*)(void))p11_run, (void (*)(void))p11_put_file, (void (*)(void))p11_file, (void (*)(void))p11_forget,
        (void (*)(void))p11_answer, (void (*)(void))p11_typed_text, (void (*)(void))p11_regs, (void (*)(void))p11_keys_waiting,
        (void (*)(void))p11_files, (void (*)(void))p11_drop,
        (void (*)(void))p11_console_new, (void (*)(void))p11_console_open, (void (*)(void))p11_console_remember,
        (void (*)(void))p11_console_keys, (void (*)(void))p11_console_closed, (void (*)(void))p11_console_paused,
        (void (*)(void))p11_console_ticked, (void (*)(void))p11_console_resized, (void (*)(void))p11_console_redrawn,
        (void (*)(void))p11_console_step, (void (*)(void))p11_console_screen, (void (*)(void))p11_console_record,
        (void (*)(void))p11_console_past, (void (*)(void))p11_console_shown, (void (*)(void))p11_console_recorded,
        (void (*)(void))p11_console_kept, (void (*)(void))p11_console_errors, (void (*)(void))p11_console_told,
        (void (*)(void))p11_console_name, (void (*)(void))p11_console_image, (void (*)(void))p11_console_request,
        (void (*)(void))p11_console_fetched, (void (*)(void))p11_console_missed, (void (*)(void))p11_console_put,
        (void (*)(void))p11_console_front, (void (*)(void))p11_console_names, (void (*)(void))p11_console_status,
        (void (*)(void))p11_console_regs, (void (*)(void))p11_console_devices, (void (*)(void))p11_console_drop,
    };
    struct p11_handle none = {0};
    struct p11_console silent = {0};
    p11_drop(&none);
    p11_console_drop(&silent);
    return sizeof(calls) / sizeof(calls[0]) == 44 ? 0 : 1;
}
