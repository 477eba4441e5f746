/* A PDP-11/40 that is proved, for C: whole sessions of the operator's console, from bytes to bytes; a machine that is
 * kept from line to line; and the console of a dialogue, which is given events and does no input or output.
 *
 * Link libpdp1140.a, which takes its memory from malloc, realloc and free (docs/LIBRARY.md says where it lies). The language of
 * scripts and answers is in docs/OPERATOR.md, what is proved of these calls and what a caller owes in docs/PROVED.md (under
 * p11_c). */
#ifndef PDP1140_H
#define PDP1140_H

#include <stddef.h>
#include <stdint.h>

#ifdef __cplusplus
extern "C" {
#endif

/* How a call ended. */
enum {
    P11_DONE = 0,      /* the session is done; a refused line of the script has its refusal in the answers */
    P11_NO_MEMORY = 1, /* there is no memory for the machine, the files, the answers or the typed bytes */
    P11_BAD_SIZE = 2,  /* no machine has these sizes, or no dialogue this manner */
    P11_BAD_FILES = 3, /* the bytes of the files are no row of files, or no row has a file of these lengths */
    P11_TOO_SMALL = 4, /* a buffer is too small: the lengths are told */
    P11_TOO_LONG = 5,  /* the script wasn't read to its end: it has 4,095,995,905 bytes or more */
    P11_NO_MACHINE = 6, /* the handle holds no machine, or no console */
    P11_NO_FILE = 7,   /* the machine's store has no file of this name, or the console wants none */
    P11_TOO_MANY = 8   /* no run has so many turns, or no output so many bytes */
};

/* A number of bytes: it has 64 bits, also where C's size_t has fewer. */
#if SIZE_MAX > 0xffffffffu
typedef size_t p11_size;
#else
typedef uint64_t p11_size;
#endif

#if defined(__GNUC__)
#define P11_NONNULL __attribute__((nonnull))
#else
#define P11_NONNULL
#endif

/* Does the lines of a script on a new machine, and hands out the text of the answers and the files after it.
 *
 * kwords                  thousands (1,024) of words of memory: 4 to 124 in steps of 4
 * lines                   how many decoded instructions the machine keeps: 0 to 4,096; no answer depends on it
 * script, script_length   the script, in bytes; LF ends a line
 * files, files_length     the files that the script's mount, load and save find: for each its name's length, its
 *                         name, its length and its bytes, one behind the other, each length in 4 bytes, the lowest
 *                         first. Of files of one name the last counts. No file is a row of 0 bytes.
 * answers                 gets the text, which is as ./p11 writes it; not ended by a 0
 * answers_capacity        bytes of room in answers
 * answers_length          is told the bytes of the text
 * files_out               gets the files after the session, as a row of the same form: those that were given, and
 *                         behind them those that were saved, in that order
 * files_capacity          bytes of room in files_out
 * files_out_length        is told the bytes of that row
 *
 * P11_DONE: both are written, and the bytes of the buffers behind them are as they were. P11_TOO_SMALL: both lengths
 * are told, and no byte of answers or files_out is written; the same call with more room gives the answers. With any
 * other status nothing at all is written, the lengths neither.
 *
 * All memory stays the caller's, and nothing of it is kept. No pointer may be null, also one to 0 bytes; script and
 * files may overlap each other, but nothing that is written may overlap anything else. Calls share nothing, so they
 * may be made in different threads at once. No call stops the process. Not from a signal handler, nor in the forked
 * child of a process with threads. */
P11_NONNULL
int32_t p11_session(uint32_t kwords, uint32_t lines, const uint8_t *script, p11_size script_length,
                    const uint8_t *files, p11_size files_length, uint8_t *answers, p11_size answers_capacity,
                    p11_size *answers_length, uint8_t *files_out, p11_size files_capacity, p11_size *files_out_length);

/* The same, but typed gets, in place of the text, the bytes that were typed on the terminal in all runs of the script
 * (what its lines TTY show), as they are. */
P11_NONNULL
int32_t p11_typed(uint32_t kwords, uint32_t lines, const uint8_t *script, p11_size script_length,
                  const uint8_t *files, p11_size files_length, uint8_t *typed, p11_size typed_capacity,
                  p11_size *typed_length, uint8_t *files_out, p11_size files_capacity, p11_size *files_out_length);

/* A handle, which holds a machine or none. It begins as `struct p11_handle machine = {0};`, which holds none. Only the
 * calls below read or change it, and no copy of it is used: it owns the machine, which is the library's memory from
 * malloc, until p11_drop. No call keeps a pointer to the handle, so it may be moved.
 *
 * Handles share nothing: those of different threads may be used at once. One handle may go from thread to thread, by
 * one call at a time. The rules on pointers, signals and forks are those of p11_session. */
struct p11_handle {
    uint64_t at; /* an address */
    uint32_t machines;
};

/* Makes a new machine. kwords, lines, files and files_length are as for p11_session, and the files are copied.
 *
 * P11_DONE: the handle holds the machine, and one that it held before is dropped. P11_NO_MEMORY, P11_BAD_SIZE,
 * P11_BAD_FILES: the handle holds what it held. */
P11_NONNULL
int32_t p11_new(uint32_t kwords, uint32_t lines, const uint8_t *files, p11_size files_length,
                struct p11_handle *handle);

/* Does a line of the script language on the machine: line, length are its bytes, with no LF at their end. (Bytes with
 * LFs are done as a script, line by line.) The text of its answer is kept with the machine, in the place of the last.
 *
 * P11_DONE: the line is done; a refused one has its refusal in the answer, a blank one and a remark have no bytes.
 * P11_NO_MEMORY: the line is done, but for its text there was memory for a front alone. P11_TOO_LONG: as for
 * p11_session; the lines that were read are done. In all three cases the handle holds the machine as it is after the
 * lines that are done. P11_NO_MACHINE: nothing is done. */
P11_NONNULL
int32_t p11_line(struct p11_handle *handle, const uint8_t *line, p11_size length);

/* Why a run made no more turns: the reason of p11_run_told. */
enum {
    P11_HALT = 0,  /* the machine has halted */
    P11_TURNS = 1, /* all turns are made */
    P11_IDLE = 2,  /* the machine waits, and nothing is due that ends it */
    P11_MEMORY = 3 /* the next turn wants memory that isn't there; the run can go on later with nothing lost */
};

/* What a run came to, as the line STOP shows it. */
struct p11_run_told {
    uint32_t turns;  /* the turns that were made */
    uint16_t reason; /* P11_HALT, P11_TURNS, P11_IDLE or P11_MEMORY */
    uint16_t pc;     /* the program counter, R7 */
};

/* Makes a run of so many turns, 1 to 100,000,000: as the line `step`, if until_idle is 0, and else as the line `continue`.
 * The text of that line's answer is kept with the machine, in the place of the last.
 *
 * P11_DONE: the run is made, and all fields of run, which is the caller's, are written. P11_NO_MEMORY: the same, but for
 * the text there was memory for a front alone. P11_TOO_MANY: 0 turns, too many, or so many that the machine's count of
 * turns would be above 2^62; nothing is done and nothing is written, and so at P11_NO_MACHINE. */
P11_NONNULL
int32_t p11_run(struct p11_handle *handle, uint32_t turns, uint32_t until_idle, struct p11_run_told *run);

/* Puts a file into the machine's store: from then on its name has these bytes, in the place of any that it had.
 *
 * name, name_length    the name by which mount and load find the file, in bytes; not ended by a 0
 * bytes, bytes_length  what it holds, in bytes
 *
 * Both are copied. P11_DONE: the file stands behind the others (p11_files). P11_NO_MEMORY: there is no memory for the
 * copy. P11_BAD_FILES: the name or the file has 4,294,967,296 bytes or more. At these two nothing changes, and at
 * P11_NO_MACHINE nothing is done. The machine and the text of the last p11_line or p11_run stay as they are. */
P11_NONNULL
int32_t p11_put_file(struct p11_handle *handle, const uint8_t *name, p11_size name_length, const uint8_t *bytes,
                     p11_size bytes_length);

/* Hands out the last bytes of a name in the machine's store: those that were put, given or saved last. A saved pack has
 * 2,494,464 bytes; where a shorter one is mounted, zeros follow.
 *
 * name, name_length                   as for p11_put_file
 * bytes, bytes_capacity, bytes_length as those of p11_answer for the text
 *
 * As p11_answer, and P11_NO_FILE: the store has no file of the name, and nothing is written. */
P11_NONNULL
int32_t p11_file(struct p11_handle *handle, const uint8_t *name, p11_size name_length, uint8_t *bytes,
                 p11_size bytes_capacity, p11_size *bytes_length);

/* Forgets a name: each file of it in the machine's store is dropped, and its memory is free. What is mounted stays.
 *
 * P11_DONE: mount and load find no file of the name from then on, and p11_files has none. P11_NO_FILE: there was none, and
 * nothing changes. P11_NO_MACHINE: nothing is done. */
P11_NONNULL
int32_t p11_forget(struct p11_handle *handle, const uint8_t *name, p11_size name_length);

/* Hands out the text of the last p11_line or p11_run, as ./p11 writes it; not ended by a 0. None yet is a text of 0 bytes.
 *
 * P11_DONE: answer begins with the text, its other bytes are as they were, and answer_length is told the bytes of the
 * text. P11_TOO_SMALL: answer_length is told them, and no byte of answer is written. P11_NO_MACHINE: nothing is written.
 * The machine and its text stay as they are. */
P11_NONNULL
int32_t p11_answer(struct p11_handle *handle, uint8_t *answer, p11_size answer_capacity, p11_size *answer_length);

/* Hands out the bytes that were typed on the terminal in the runs of the last p11_line, or in the last p11_run (what the
 * lines TTY of its text show), as they are; typed, typed_capacity and typed_length are for them what those of p11_answer are for the text. As
 * p11_answer, and P11_NO_MEMORY: there is no memory for a copy of these bytes, and nothing is written. */
P11_NONNULL
int32_t p11_typed_text(struct p11_handle *handle, uint8_t *typed, p11_size typed_capacity, p11_size *typed_length);

/* What the processor does between turns: the mark of p11_registers. */
enum {
    P11_READY = 0,   /* the next turn runs an instruction */
    P11_WAITING = 1, /* a WAIT was run, and no service has ended it */
    P11_HALTED = 2   /* the last turn has halted the machine */
};

/* What the lines regs and device show of the processor and of memory management. Words have 16 bits. */
struct p11_registers {
    uint64_t turns;      /* turns since the machine was made */
    uint16_t general[6]; /* R0 to R5 */
    uint16_t kernel_sp;  /* the stack pointer of kernel mode */
    uint16_t user_sp;    /* the stack pointer of user mode */
    uint16_t pc;         /* the program counter, R7 */
    uint16_t status;     /* the processor status word */
    uint16_t status_0;   /* SR0 of memory management */
    uint16_t status_2;   /* SR2 of memory management */
    uint16_t mark;       /* P11_READY, P11_WAITING or P11_HALTED */
};

/* Tells the machine's registers, with no effect on it; the text of the last p11_line or p11_run stays too.
 *
 * P11_DONE: all fields of regs, which is the caller's, are written. P11_NO_MACHINE: nothing is written. */
P11_NONNULL
int32_t p11_regs(struct p11_handle *handle, struct p11_registers *regs);

/* Tells how many keys wait for the machine to take them, 0 to 64, with no effect on it; the line `key` presses more of them.
 *
 * P11_DONE: keys is written. P11_NO_MACHINE: nothing is written. */
P11_NONNULL
int32_t p11_keys_waiting(struct p11_handle *handle, uint32_t *keys);

/* Hands out the machine's files, as a row of the form that p11_session takes: those that were given, and behind them
 * those that were put or saved, in that order. As p11_answer, and P11_NO_MEMORY: there is no memory for the row, and
 * nothing is written. */
P11_NONNULL
int32_t p11_files(struct p11_handle *handle, uint8_t *files_out, p11_size files_capacity, p11_size *files_length);

/* Drops the machine, if the handle holds one: its memory is freed, and the handle holds none. */
P11_NONNULL
void p11_drop(struct p11_handle *handle);

/* A handle of a console, as p11_handle is one of a machine: it begins as `struct p11_console console = {0};`, and what is said
 * there of copies, threads, signals and forks holds here. Each call below answers P11_NO_MACHINE where it holds none, and does and
 * writes nothing then. */
struct p11_console {
    uint64_t at;
    uint32_t consoles;
};

/* Where the lines of a dialogue come from: the manner of p11_console_new. */
enum {
    P11_TYPED = 0, /* a person types them, behind a prompt, with editing, history and completion */
    P11_GIVEN = 1, /* a program or a file gives them */
    P11_BATCH = 2  /* a script is all: each line has the answer that a session gives it */
};

/* Makes a console over a new machine; nothing is under way.
 *
 * kwords, lines  as for p11_session
 * manner         P11_TYPED, P11_GIVEN or P11_BATCH
 * strict         not 0: a script that is all ends at its first refused line
 * saveless       not 0: `save` is answered, and writes nothing
 * talk           not 0: the machine's terminal comes before the first line that is typed
 *
 * P11_DONE: the handle holds the console, and one that it held before is dropped. P11_NO_MEMORY, P11_BAD_SIZE: it holds what it
 * held. */
P11_NONNULL
int32_t p11_console_new(uint32_t kwords, uint32_t lines, uint32_t manner, uint32_t strict, uint32_t saveless,
                        uint32_t talk, struct p11_console *console);

/* The lines of the file of this name come first, where nothing is under way, as behind p11_console_new: the first step asks for
 * it. P11_NO_MEMORY: nothing changes. */
P11_NONNULL
int32_t p11_console_open(struct p11_console *console, const uint8_t *name, p11_size length);

/* A line that was typed in an earlier dialogue, with no LF: the newest of the history. P11_NO_MEMORY: nothing changes. */
P11_NONNULL
int32_t p11_console_remember(struct p11_console *console, const uint8_t *line, p11_size length);

/* Keys come behind those that wait, as the keyboard gives them; of a program they are lines, each with LF. P11_NO_MEMORY: none
 * of them is taken. */
P11_NONNULL
int32_t p11_console_keys(struct p11_console *console, const uint8_t *bytes, p11_size length);

/* No key comes any more: what waits is done, and then the dialogue ends. */
P11_NONNULL
int32_t p11_console_closed(struct p11_console *console);

/* The keyboard has nothing more for now: an ESC that stands alone was no key. */
P11_NONNULL
int32_t p11_console_paused(struct p11_console *console);

/* The line clock ticks, once the machine can take that. */
P11_NONNULL
int32_t p11_console_ticked(struct p11_console *console);

/* The screen has so many columns; 80 before it is told. */
P11_NONNULL
int32_t p11_console_resized(struct p11_console *console, p11_size columns);

/* Shows the line again that is typed, as when the terminal was another program's. */
P11_NONNULL
int32_t p11_console_redrawn(struct p11_console *console);

/* What a console wants behind a step. */
enum {
    P11_WANTS_STEP = 0,   /* a further step */
    P11_WANTS_KEYS = 1,   /* keys, or that no key comes any more: nothing is under way */
    P11_WANTS_IDLE = 2,   /* the same, or a tick: the machine idles */
    P11_WANTS_MEMORY = 3, /* memory, for want of which nothing was done */
    P11_WANTS_FETCH = 4,  /* the bytes of the file that p11_console_name tells: p11_console_fetched, or p11_console_missed */
    P11_WANTS_PUT = 5,    /* that the bytes of p11_console_image are written to that file: p11_console_put */
    P11_WANTS_NAMES = 6,  /* names of files that begin as p11_console_front tells: p11_console_names */
    P11_WANTS_END = 7     /* nothing more: the dialogue is over */
};

/* Does one thing, and tells what is wanted then: takes a key, does a line, makes a slice of a run of at most so many turns (0 is
 * as 1), presses keys, shows what was typed, or tells an answer. What there is to write is in the outputs. */
P11_NONNULL
int32_t p11_console_step(struct p11_console *console, uint32_t turns, uint32_t *want);

/* The outputs: bytes for the screen, lines of the record, which ./p11 plays, and lines for the history's file. Each call hands
 * out those that weren't taken, from their front, as far as bytes has room, and tells in length how many they are; the bytes
 * behind them are as they were. 0: there are none, or no room. They stay until as many are taken. */
P11_NONNULL
int32_t p11_console_screen(struct p11_console *console, uint8_t *bytes, p11_size capacity, p11_size *length);
P11_NONNULL
int32_t p11_console_record(struct p11_console *console, uint8_t *bytes, p11_size capacity, p11_size *length);
P11_NONNULL
int32_t p11_console_past(struct p11_console *console, uint8_t *bytes, p11_size capacity, p11_size *length);

/* So many bytes of the screen's, the record's, the history's are taken, from their front. P11_TOO_MANY: there are fewer, and
 * none is. */
P11_NONNULL
int32_t p11_console_shown(struct p11_console *console, p11_size count);
P11_NONNULL
int32_t p11_console_recorded(struct p11_console *console, p11_size count);
P11_NONNULL
int32_t p11_console_kept(struct p11_console *console, p11_size count);

/* What is said of a script that is all, for the standard error, whole, as p11_answer hands out its text; and that it is taken. */
P11_NONNULL
int32_t p11_console_errors(struct p11_console *console, uint8_t *bytes, p11_size capacity, p11_size *length);
P11_NONNULL
int32_t p11_console_told(struct p11_console *console);

/* Hand out the name of the file that is wanted or to be written, and the bytes that it is to have, as p11_answer hands out its
 * text; not ended by a 0. P11_NO_FILE: none is, and nothing is written. */
P11_NONNULL
int32_t p11_console_name(struct p11_console *console, uint8_t *bytes, p11_size capacity, p11_size *length);
P11_NONNULL
int32_t p11_console_image(struct p11_console *console, uint8_t *bytes, p11_size capacity, p11_size *length);

/* Tells of that file, 1 for yes: replace, whether one of its name that is there may be written over; pack, whether it is a pack's,
 * which a later save may write over unasked. */
P11_NONNULL
int32_t p11_console_request(struct p11_console *console, uint32_t *replace, uint32_t *pack);

/* What became of a file. */
enum {
    P11_FILE_WRITTEN = 0, /* it is written */
    P11_FILE_THERE = 1,   /* one of its name is there, and may not be written over */
    P11_FILE_MISSING = 2, /* no such file */
    P11_FILE_DENIED = 3,  /* permission denied */
    P11_FILE_FOLDER = 4,  /* it is a folder */
    P11_FILE_PATH = 5,    /* its folder isn't there, or takes no new file */
    P11_FILE_LONG = 6,    /* it can't be read to its end, or is longer than 16,773,120 bytes */
    P11_FILE_MEMORY = 7,  /* there is no memory for it: the line is refused with 12 NoMemory, and at each other with 14 StoreFault */
    P11_FILE_FAULT = 8    /* the host can't read or write it */
};

/* The answers to P11_WANTS_FETCH: the bytes of the file, which are copied; or why there are none, P11_FILE_MISSING to
 * P11_FILE_FAULT. Where none is wanted nothing is done. P11_NO_MEMORY of the first: nothing changes, and it is wanted still. */
P11_NONNULL
int32_t p11_console_fetched(struct p11_console *console, const uint8_t *bytes, p11_size length);
P11_NONNULL
int32_t p11_console_missed(struct p11_console *console, uint32_t trouble);

/* The answer to P11_WANTS_PUT: P11_FILE_WRITTEN, P11_FILE_THERE, at which a person is asked, or why it can't be written. Where none
 * was to be written nothing is done. */
P11_NONNULL
int32_t p11_console_put(struct p11_console *console, uint32_t trouble);

/* Hands out the word at the cursor, with which the names have to begin that P11_WANTS_NAMES asks for, as p11_answer its text. */
P11_NONNULL
int32_t p11_console_front(struct p11_console *console, uint8_t *bytes, p11_size capacity, p11_size *length);

/* The answer to P11_WANTS_NAMES: names, a byte 0 between each and the next, of a folder with / behind it; no bytes are no name.
 * Where none are wanted nothing is done. P11_NO_MEMORY: nothing changes, and they are wanted still. */
P11_NONNULL
int32_t p11_console_names(struct p11_console *console, const uint8_t *names, p11_size length);

/* Tells the status with which a program that holds this dialogue ends, once it is over: 1 of a script that is all and isn't there,
 * or is strict and has a refused line; else 0. */
P11_NONNULL
int32_t p11_console_status(struct p11_console *console, uint32_t *status);

/* Tells the registers of the console's machine, with no effect on it: the lights of a panel. All fields of regs are written. */
P11_NONNULL
int32_t p11_console_regs(struct p11_console *console, struct p11_registers *regs);

/* Hands out the lines that `device` answers, with no effect on the machine or the dialogue: the clock, the console line, the disk
 * controller, each of the eight drives (what is on it, its cylinder, how many sectors were written), memory management, and who
 * asks for the bus. text, text_capacity and text_length are for them what those of p11_answer are for its text. As p11_answer,
 * and P11_NO_MEMORY: nothing is written. */
P11_NONNULL
int32_t p11_console_devices(struct p11_console *console, uint8_t *text, p11_size text_capacity, p11_size *text_length);

/* Drops the console and its machine, if the handle holds one: their memory is freed, and the handle holds none. */
P11_NONNULL
void p11_console_drop(struct p11_console *console);

#ifdef __cplusplus
}
#endif
#endif
