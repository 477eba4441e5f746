/* p11 as the machine of run_cases.h, over the dialogue of `p11 -`; the variable P11 of the environment names the program. */
#include "run_cases.h"

#include <stdio.h>
#include <stdlib.h>
#include <string.h>
#include <sys/wait.h>
#include <unistd.h>

static FILE *to_p11, *from_p11;
static pid_t process;
static char answer[256];

static void give_up(const char *what) {
    fprintf(stderr, "cases_p11: %s\n", what);
    exit(2);
}

static void drop(void) {
    if (!process) return;
    fclose(to_p11);
    fclose(from_p11);
    waitpid(process, NULL, 0);
}

static void next_answer(void) {
    if (!fgets(answer, sizeof answer, from_p11)) give_up("p11 answers nothing");
    if (answer[0] == '?') give_up(answer);
}

void cases_new(unsigned kwords) {
    int in[2], out[2];
    const char *program = getenv("P11") ? getenv("P11") : "p11";
    char memory[16];
    drop();
    snprintf(memory, sizeof memory, "%u", kwords);
    if (pipe(in) || pipe(out) || (process = fork()) < 0) give_up("no process can be made");
    if (process == 0) {
        dup2(in[0], 0);
        dup2(out[1], 1);
        close(in[0]), close(in[1]), close(out[0]), close(out[1]);
        execlp(program, program, "--memory", memory, "-", (char *)NULL);
        _exit(127);
    }
    close(in[0]), close(out[1]);
    to_p11 = fdopen(in[1], "w");
    from_p11 = fdopen(out[0], "r");
    if (!to_p11 || !from_p11) give_up("no file can be opened");
}

void cases_set(enum cases_register which, uint16_t word) {
    static const char *const numbers[] = {"0", "1", "2", "3", "4", "5", "6", "10", "7", "11"};
    fprintf(to_p11, "set %s %o\n", numbers[which], word);
    fflush(to_p11);
    next_answer();
}

uint16_t cases_get(enum cases_register which) {
    unsigned word[CASES_REGISTERS];
    fprintf(to_p11, "regs\n");
    fflush(to_p11);
    next_answer();
    if (sscanf(answer, "REGS %o %o %o %o %o %o", word, word + 1, word + 2, word + 3, word + 4, word + 5) != 6) give_up(answer);
    next_answer();
    if (sscanf(answer, "SP %o %o PC %o PS %o", word + 6, word + 7, word + 8, word + 9) != 4) give_up(answer);
    next_answer();
    return (uint16_t)word[which];
}

void cases_put(uint32_t address, uint16_t word) {
    fprintf(to_p11, "deposit %o %o\n", address, word);
    fflush(to_p11);
    next_answer();
}

uint16_t cases_word(uint32_t address) {
    unsigned word;
    fprintf(to_p11, "examine %o\n", address);
    fflush(to_p11);
    next_answer();
    if (sscanf(answer, "EXAM %*o %o", &word) != 1) give_up(answer);
    return (uint16_t)word;
}

enum cases_run cases_step(unsigned turns) {
    fprintf(to_p11, "step %u\nregs\n", turns);
    fflush(to_p11);
    do next_answer();
    while (strncmp(answer, "TURN", 4));
    return strstr(answer, "halted") ? CASES_HALTED : strstr(answer, "waiting") ? CASES_WAITING : CASES_READY;
}
