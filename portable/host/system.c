/* The system is POSIX, with flock. */
#define _GNU_SOURCE
#include "system.h"

#include <dirent.h>
#include <errno.h>
#include <fcntl.h>
#include <limits.h>
#include <poll.h>
#include <signal.h>
#include <stdio.h>
#include <stdlib.h>
#include <string.h>
#include <sys/file.h>
#include <sys/ioctl.h>
#include <sys/stat.h>
#include <sys/types.h>
#include <termios.h>
#include <time.h>
#include <unistd.h>

#include "pdp1140.h"

/* A file that is read has 16,773,120 bytes at most. A name leads through 40 links at most. */
enum { LONGEST_FILE = 4095 * 4096, MOST_LINKED = 40, ONE_READ = 4096 };

/* The folder of `confine`, with a slash behind it; no text: there is none. */
static char top[PATH_MAX + 1];

/* -- what the program was given */

int is_text(const char *word) {
    const unsigned char *at = (const unsigned char *)word;
    while (*at) {
        int more = *at < 0x80 ? 0 : *at >= 0xc2 && *at < 0xe0 ? 1 : *at >= 0xe0 && *at < 0xf0 ? 2 : *at >= 0xf0 && *at < 0xf5 ? 3 : -1;
        if (more < 0) return 0;
        if ((*at == 0xe0 && at[1] < 0xa0) || (*at == 0xed && at[1] > 0x9f) || (*at == 0xf0 && at[1] < 0x90) || (*at == 0xf4 && at[1] > 0x8f)) return 0;
        for (at++; more > 0; more--, at++)
            if ((*at & 0xc0) != 0x80) return 0;
    }
    return 1;
}

void run_beside(const char *script, int count, char **words) {
    char program[PATH_MAX], path[PATH_MAX + 32], **given = calloc((size_t)count + 2, sizeof *given);
    if (!given) return;
    memcpy(given + 1, words, (size_t)count * sizeof *given);
    given[0] = (char *)script;
    if (strchr(words[0], '/') && realpath(words[0], program)) {
        snprintf(path, sizeof path, "%.*s%s", (int)(strrchr(program, '/') - program + 1), program, script);
        given[0] = path;
        given[1] = program;
    }
    execvp(given[0], given);
    free(given);
}

void ignore_limits(void) {
    signal(SIGXFSZ, SIG_IGN);
    signal(SIGPIPE, SIG_IGN);
}

long read_some(int from, uint8_t *bytes, size_t room) {
    ssize_t count;
    do count = read(from, bytes, room);
    while (count < 0 && errno == EINTR);
    return (long)count;
}

static int write_to(int to, const uint8_t *bytes, size_t size) {
    while (size > 0) {
        ssize_t count = write(to, bytes, size);
        if (count < 0 && errno == EINTR) continue;
        if (count <= 0) return 0;
        bytes += count;
        size -= (size_t)count;
    }
    return 1;
}

int write_all(const uint8_t *bytes, size_t size) { return write_to(STDOUT_FILENO, bytes, size); }

int open_script(const char *name) { return strcmp(name, "-") == 0 ? STDIN_FILENO : open(name, O_RDONLY | O_CLOEXEC); }

/* -- names */

static uint32_t fault(void) {
    switch (errno) {
    case ENOENT: return P11_FILE_MISSING;
    case EACCES: case EPERM: return P11_FILE_DENIED;
    case EEXIST: return P11_FILE_THERE;
    case EISDIR: return P11_FILE_FOLDER;
    case ENOTDIR: return P11_FILE_PATH;
    case ENOMEM: return P11_FILE_MEMORY;
    default: return P11_FILE_FAULT;
    }
}

int confine(const char *folder) {
    struct stat there;
    char whole[PATH_MAX];
    if (stat(folder, &there) != 0 || !S_ISDIR(there.st_mode) || !realpath(folder, whole)) return 0;
    snprintf(top, sizeof top, "%s%s", whole, whole[strlen(whole) - 1] == '/' ? "" : "/");
    return 1;
}

/* The path of a name: from the folder of `confine` on, out of which none leads that begins at the root or has a step up. */
static int path_of(const char *name, char *path) {
    const char *step;
    if (*top && *name == '/') return 0;
    for (step = name; *top && step; step = strchr(step, '/') ? strchr(step, '/') + 1 : NULL)
        if (strncmp(step, "..", 2) == 0 && (step[2] == '/' || !step[2])) return 0;
    return snprintf(path, PATH_MAX, "%s%s", top, name) < PATH_MAX;
}

/* The folder of a path, as a path of its own. */
static void folder_of(const char *path, char *folder) {
    const char *slash = strrchr(path, '/');
    snprintf(folder, PATH_MAX, "%.*s", slash == path ? 1 : slash ? (int)(slash - path) : 1, slash ? path : ".");
}

/* The path of another name in the folder of this path. 0: it is too long. */
static int beside(const char *path, const char *name, char *to) {
    const char *slash = strrchr(path, '/');
    return snprintf(to, PATH_MAX, "%.*s%s", slash ? (int)(slash - path + 1) : 0, path, name) < PATH_MAX;
}

/* Whether a folder is that of `confine`, or below it. */
static int is_below(const char *folder) {
    char whole[PATH_MAX], slashed[PATH_MAX + 1];
    if (!*top) return 1;
    if (!realpath(folder, whole)) return 0;
    snprintf(slashed, sizeof slashed, "%s/", whole);
    return strncmp(slashed, top, strlen(top)) == 0;
}

int is_file(const char *name) {
    struct stat there;
    char path[PATH_MAX];
    return path_of(name, path) && stat(path, &there) == 0 && S_ISREG(there.st_mode);
}

/* -- a file is read whole */

/* Whether reading it may wait: a pipe, a socket, or a device that isn't the null device. */
static int may_wait(const struct stat *there) {
    struct stat null;
    if (S_ISCHR(there->st_mode)) return stat("/dev/null", &null) != 0 || null.st_rdev != there->st_rdev;
    return S_ISFIFO(there->st_mode) || S_ISSOCK(there->st_mode) || S_ISBLK(there->st_mode);
}

static uint32_t open_to_read(const char *name, int waits, int *file) {
    struct stat there;
    char path[PATH_MAX], whole[PATH_MAX];
    if (waits) snprintf(path, sizeof path, "%s", name);
    else if (!path_of(name, path)) return P11_FILE_FAULT;
    if (!waits && *top) {
        if (!realpath(path, whole)) return fault();
        if (strncmp(whole, top, strlen(top)) != 0) return P11_FILE_FAULT;
        strcpy(path, whole);
    }
    if (!waits && stat(path, &there) != 0) return fault();
    if (!waits && may_wait(&there)) return P11_FILE_FAULT;
    *file = open(path, O_RDONLY | O_CLOEXEC);
    if (*file < 0) return fault();
    if (!waits && (fstat(*file, &there) != 0 || may_wait(&there))) return close(*file), P11_FILE_FAULT;
    return P11_FILE_WRITTEN;
}

static uint32_t read_whole(int file, uint8_t **bytes, size_t *size) {
    size_t room = 0;
    for (*bytes = NULL, *size = 0;;) {
        long count;
        if (room - *size < ONE_READ) {
            uint8_t *more = realloc(*bytes, room = 2 * room + 2 * ONE_READ);
            if (!more) return P11_FILE_MEMORY;
            *bytes = more;
        }
        count = read_some(file, *bytes + *size, ONE_READ);
        if (count < 0) return fault();
        if (count == 0) return P11_FILE_WRITTEN;
        *size += (size_t)count;
        if (*size > LONGEST_FILE) return P11_FILE_LONG;
    }
}

uint32_t read_file(const char *name, int waits, uint8_t **bytes, size_t *size) {
    int file = -1;
    uint32_t why = open_to_read(name, waits, &file);
    if (why != P11_FILE_WRITTEN) return why;
    why = read_whole(file, bytes, size);
    close(file);
    return why;
}

/* -- a file gets other bytes */

/* Where a name leads, through links at its end, also to a file that isn't there yet: its path, and what is there already. */
static uint32_t place_of(const char *name, char *path, struct stat *old, int *is_there) {
    char to[PATH_MAX], next[PATH_MAX];
    int linked;
    if (!path_of(name, path)) return P11_FILE_FAULT;
    for (linked = 0; linked < MOST_LINKED; linked++) {
        ssize_t length;
        *is_there = lstat(path, old) == 0;
        if (!*is_there) return errno == ENOENT ? P11_FILE_WRITTEN : fault();
        if (!S_ISLNK(old->st_mode)) return P11_FILE_WRITTEN;
        length = readlink(path, to, sizeof to - 1);
        if (length < 0) return fault();
        to[length] = 0;
        if (*to == '/') snprintf(next, sizeof next, "%s", to);
        else if (!beside(path, to, next)) return P11_FILE_FAULT;
        strcpy(path, next);
    }
    return P11_FILE_FAULT;
}

/* Refuses a place that no new file may take. */
static uint32_t check_place(const char *name, const char *path, const struct stat *old, int is_there) {
    char folder[PATH_MAX], named[PATH_MAX];
    struct stat any;
    int file;
    folder_of(path, folder);
    if (!is_below(folder)) return *top && access(folder, F_OK) == 0 ? P11_FILE_FAULT : P11_FILE_PATH;
    if (!is_there) return path_of(name, named) && stat(named, &any) == 0 ? P11_FILE_FAULT : P11_FILE_WRITTEN;
    if (S_ISDIR(old->st_mode)) return P11_FILE_FOLDER;
    if (!S_ISREG(old->st_mode)) return P11_FILE_FAULT;
    if (!(old->st_mode & S_IWUSR)) return P11_FILE_DENIED;
    file = open(path, O_WRONLY | O_CLOEXEC);
    if (file < 0) return fault();
    close(file);
    return P11_FILE_WRITTEN;
}

/* Whether an open file is at a path still. */
static int is_at(int file, const char *path) {
    struct stat open_file, there;
    return fstat(file, &open_file) == 0 && lstat(path, &there) == 0 && open_file.st_ino == there.st_ino && open_file.st_dev == there.st_dev;
}

/* Whether a name is one that a new file has: .p11-new-, two numbers, and a line between. */
static int is_new_name(const char *name) {
    size_t process, number;
    if (strncmp(name, ".p11-new-", 9) != 0) return 0;
    process = strspn(name + 9, "0123456789");
    if (process == 0 || name[9 + process] != '-') return 0;
    number = strspn(name + 10 + process, "0123456789");
    return number > 0 && !name[10 + process + number];
}

/* Takes away a new file, unless its writer, who has its lock, lives. */
static void take_away(const char *path) {
    struct stat there;
    int file = lstat(path, &there) == 0 && S_ISREG(there.st_mode) ? open(path, O_WRONLY | O_CLOEXEC) : -1;
    if (file < 0) return;
    if (flock(file, LOCK_EX | LOCK_NB) == 0 && is_at(file, path)) unlink(path);
    close(file);
}

/* Takes away the new files beside a path that no process writes any more. */
static void clear(const char *path) {
    char folder[PATH_MAX], left[PATH_MAX];
    struct dirent *entry;
    DIR *entries;
    folder_of(path, folder);
    entries = opendir(folder);
    while (entries && (entry = readdir(entries)) != NULL)
        if (is_new_name(entry->d_name) && beside(path, entry->d_name, left)) take_away(left);
    if (entries) closedir(entries);
}

/* Makes a new file beside a path, whose name and lock no other process has; its number, or -1. */
static int new_file(const char *path, mode_t mode, char *new) {
    char name[64];
    unsigned number;
    for (number = 0;; number++) {
        int file;
        snprintf(name, sizeof name, ".p11-new-%ld-%u", (long)getpid(), number);
        if (!beside(path, name, new)) return errno = ENAMETOOLONG, -1;
        file = open(new, O_WRONLY | O_CREAT | O_EXCL | O_CLOEXEC, mode);
        if (file < 0 && errno != EEXIST) return -1;
        if (file < 0) continue;
        if (!(flock(file, LOCK_EX | LOCK_NB) != 0 && errno == EWOULDBLOCK) && is_at(file, new)) return file;
        close(file);
    }
}

/* Writes a new file, with the rights of the old one, and brings it to the disk. */
static int fill(int file, const uint8_t *bytes, size_t size, const struct stat *old) {
    if (!write_to(file, bytes, size)) return 0;
    if (old) {
        if (fchown(file, old->st_uid, old->st_gid) != 0 && fchown(file, (uid_t)-1, old->st_gid) != 0) errno = 0;
        if (fchmod(file, old->st_mode & 0777) != 0) return 0;
    }
    return fsync(file) == 0;
}

/* Brings a file's new name to the disk, where its file system has a call for that. */
static int settle(const char *path) {
    char folder[PATH_MAX];
    int file, is_done;
    folder_of(path, folder);
    file = open(folder, O_RDONLY | O_CLOEXEC);
    if (file < 0) return 1;
    is_done = fsync(file) == 0 || errno == EINVAL || errno == ENOTSUP;
    close(file);
    return is_done;
}

uint32_t replace_file(const char *name, const uint8_t *bytes, size_t size) {
    char path[PATH_MAX], new[PATH_MAX];
    struct stat old;
    int is_there = 0, file;
    uint32_t why = place_of(name, path, &old, &is_there);
    if (why == P11_FILE_WRITTEN) why = check_place(name, path, &old, is_there);
    if (why != P11_FILE_WRITTEN) return why;
    clear(path);
    file = new_file(path, is_there ? 0600 : 0666, new);
    if (file < 0) return fault();
    if (!fill(file, bytes, size, is_there ? &old : NULL) || rename(new, path) != 0) why = fault();
    if (why != P11_FILE_WRITTEN) unlink(new);
    close(file);
    if (why == P11_FILE_WRITTEN && !settle(path)) why = fault();
    return why;
}

/* -- files that grow, and names */

int make_file(const char *name) { return open(name, O_WRONLY | O_CREAT | O_EXCL | O_CLOEXEC, 0666); }

int open_to_append(const char *name) { return open(name, O_WRONLY | O_APPEND | O_CREAT | O_CLOEXEC, 0666); }

int append(int file, const uint8_t *bytes, size_t size) { return write_to(file, bytes, size); }

void names_of(const char *front, void (*take)(const char *name)) {
    char path[PATH_MAX], folder[PATH_MAX], found[PATH_MAX], full[PATH_MAX];
    const char *slash = strrchr(front, '/'), *begun = slash ? slash + 1 : front;
    struct dirent *entry;
    struct stat there;
    DIR *entries;
    if (!path_of(front, path)) return;
    folder_of(path, folder);
    entries = opendir(folder);
    while (entries && (entry = readdir(entries)) != NULL) {
        if (strncmp(entry->d_name, begun, strlen(begun)) != 0 || (!*begun && entry->d_name[0] == '.')) continue;
        if (!beside(path, entry->d_name, full) || !beside(front, entry->d_name, found)) continue;
        if (stat(full, &there) == 0 && S_ISDIR(there.st_mode) && strlen(found) + 1 < sizeof found) strcat(found, "/");
        take(found);
    }
    if (entries) closedir(entries);
}

/* -- the terminal */

static struct termios saved;
static volatile sig_atomic_t ended, returned;

int is_terminal(void) { return isatty(STDIN_FILENO); }

static void begin_raw(void) {
    struct termios raw = saved;
    raw.c_lflag = (raw.c_lflag & ~(tcflag_t)(ICANON | ECHO)) | ISIG;
    raw.c_iflag &= ~(tcflag_t)(IXON | ICRNL);
    raw.c_cc[VINTR] = raw.c_cc[VQUIT] = _POSIX_VDISABLE;
    raw.c_cc[VSUSP] = 032;
    raw.c_cc[VMIN] = raw.c_cc[VTIME] = 0;
    tcsetattr(STDIN_FILENO, TCSADRAIN, &raw);
}

void put_terminal_back(void) { tcsetattr(STDIN_FILENO, TCSADRAIN, &saved); }

static void end(int number) { ended = number; }

/* Ctrl-Z: the terminal is the shell's until fg. */
static void stop(int number) {
    (void)number;
    put_terminal_back();
    raise(SIGSTOP);
    begin_raw();
    returned++;
}

static void meet(int number, void (*how)(int)) {
    struct sigaction action;
    memset(&action, 0, sizeof action);
    action.sa_handler = how;
    sigaction(number, &action, NULL);
}

void set_terminal(void) {
    tcgetattr(STDIN_FILENO, &saved);
    meet(SIGHUP, end);
    meet(SIGINT, end);
    meet(SIGTERM, end);
    meet(SIGTSTP, stop);
    begin_raw();
}

size_t columns(void) {
    struct winsize size;
    return ioctl(STDIN_FILENO, TIOCGWINSZ, &size) == 0 ? size.ws_col : 0;
}

unsigned returns(void) { return (unsigned)returned; }

int ending_signal(void) { return ended; }

int waits_for_keys(int milliseconds) {
    struct pollfd keys = {STDIN_FILENO, POLLIN, 0};
    return poll(&keys, 1, milliseconds) > 0;
}

uint64_t now(void) {
    struct timespec time;
    clock_gettime(CLOCK_MONOTONIC, &time);
    return (uint64_t)time.tv_sec * 1000 + (uint64_t)time.tv_nsec / 1000000;
}
