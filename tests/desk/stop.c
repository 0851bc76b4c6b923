/* Stops a program at the n-th call that changes files: a library for LD_PRELOAD that stands in front
 * of libc's calls. It traces no process, so it also works under an emulator. From the project's root:
 *
 *     tests/x86 gcc -shared -fPIC -O2 -Wall -Wextra -Werror -o target/stop.so tests/desk/stop.c -ldl
 *     STOP_AT=3 STOP_HOW=cut LD_PRELOAD=$PWD/target/stop.so target/foldplover ..
 *
 * An emulator is given the library with qemu-x86_64 -E LD_PRELOAD=.., the rest as it is here.
 *
 * STOP_AT=n          the call, from 1; unset or 0 is none
 * STOP_HOW=fail      that call does nothing and fails: with EIO if it syncs, else with ENOSPC
 *          fail-on   that call and all later ones fail so
 *          cut       the process ends before that call, with 99
 *          torn      as cut, but if that call is a write, half of it is done first
 *          lose      as cut, but the power fails and what was not synced is lost: a file is cut to its
 *                    length when it was last synced (or first changed), and changes of names in
 *                    folders that were not synced since are undone, newest first. With n beyond the
 *                    last call the power fails when the program has ended
 *          hook      runs STOP_HOOK in a shell, without this library, before that call
 * STOP_KEEP=bits     lose: unsynced changes of names that reached the disk all the same, in whatever
 *                    order it wrote them. Bit 0 is the newest, bit 63 is all from the 64th on, so -1
 *                    loses only what is in the files
 * STOP_COUNT=FILE    gets the number of counted calls when the process ends
 * STOP_TRACE=FILE    gets a line a counted call: number, name, path
 * STOP_PROGRAM=NAME  the program that is stopped, foldplover by default; others pass
 *
 * Only regular files and folders count, and never descriptors 0 to 2. What libc does inside itself, as
 * in fwrite, and changes of times and owners are not seen. Lose does not bring back bytes that were
 * overwritten, mode bits, nor two names that were swapped by one call. Where this library cannot do
 * its work it says so and ends the process with 98. */
#define _GNU_SOURCE
#undef _FORTIFY_SOURCE /* its inline functions have the names that are defined here */
#include <errno.h>
#include <fcntl.h>
#include <ftw.h>
#include <libgen.h>
#include <limits.h>
#include <stdarg.h>
#include <stdbool.h>
#include <stdint.h>
#include <stdio.h>
#include <stdlib.h>
#include <string.h>
#include <sys/sendfile.h>
#include <sys/stat.h>
#include <sys/syscall.h>
#include <sys/uio.h>
#include <unistd.h>

#define MOST 300 /* changes in one run; each holds up to three descriptors open */

enum how { FAIL, FAIL_ON, CUT, TORN, LOSE, HOOK, HOW_COUNT };

/* A name in a folder. The folder is held open, so that it is found when it was renamed. */
struct place {
    int folder; /* -1 is no place */
    uint64_t identity;
    bool synced;
    char name[NAME_MAX + 1];
};

/* A change of names: `object` came to `to`, from `from` if it was renamed, and `gone` is what stood
 * there before, held open. A removal has no object: 0. Or a change of a file's bytes: `to` has the
 * file's identity, `gone` is the file, open for writing, and `length` its length on the disk. */
struct change {
    struct place from, to;
    uint64_t object;
    int gone;
    off_t length; /* -1 is a change of names */
};
static const struct change no_change = {{-1, 0, true, ""}, {-1, 0, true, ""}, 0, -1, -1};

static pid_t process; /* a forked child has the same memory, and passes */
static bool chosen, ended;
static bool tracking; /* only lose has to know what was synced */
static enum how how;
static unsigned long stop_at, calls;
static struct change changes[MOST];
static size_t change_count;

/* A test that goes on without its instrument would pass for no reason. */
__attribute__((noreturn)) static void cannot(const char *what)
{
    dprintf(2, "stop.so: cannot %s\n", what);
    ended = true;
    _exit(98);
}

static const char *setting(const char *name, const char *otherwise)
{
    const char *value = getenv(name);
    return value != NULL && *value != 0 ? value : otherwise;
}

/* Whether this process is to be stopped. Another library may write before this one is started, so
 * the settings are read at the first call. */
__attribute__((constructor)) static bool stoppable(void)
{
    static const char *const names[HOW_COUNT] = {"fail", "fail-on", "cut", "torn", "lose", "hook"};
    char *end;
    if (process != 0) {
        return chosen && !ended && getpid() == process;
    }
    process = getpid();
    chosen = strcmp(program_invocation_short_name, setting("STOP_PROGRAM", "foldplover")) == 0;
    stop_at = strtoul(setting("STOP_AT", "0"), &end, 10);
    while (how < HOW_COUNT && strcmp(setting("STOP_HOW", ""), names[how]) != 0) {
        how++;
    }
    if (chosen && (*end != 0 || (stop_at != 0 && how == HOW_COUNT))) {
        cannot("read STOP_AT or STOP_HOW");
    }
    tracking = chosen && stop_at != 0 && how == LOSE;
    return chosen;
}

static void write_line(const char *file, int flags, const char *line)
{
    if (file == NULL) {
        return;
    }
    int descriptor = syscall(SYS_openat, AT_FDCWD, file, O_WRONLY | O_CREAT | O_CLOEXEC | flags, 0666);
    if (syscall(SYS_write, descriptor, line, strlen(line)) < 0) {
        cannot("write STOP_COUNT or STOP_TRACE");
    }
    close(descriptor);
}

/* What a power cut loses. */

/* Device and file in one number, 0 if there is none. Without a name it is the descriptor's own. */
static uint64_t identity_at(int folder, const char *name)
{
    struct stat status;
    int found = fstatat(folder, name, &status, AT_SYMLINK_NOFOLLOW | AT_EMPTY_PATH);
    return found == 0 ? (uint64_t)status.st_dev << 44 ^ status.st_ino : 0;
}

/* The file of a descriptor as a path, whatever its name is now. */
static const char *path_of(int descriptor)
{
    static char path[32];
    snprintf(path, sizeof path, "/proc/self/fd/%d", descriptor);
    return path;
}

/* Opens what is there to know it later: reads and locks nothing. -1 if there is nothing. */
static int hold(int folder, const char *path, int flags)
{
    int descriptor = syscall(SYS_openat, folder, path, O_PATH | O_CLOEXEC | flags, 0);
    if (descriptor < 0 && errno == EMFILE) {
        cannot("hold so many files open");
    }
    return descriptor;
}

static struct place place_of(int folder, const char *path)
{
    struct place place = {hold(folder, dirname(strdupa(path)), O_DIRECTORY), 0, false, ""};
    place.identity = identity_at(place.folder, "");
    snprintf(place.name, sizeof place.name, "%s", basename(strdupa(path)));
    return place;
}

/* `from` is NULL if nothing is renamed. */
static struct change begin_change(int from_folder, const char *from, int folder, const char *path)
{
    struct change change = no_change;
    if (stoppable() && tracking) {
        change.to = place_of(folder, path);
        change.gone = hold(change.to.folder, change.to.name, O_NOFOLLOW);
        change.from = from != NULL ? place_of(from_folder, from) : change.from;
    }
    return change;
}

static void add_change(const struct change *change)
{
    if (change_count == MOST || (change->length < 0 ? change->to.folder : change->gone) < 0) {
        cannot("follow this change");
    }
    changes[change_count++] = *change;
}

/* Takes what the call gave, and gives it on. */
static int end_change(struct change *change, long result)
{
    if (stoppable() && tracking && result == 0) {
        change->object = identity_at(change->to.folder, change->to.name);
        add_change(change);
    }
    return result;
}

/* Notes a file's length before its bytes change, and after it became shorter: that may reach the disk
 * at once, and what is written afterwards may not. The file is opened a second time, since the program
 * may close it; a copy of the descriptor would keep the program's lock. */
static void note_length(int descriptor)
{
    struct stat status;
    struct change change = no_change;
    if (!stoppable() || !tracking || fstat(descriptor, &status) != 0 || !S_ISREG(status.st_mode)) {
        return;
    }
    change.to.identity = identity_at(descriptor, "");
    change.to.synced = false;
    change.length = status.st_size;
    for (size_t i = 0; i < change_count; i++) {
        struct change *known = &changes[i];
        if (known->length >= 0 && !known->to.synced && known->to.identity == change.to.identity) {
            known->length = known->length < change.length ? known->length : change.length;
            return;
        }
    }
    change.gone = syscall(SYS_openat, AT_FDCWD, path_of(descriptor), O_WRONLY | O_CLOEXEC, 0);
    add_change(&change);
}

/* A rename is safe when both its folders were synced. */
static void note_synced(uint64_t identity)
{
    for (size_t i = 0; i < change_count; i++) {
        changes[i].from.synced |= changes[i].from.identity == identity;
        changes[i].to.synced |= changes[i].to.identity == identity;
    }
}

static int remove_one(const char *path, const struct stat *status, int kind, struct FTW *depth)
{
    (void)status;
    (void)depth;
    return syscall(SYS_unlinkat, AT_FDCWD, path, kind == FTW_DP ? AT_REMOVEDIR : 0);
}

static void copy_back(int gone, mode_t mode, const struct place *place)
{
    int from = syscall(SYS_openat, AT_FDCWD, path_of(gone), O_RDONLY | O_CLOEXEC, 0);
    int to = syscall(SYS_openat, place->folder, place->name, O_WRONLY | O_CREAT | O_CLOEXEC, mode);
    while (syscall(SYS_sendfile, to, from, NULL, 1ul << 20) > 0) {
    }
}

/* Unless the name is taken. A file that has another name gets a second one. A file without a name cannot
 * be linked, and a spare name, kept in time, would be seen in its folder and would keep that from being
 * removed. So it is made anew; older changes then have to find it, and those in a folder the new one. */
static void bring_back(int gone, const struct place *place)
{
    struct stat status;
    char target[PATH_MAX] = "";
    uint64_t old = identity_at(gone, "");
    if (identity_at(place->folder, place->name) != 0 || fstat(gone, &status) != 0
        || syscall(SYS_linkat, AT_FDCWD, path_of(gone), place->folder, place->name, AT_SYMLINK_FOLLOW)
               == 0) {
        return;
    }
    if (S_ISDIR(status.st_mode)) {
        syscall(SYS_mkdirat, place->folder, place->name, status.st_mode & 07777);
    } else if (S_ISREG(status.st_mode)) {
        copy_back(gone, status.st_mode & 07777, place);
    } else if (readlinkat(gone, "", target, sizeof target - 1) > 0) {
        syscall(SYS_symlinkat, target, place->folder, place->name);
    }
    uint64_t new = identity_at(place->folder, place->name);
    for (size_t i = 0; i < 2 * change_count; i++) {
        struct change *change = &changes[i / 2];
        struct place *side = i % 2 == 0 ? &change->from : &change->to;
        change->object = change->object == old ? new : change->object;
        if (identity_at(change->gone, "") == old) {
            change->gone = hold(place->folder, place->name, O_NOFOLLOW);
        }
        if (side->identity == old) {
            side->folder = hold(place->folder, place->name, O_DIRECTORY);
            side->identity = new;
        }
    }
}

/* A newer change that is kept may have moved the object on or taken its old name: it stays then. */
static void undo(struct change change)
{
    const struct place *from = &change.from;
    const struct place *to = &change.to;
    char path[64 + NAME_MAX];
    if (change.object != 0 && identity_at(to->folder, to->name) == change.object) {
        if (from->folder < 0) {
            snprintf(path, sizeof path, "%s/%s", path_of(to->folder), to->name);
            nftw(path, remove_one, 8, FTW_DEPTH | FTW_PHYS);
        } else if (identity_at(from->folder, from->name) == 0) {
            syscall(SYS_renameat, to->folder, to->name, from->folder, from->name);
        }
    }
    if (change.gone >= 0) {
        bring_back(change.gone, to);
    }
}

/* Bytes first: a file that is brought back is copied without those that are lost. */
static void lose_unsynced(void)
{
    unsigned long long keep = strtoull(setting("STOP_KEEP", "0"), NULL, 0);
    struct stat status;
    for (size_t i = 0; i < change_count; i++) {
        struct change *change = &changes[i];
        if (change->length >= 0 && !change->to.synced && fstat(change->gone, &status) == 0
            && status.st_size > change->length) {
            syscall(SYS_ftruncate, change->gone, change->length);
        }
    }
    unsigned age = 0;
    for (size_t i = change_count; i-- > 0;) {
        if (changes[i].length < 0 && (!changes[i].from.synced || !changes[i].to.synced)) {
            if ((keep >> age & 1) == 0) {
                undo(changes[i]);
            }
            age += age < 63;
        }
    }
}

/* Counting and stopping. */

__attribute__((destructor)) static void at_end(void)
{
    char line[32];
    if (!stoppable()) {
        return;
    }
    if (tracking && stop_at >= calls) {
        lose_unsynced();
    }
    snprintf(line, sizeof line, "%lu\n", calls);
    write_line(setting("STOP_COUNT", NULL), O_TRUNC, line);
    ended = true;
}

/* Counts a call. True: it has to fail, and errno is set. */
static bool stops(const char *name, const char *path, int error)
{
    char line[PATH_MAX + 64];
    if (!stoppable()) {
        return false;
    }
    calls++;
    snprintf(line, sizeof line, "%lu %s %s\n", calls, name, path);
    write_line(setting("STOP_TRACE", NULL), O_APPEND, line);
    if (stop_at == 0 || calls < stop_at || (calls > stop_at && how != FAIL_ON)) {
        return false;
    }
    if (how == FAIL || how == FAIL_ON) {
        errno = error;
        return true;
    }
    if (how == HOOK) {
        unsetenv("LD_PRELOAD");
        if (system(setting("STOP_HOOK", "exit 1")) == -1) {
            cannot("run STOP_HOOK");
        }
        return false;
    }
    _exit(99);
}

static bool counted(int descriptor)
{
    struct stat status;
    return stoppable() && descriptor > 2 && fstat(descriptor, &status) == 0
        && (S_ISREG(status.st_mode) || S_ISDIR(status.st_mode));
}

static bool stops_open(const char *name, int descriptor, int error)
{
    char path[PATH_MAX] = "";
    if (!counted(descriptor)) {
        return false;
    }
    if (readlink(path_of(descriptor), path, sizeof path - 1) < 0) {
        cannot("read /proc/self/fd");
    }
    return stops(name, path, error);
}

/* Whether the call that comes is the write of which half is done. */
static bool tears(int descriptor)
{
    return counted(descriptor) && how == TORN && calls + 1 == stop_at;
}

/* libc's calls. */

static int open_file(const char *name, int folder, const char *path, int flags, mode_t mode)
{
    struct stat before;
    if ((flags & (O_CREAT | O_TRUNC)) == 0) {
        return syscall(SYS_openat, folder, path, flags, mode);
    }
    if (stops(name, path, ENOSPC)) {
        return -1;
    }
    bool creates = fstatat(folder, path, &before, 0) != 0;
    struct change change = begin_change(-1, NULL, folder, path);
    int descriptor = syscall(SYS_openat, folder, path, flags, mode);
    end_change(&change, descriptor >= 0 && creates ? 0 : -1);
    if (descriptor >= 0 && (flags & O_TRUNC) != 0) {
        note_length(descriptor);
    }
    return descriptor;
}

/* A mode that was not given the kernel does not look at. */
#define OPENS(name, folder, arguments) \
    int name arguments \
    { \
        va_list rest; \
        va_start(rest, flags); \
        mode_t mode = va_arg(rest, mode_t); \
        va_end(rest); \
        return open_file(#name, folder, path, flags, mode); \
    }
OPENS(open, AT_FDCWD, (const char *path, int flags, ...))
OPENS(openat, folder, (int folder, const char *path, int flags, ...))

int creat(const char *path, mode_t mode)
{
    return open_file("creat", AT_FDCWD, path, O_WRONLY | O_CREAT | O_TRUNC, mode);
}

/* Calls that change names: the place renamed from, the changed place, the arguments, the call. */
#define NAMES(name, from_folder, from, folder, path, arguments, ...) \
    int name arguments \
    { \
        if (stops(#name, path, ENOSPC)) { \
            return -1; \
        } \
        struct change change = begin_change(from_folder, from, folder, path); \
        return end_change(&change, syscall(SYS_##name, __VA_ARGS__)); \
    }
#define AT(name, folder, path, ...) NAMES(name, -1, NULL, folder, path, __VA_ARGS__)
#define PLAIN(name, path, ...) AT(name, AT_FDCWD, path, __VA_ARGS__)

PLAIN(mkdir, path, (const char *path, mode_t mode), path, mode)
PLAIN(rmdir, path, (const char *path), path)
PLAIN(unlink, path, (const char *path), path)
PLAIN(symlink, path, (const char *target, const char *path), target, path)
PLAIN(link, to, (const char *from, const char *to), from, to)
AT(mkdirat, folder, path, (int folder, const char *path, mode_t mode), folder, path, mode)
AT(unlinkat, folder, path, (int folder, const char *path, int flags), folder, path, flags)
AT(symlinkat, folder, path, (const char *target, int folder, const char *path), target, folder, path)
AT(linkat, folder, to, (int old, const char *from, int folder, const char *to, int flags),
   old, from, folder, to, flags)
NAMES(rename, AT_FDCWD, from, AT_FDCWD, to, (const char *from, const char *to), from, to)
NAMES(renameat, old, from, folder, to, (int old, const char *from, int folder, const char *to),
      old, from, folder, to)
NAMES(renameat2, old, from, folder, to,
      (int old, const char *from, int folder, const char *to, unsigned flags),
      old, from, folder, to, flags)

/* Calls that write: what a torn one does first, the file, the arguments, the call. */
#define WRITES(type, name, half, file, arguments, ...) \
    type name arguments \
    { \
        if (tears(file)) { \
            half; \
        } \
        if (stops_open(#name, file, ENOSPC)) { \
            return -1; \
        } \
        note_length(file); \
        type result = syscall(__VA_ARGS__); \
        note_length(file); \
        return result; \
    }
#define NOTHING (void)0
WRITES(ssize_t, write, syscall(SYS_write, file, bytes, length / 2), file,
       (int file, const void *bytes, size_t length), SYS_write, file, bytes, length)
WRITES(ssize_t, pwrite, syscall(SYS_pwrite64, file, bytes, length / 2, offset), file,
       (int file, const void *bytes, size_t length, off_t offset),
       SYS_pwrite64, file, bytes, length, offset)
WRITES(ssize_t, writev, syscall(SYS_writev, file, parts, count / 2), file,
       (int file, const struct iovec *parts, int count), SYS_writev, file, parts, count)
WRITES(ssize_t, copy_file_range, NOTHING, out,
       (int in, off_t *from, int out, off_t *to, size_t length, unsigned flags),
       SYS_copy_file_range, in, from, out, to, length, flags)
WRITES(ssize_t, splice, NOTHING, out,
       (int in, off_t *from, int out, off_t *to, size_t length, unsigned flags),
       SYS_splice, in, from, out, to, length, flags)
WRITES(ssize_t, sendfile, NOTHING, out, (int out, int in, off_t *from, size_t length),
       SYS_sendfile, out, in, from, length)
WRITES(int, ftruncate, NOTHING, file, (int file, off_t length), SYS_ftruncate, file, length)

#define SYNCS(name) \
    int name(int file) \
    { \
        int result = stops_open(#name, file, EIO) ? -1 : syscall(SYS_##name, file); \
        if (result == 0 && stoppable() && tracking) { \
            note_synced(identity_at(file, "")); \
        } \
        return result; \
    }
SYNCS(fsync)
SYNCS(fdatasync)

/* Calls that lose takes for done. */
#define COUNTS(name, fails, file, arguments, ...) \
    int name arguments \
    { \
        return fails(#name, file, ENOSPC) ? -1 : syscall(SYS_##name, file, __VA_ARGS__); \
    }
COUNTS(chmod, stops, path, (const char *path, mode_t mode), mode)
COUNTS(fchmod, stops_open, file, (int file, mode_t mode), mode)
COUNTS(truncate, stops, path, (const char *path, off_t length), length)

/* exit comes to at_end by itself. */
void _exit(int status)
{
    at_end();
    for (;;) {
        syscall(SYS_exit_group, status);
    }
}

/* The same calls under other names. */
#define SAME_AS(name) __attribute__((alias(name)))
int open64(const char *path, int flags, ...) SAME_AS("open");
int openat64(int folder, const char *path, int flags, ...) SAME_AS("openat");
int creat64(const char *path, mode_t mode) SAME_AS("creat");
ssize_t pwrite64(int file, const void *bytes, size_t length, off64_t offset) SAME_AS("pwrite");
ssize_t sendfile64(int out, int in, off64_t *from, size_t length) SAME_AS("sendfile");
int ftruncate64(int file, off64_t length) SAME_AS("ftruncate");
int truncate64(const char *path, off64_t length) SAME_AS("truncate");
void _Exit(int status) SAME_AS("_exit");
