#define _POSIX_C_SOURCE 200809L

#include "output.h"

#include "input.h"
#include "say.h"
#include "text.h"

#include <errno.h>
#include <fcntl.h>
#include <poll.h>
#include <signal.h>
#include <stdio.h>
#include <stdlib.h>
#include <string.h>
#include <sys/stat.h>
#include <unistd.h>

/* ---- the name */

/* Puts what a link holds in the place of the link's own name. */
static int replace_name(char path[PATH_MAX], const char *target)
{
    char *slash = strrchr(path, '/');
    size_t folder = target[0] == '/' || slash == NULL ? 0 : (size_t)(slash - path) + 1;
    if (folder + strlen(target) >= PATH_MAX) {
        errno = ENAMETOOLONG;
        return 0;
    }
    strcpy(path + folder, target);
    return 1;
}

/* Follows links until `path` is none. There need be no file at the end. */
static int follow_links(char path[PATH_MAX])
{
    char target[PATH_MAX];
    int links;
    for (links = 0; links < 40; links++) {
        ssize_t n = readlink(path, target, sizeof target - 1);
        if (n < 0)
            return errno == EINVAL || errno == ENOENT;
        target[n] = '\0';
        if (!replace_name(path, target))
            return 0;
    }
    errno = ELOOP;
    return 0;
}

static int same_file(const struct stat *a, const struct stat *b)
{
    return a->st_dev == b->st_dev && a->st_ino == b->st_ino;
}

/* Finds the path of a regular file, or of a file that is still to be. */
static int find_path(struct output *out, const struct stat *old)
{
    struct stat found;
    if (strlen(out->name) >= sizeof out->path) {
        errno = ENAMETOOLONG;
        return 0;
    }
    strcpy(out->path, out->name);
    if (!follow_links(out->path))
        return 0;
    if (old != NULL && (lstat(out->path, &found) != 0 || !same_file(&found, old))) {
        errno = ENOENT; /* a link of the system's own, as to a file that has no name any more */
        return 0;
    }
    return 1;
}

/* ---- the old file */

/* Whether the file seems to hold the text of a gradient. */
static int holds_text(const char *path)
{
    char start[AVAREZHU_TEXT_MAX + 1];
    struct slice read_part = {start, 0};
    int file = open(path, O_RDONLY | O_CLOEXEC | O_NONBLOCK | O_NOCTTY);
    ssize_t n;
    if (file < 0)
        return 0;
    n = read(file, start, sizeof start);
    (void)close(file);
    read_part.length = n > 0 ? (size_t)n : 0;
    return find(read_part, "gradi") != NULL;
}

/* Whether a file of the name may go. */
static int may_go(const struct output *out, const struct stat *old, const char *text_name)
{
    struct stat text;
    if (stat_input(text_name, &text) == 0 && same_file(&text, old)) {
        say("%s: this is the file that the recipe is read from; it is left as it was", out->name);
        return 0;
    }
    if (holds_text(out->path)) {
        say("%s: this file holds the text of a gradient; it is left as it was (OUT stands before RECIPE)", out->name);
        return 0;
    }
    return 1;
}

/* A file that cannot be removed, as in a folder that is read-only, is at least emptied. */
static int remove_old(const struct output *out, const struct stat *old)
{
    int error;
    if (unlink(out->path) == 0 || errno == ENOENT)
        return 1;
    error = errno;
    if (old->st_nlink == 1 && truncate(out->path, 0) == 0)
        say("%s: %s; the old file cannot be removed, and was emptied", out->name, strerror(error));
    else
        say("%s: %s; the old file cannot be removed, and is still there", out->name, strerror(error));
    return 0;
}

int clear_output(struct output *out, const char *name, const char *text_name)
{
    struct stat old;
    int is_there = stat(name, &old) == 0;
    out->name = name;
    out->kind = REGULAR;
    if (strcmp(name, "-") == 0 || strcmp(name, "/dev/stdout") == 0) {
        out->kind = STANDARD_OUTPUT;
        out->name = "standard output";
        return 1;
    }
    if (is_there && S_ISDIR(old.st_mode)) {
        say_trouble(name, EISDIR);
        return 0;
    }
    if (is_there && !S_ISREG(old.st_mode)) {
        out->kind = DEVICE;
        return 1;
    }
    if ((!is_there && errno != ENOENT) || name[0] == '\0' || !find_path(out, is_there ? &old : NULL)) {
        say_trouble(name, errno);
        return 0;
    }
    return !is_there || (may_go(out, &old, text_name) && remove_old(out, &old));
}

/* ---- writing */

static int wait_to_write(int file)
{
    struct pollfd wanted = {0, POLLOUT, 0};
    wanted.fd = file;
    return poll(&wanted, 1, -1) >= 0 || errno == EINTR;
}

static int write_all(int file, const uint8_t *bytes, size_t length)
{
    while (length > 0) {
        ssize_t n = write(file, bytes, length);
        if (n > 0) {
            bytes += n;
            length -= (size_t)n;
        } else if (n == 0) {
            errno = EIO;
            return 0;
        } else if (errno == EAGAIN ? !wait_to_write(file) : errno != EINTR) {
            return 0;
        }
    }
    return 1;
}

static int open_device(const char *name)
{
    struct stat found;
    int file = open(name, O_WRONLY | O_CLOEXEC | O_NOCTTY);
    if (file >= 0 && fstat(file, &found) == 0 && S_ISREG(found.st_mode)) {
        (void)close(file);
        errno = EBUSY; /* it was none a moment ago */
        return -1;
    }
    return file;
}

/* ---- a new file: written beside its path, and renamed when all of it is there */

/* The signals that end the program and can be caught. */
static const int ends[] = {SIGHUP, SIGINT, SIGQUIT, SIGTERM, SIGALRM, SIGUSR1, SIGUSR2, SIGXCPU};
#define ENDS (sizeof ends / sizeof *ends)

static char temporary[PATH_MAX];
static volatile sig_atomic_t is_temporary_there;

/* The default action is set again before this is called, and takes place when it returns. */
static void remove_at_end(int number)
{
    if (is_temporary_there)
        (void)unlink(temporary);
    (void)raise(number);
}

static void block_ends(sigset_t *before)
{
    sigset_t all;
    size_t i;
    sigemptyset(&all);
    for (i = 0; i < ENDS; i++)
        sigaddset(&all, ends[i]);
    sigprocmask(SIG_BLOCK, &all, before);
}

/* Catches each of them that is not ignored, as by nohup. */
static void catch_ends(void)
{
    struct sigaction action, old;
    size_t i;
    memset(&action, 0, sizeof action);
    action.sa_handler = remove_at_end;
    action.sa_flags = (int)SA_RESETHAND;
    sigemptyset(&action.sa_mask);
    for (i = 0; i < ENDS; i++)
        if (sigaction(ends[i], NULL, &old) == 0 && old.sa_handler == SIG_DFL)
            sigaction(ends[i], &action, NULL);
}

/* The name of the temporary file, in the folder of `path`. */
static int name_temporary(const char *path)
{
    static const char name[] = ".avarezhu-XXXXXX";
    const char *slash = strrchr(path, '/');
    size_t folder = slash == NULL ? 0 : (size_t)(slash - path) + 1;
    if (folder + sizeof name > sizeof temporary) {
        errno = ENAMETOOLONG;
        return 0;
    }
    memcpy(temporary, path, folder);
    memcpy(temporary + folder, name, sizeof name);
    return 1;
}

static int create_temporary(const char *path)
{
    sigset_t before;
    int file;
    if (!name_temporary(path))
        return -1;
    catch_ends();
    block_ends(&before);
    file = mkstemp(temporary);
    is_temporary_there = file >= 0;
    sigprocmask(SIG_SETMASK, &before, NULL);
    return file;
}

/* A file system that knows no modes may say that this is not permitted. */
static int set_mode(int file)
{
    mode_t mask = umask(0);
    umask(mask);
    return fchmod(file, 0666 & ~mask) == 0 || errno == EPERM || errno == ENOTSUP;
}

/* Not every file system can sync every kind of file. */
static int sync_file(int file)
{
    return fsync(file) == 0 || errno == EINVAL || errno == ENOSYS || errno == ENOTSUP;
}

/* A folder that may be written but not read is left unsynced. */
static int sync_folder(const char *path)
{
    char folder[PATH_MAX + 1];
    const char *slash = strrchr(path, '/');
    size_t length = slash == NULL ? 0 : (size_t)(slash - path) + 1;
    int file, error;
    memcpy(folder, path, length);
    strcpy(folder + length, ".");
    file = open(folder, O_RDONLY | O_CLOEXEC);
    if (file < 0)
        return 1;
    error = sync_file(file) ? 0 : errno;
    (void)close(file);
    errno = error;
    return error == 0;
}

/* From here on nothing interrupts: either the file gets its name and the program ends well, or neither. */
static int rename_temporary(const char *path)
{
    int error;
    block_ends(NULL);
    if (rename(temporary, path) != 0)
        return 0;
    is_temporary_there = 0;
    if (sync_folder(path))
        return 1;
    error = errno;
    (void)unlink(path);
    errno = error;
    return 0;
}

static void remove_temporary(void)
{
    if (is_temporary_there)
        (void)unlink(temporary);
    is_temporary_there = 0;
}

/* ---- any kind of output */

int open_output(struct output *out)
{
    out->file = out->kind == STANDARD_OUTPUT ? STDOUT_FILENO
                : out->kind == DEVICE        ? open_device(out->name)
                                             : create_temporary(out->path);
    if (out->file < 0)
        say_trouble(out->name, errno);
    return out->file >= 0;
}

int write_output(const struct output *out, const uint8_t *bytes, size_t length)
{
    if (write_all(out->file, bytes, length))
        return 1;
    say_trouble(out->name, errno);
    return 0;
}

int close_output(const struct output *out, int is_whole)
{
    int is_named = is_whole && out->kind == REGULAR, error = 0;
    if (is_named && !(set_mode(out->file) && sync_file(out->file)))
        error = errno;
    if (out->kind != STANDARD_OUTPUT && close(out->file) != 0 && error == 0)
        error = errno;
    if (is_named && error == 0 && !rename_temporary(out->path))
        error = errno;
    remove_temporary();
    if (is_whole && error != 0)
        say_trouble(out->name, error);
    return is_whole && error == 0;
}

/* ---- standard files */

int close_standard_output(void)
{
    int error = ferror(stdout) ? EIO : 0;
    errno = 0;
    if (fclose(stdout) != 0 || error != 0) {
        say_trouble("standard output", errno != 0 ? errno : error);
        return 0;
    }
    return 1;
}

int open_standard_files(void)
{
    int file;
    for (file = STDIN_FILENO; file <= STDERR_FILENO; file++)
        if (fcntl(file, F_GETFD) < 0 && open("/dev/null", file == STDIN_FILENO ? O_WRONLY : O_RDONLY) != file)
            return 0;
    return 1;
}
