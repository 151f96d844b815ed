#define _POSIX_C_SOURCE 200809L

#include "input.h"

#include "say.h"

#include <errno.h>
#include <fcntl.h>
#include <poll.h>
#include <string.h>
#include <unistd.h>

int is_standard_input(const char *name)
{
    return name == NULL || strcmp(name, "-") == 0;
}

const char *input_name(const char *name)
{
    return is_standard_input(name) ? "standard input" : name;
}

int stat_input(const char *name, struct stat *found)
{
    return is_standard_input(name) ? fstat(STDIN_FILENO, found) : stat(name, found);
}

/* Waits where another program has made the file one that does not wait by itself. */
static int wait_to_read(int file)
{
    struct pollfd wanted = {0, POLLIN, 0};
    wanted.fd = file;
    return poll(&wanted, 1, -1) >= 0 || errno == EINTR;
}

static int read_all(int file, char *bytes, size_t room, size_t *length)
{
    *length = 0;
    while (*length < room) {
        ssize_t n = read(file, bytes + *length, room - *length);
        if (n == 0)
            return 1;
        if (n > 0)
            *length += (size_t)n;
        else if (errno == EAGAIN ? !wait_to_read(file) : errno != EINTR)
            return 0;
    }
    return 1;
}

int open_input(const char *name)
{
    int file = is_standard_input(name) ? STDIN_FILENO : open(name, O_RDONLY | O_CLOEXEC | O_NOCTTY);
    if (file < 0)
        say_trouble(name, errno);
    return file;
}

int read_part(int file, const char *name, void *bytes, size_t room, size_t *length)
{
    if (read_all(file, bytes, room, length))
        return 1;
    say_trouble(input_name(name), errno);
    return 0;
}

void close_input(int file)
{
    if (file > STDERR_FILENO)
        (void)close(file);
}

int read_input(const char *name, void *bytes, size_t room, size_t *length)
{
    int file = open_input(name), good;
    if (file < 0)
        return 0;
    good = read_part(file, name, bytes, room, length);
    close_input(file);
    return good;
}
