/* What a Rattle program asks of the toolchain's C code, for the processor at hand; the toolchain has it for x86-64 alone. */
#include <errno.h>
#include <fcntl.h>
#include <stddef.h>
#include <string.h>
#include <sys/types.h>

int rattle_open_to_read(const char *path);
int rattle_errno(void);
void rattle_set_errno(int error);
size_t rattle_arg_count(void);
ssize_t rattle_arg(size_t i, char *buffer, size_t length);

static int count;
static char **words;

/* The C library hands a program's words to functions in this section, before main. */
static void keep(int argc, char **argv)
{
    count = argc;
    words = argv;
}

__attribute__((section(".init_array"), used)) static void (*const keeper)(int, char **) = keep;

int rattle_open_to_read(const char *path)
{
    return open(path, O_RDONLY);
}

int rattle_errno(void)
{
    return errno;
}

void rattle_set_errno(int error)
{
    errno = error;
}

size_t rattle_arg_count(void)
{
    return (size_t)count;
}

ssize_t rattle_arg(size_t i, char *buffer, size_t length)
{
    size_t size;

    if (i >= (size_t)count)
        return -1;
    size = strlen(words[i]);
    if (size > length) {
        memcpy(buffer, words[i], length);
        return -2;
    }
    memcpy(buffer, words[i], size);
    return (ssize_t)size;
}
