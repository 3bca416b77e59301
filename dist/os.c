/* What the program tapelist takes from the toolchain's C part beside the C library's own calls: errno, and the words that it was started with.
 * The declarations are those of the toolchain's library os. */
#include <errno.h>
#include <stddef.h>

int rattle_errno(void);
void rattle_set_errno(int error);
ptrdiff_t rattle_arg(size_t place, unsigned char *buffer, size_t size);

int rattle_errno(void) {
    return errno;
}

void rattle_set_errno(int error) {
    errno = error;
}

static size_t count;
static char **words;

/* The C library of Linux hands a function of .init_array what it hands `main`, which is part of the proved program and takes nothing. */
static void keep(int given, char **with) {
    count = (size_t)given;
    words = with;
}

__attribute__((section(".init_array"), used)) static void (*const first)(int, char **) = keep;

/* Puts a word at the start of the buffer: its length, -1 where there is no such word, or -2 where it does not fit, and the buffer is full. */
ptrdiff_t rattle_arg(size_t place, unsigned char *buffer, size_t size) {
    size_t i;

    if (place >= count || words[place] == NULL)
        return -1;
    for (i = 0; words[place][i] != 0; i++) {
        if (i == size)
            return -2;
        buffer[i] = (unsigned char)words[place][i];
    }
    return (ptrdiff_t)i;
}
