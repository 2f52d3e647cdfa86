/* What the program phone_apps asks of the kit's libos_c, in a few lines of C: with bindings/c/heap.c it is linked for machines that the kit has
 * no libos_c for. Where PHONE_MAIN is defined, the words of the call are what main of static.c makes of them. */
#define _GNU_SOURCE
#include "os.h"
#include <errno.h>
#include <fcntl.h>
#include <stdlib.h>
#include <string.h>
#include <sys/ioctl.h>
#include <sys/socket.h>
#include <sys/uio.h>
#include <unistd.h>

const char **os_words;
uint64_t os_word_count;
#ifndef PHONE_MAIN
/* glibc gives these what it gives main. */
__attribute__((constructor)) static void keep(int count, char **words) { os_words = (const char **)words, os_word_count = (uint64_t)count; }
#endif

static int64_t copied(const char *from, uint8_t *to, uint64_t room) {
    uint64_t len = from ? strlen(from) : 0;
    if (!from) return -1;
    memcpy(to, from, len < room ? len : room);
    return len <= room ? (int64_t)len : -2;
}
uint64_t rattle_arg_count(void) { return os_word_count; }
int64_t rattle_arg(uint64_t i, uint8_t *to, uint64_t room) { return i < os_word_count ? copied(os_words[i], to, room) : -1; }
int64_t rattle_env(const char *name, uint8_t *to, uint64_t room) { return copied(getenv(name), to, room); }
int64_t rattle_env_at(uint64_t i, uint8_t *to, uint64_t room) {
    for (char **it = environ; it && *it; it++)
        if (!i--) return copied(*it, to, room);
    return -1;
}
int32_t rattle_errno(void) { return errno; }
void rattle_set_errno(int32_t error) { errno = error; }
int32_t rattle_open_dir_at(int32_t dir, const char *name) { return openat(dir, name, O_RDONLY | O_DIRECTORY | O_NOFOLLOW | O_CLOEXEC); }
int32_t rattle_set_nonblocking(int32_t fd, _Bool on) {
    int is_on = on;
    return ioctl(fd, FIONBIO, &is_on);
}
int64_t rattle_write_parts(int32_t fd, _Bool is_socket, const uint8_t *a, uint64_t a_len, const uint8_t *b, uint64_t b_len, const uint8_t *c,
    uint64_t c_len, const uint8_t *d, uint64_t d_len) {
    struct iovec parts[] = {{(void *)a, a_len}, {(void *)b, b_len}, {(void *)c, c_len}, {(void *)d, d_len}};
    struct msghdr message = {.msg_iov = parts, .msg_iovlen = 4};
    return is_socket ? sendmsg(fd, &message, MSG_NOSIGNAL) : writev(fd, parts, 4);
}
