/* The program phone as one file, which needs no other: it is linked statically of phone_apps, this, os.c and bindings/c/heap.c
 * (packaging/static). The tables stand in it, and their names are put before the words of the call, as the script phone does. The main of
 * phone_apps is called phone_main here. */
#define _GNU_SOURCE
#include "os.h"
#include <errno.h>
#include <fcntl.h>
#include <stdarg.h>
#include <stdio.h>
#include <stdlib.h>
#include <string.h>
#include <sys/mman.h>
#include <sys/syscall.h>
#include <unistd.h>

/* Each table, whose bytes stand between two places; PHONE_DATA is the folder that they are of. */
#define EMBED(name, file)                                                                                             \
    __asm__(".pushsection .rodata\n" #name "_first: .incbin \"" PHONE_DATA "/" file "\"\n" #name "_end: .byte 0\n.popsection\n"); \
    extern const uint8_t name##_first[], name##_end[]
EMBED(world, "world.compact");
EMBED(short_numbers, "short.json");
EMBED(alternates, "alternates.json");
EMBED(timezones, "timezones.tsv");
EMBED(carriers, "carriers.tsv");
EMBED(areas, "areas.tsv");
EMBED(countries, "countries.tsv");
EMBED(version, "VERSION");

static const struct { const char *option, *path; const uint8_t *first, *end; } TABLES[] = {
    {"--database", "tables:/world.compact", world_first, world_end},
    {"--short-database", "tables:/short.json", short_numbers_first, short_numbers_end},
    {"--alternates", "tables:/alternates.json", alternates_first, alternates_end},
    {"--time-zones", "tables:/timezones.tsv", timezones_first, timezones_end},
    {"--carriers", "tables:/carriers.tsv", carriers_first, carriers_end},
    {"--areas", "tables:/areas.tsv", areas_first, areas_end},
    {"--countries", "tables:/countries.tsv", countries_first, countries_end},
    {NULL, "tables:/VERSION", version_first, version_end},
};
enum { COUNT = sizeof TABLES / sizeof *TABLES };

/* A descriptor of a table's bytes, which is closed as any other; -1, and errno says why. */
static int descriptor_of(int which) {
    const uint8_t *at = TABLES[which].first;
    size_t left = (size_t)(TABLES[which].end - at);
    int fd = memfd_create("phone", MFD_CLOEXEC);
    while (fd >= 0 && left) {
        ssize_t wrote = write(fd, at, left);
        if (wrote < 0 && errno != EINTR) return close(fd), -1;
        if (wrote > 0) at += wrote, left -= (size_t)wrote;
    }
    return fd < 0 || lseek(fd, 0, SEEK_SET) < 0 ? -1 : fd;
}

#if defined(__x86_64__) && !defined(__GLIBC__)
#include <cpuid.h>
/* What main of phone_apps asks of glibc, and musl hasn't: which instructions the processor has, by the numbers that <sys/platform/x86.h>
 * gives to what cpuid tells (0 for leaf 1, 2 for leaf 0x80000001), and write. Main asks for none whose use a system has to allow. */
struct cpuid_feature { unsigned cpuid_array[4], active_array[4]; };
const struct cpuid_feature *__x86_get_cpuid_feature_leaf(unsigned which) {
    static struct cpuid_feature told[2], none;
    if (which != 0 && which != 2) return &none;
    struct cpuid_feature *it = &told[which / 2];
    unsigned *of = it->active_array;
    if (!__get_cpuid(which ? 0x80000001 : 1, of, of + 1, of + 2, of + 3)) return &none;
    memcpy(it->cpuid_array, of, sizeof it->cpuid_array);
    return it;
}
ssize_t __write(int fd, const void *bytes, size_t count) { return write(fd, bytes, count); }
#endif

/* C's open, for the program: of a table the table, else the file. The linker puts it in its place (--wrap). */
int __real_open(const char *path, int flags, ...);
int __wrap_open(const char *path, int flags, ...) {
    va_list more;
    va_start(more, flags);
    unsigned mode = flags & (O_CREAT | O_TMPFILE) ? va_arg(more, unsigned) : 0;
    va_end(more);
    for (int i = 0; i < COUNT; i++)
        if (!strcmp(path, TABLES[i].path)) return descriptor_of(i);
    return __real_open(path, flags, mode);
}

/* The kernel's call, for a C library without it: musl has it from 1.2.5 on. */
__attribute__((weak)) int statx(int folder, const char *path, int flags, unsigned mask, void *told) {
    return (int)syscall(SYS_statx, folder, path, flags, mask, told);
}

int phone_main(void);
int main(int argc, char **argv) {
    const char **words = malloc(((size_t)argc + 2 * COUNT + 1) * sizeof *words);
    if (!words) return fputs("phone: out of memory\n", stderr), 1;
    words[os_word_count++] = argc ? argv[0] : "phone";
    for (int i = 0; i < COUNT; i++)
        if (TABLES[i].option) words[os_word_count++] = TABLES[i].option, words[os_word_count++] = TABLES[i].path;
    for (int i = 1; i < argc; i++) words[os_word_count++] = argv[i];
    os_words = words;
    return phone_main();
}
