/* The table of the world, which stands in the library twice: in the compact form that is opened, and as the text that people and
 * programs read. When this is compiled, PHONE_WORLD is the path of the first, or PHONE_WORLD_TEXT that of the second, so that each
 * is an object of its own, and a program has the one that it calls for. */
#include "phone.h"

#define PHONE_EMBED(name, path)                           \
    __asm__(".pushsection .rodata\n"                \
            #name "_first: .incbin \"" path "\"\n"  \
            #name "_end: .byte 0\n"                 \
            ".popsection\n");                       \
    extern const uint8_t name##_first[] __attribute__((visibility("hidden"))); \
    extern const uint8_t name##_end[] __attribute__((visibility("hidden")))

#ifdef PHONE_WORLD
PHONE_EMBED(world, PHONE_WORLD);

phone_status phone_open_world(phone_handle *handle, uint32_t rules) {
    return phone_open(world_first, (size_t)(world_end - world_first), rules, handle);
}
#endif

#ifdef PHONE_WORLD_TEXT
PHONE_EMBED(world_text, PHONE_WORLD_TEXT);

const uint8_t *phone_world_text(size_t *text_len) {
    *text_len = (size_t)(world_text_end - world_text_first);
    return world_text_first;
}
#endif
