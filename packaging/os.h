/* The words of the call, as the program is told them. */
#include <stdint.h>
extern const char **os_words;
extern uint64_t os_word_count;
