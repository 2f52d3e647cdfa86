#include "phone.h"
#include <stdio.h>
int main(void) {
    const char text[] = "Ring 03-331 6005, or +1 650 253 0000";
    const uint8_t *bytes = phone_text(text, sizeof text - 1), *hint = phone_text("NZ", 2);
    phone_place found[8];
    size_t count;
    phone_handle world = PHONE_CLOSED;
    if (phone_open_world(&world, PHONE_LIBRARY) != PHONE_OK) return 1;
    if (phone_find(&world, hint, 2, PHONE_IF_VALID, bytes, sizeof text - 1, found, 8, &count)
        == PHONE_OK)
        for (size_t i = 0; i < count; i++)
            printf("%.*s\n", (int)(found[i].end - found[i].start), text + found[i].start);
    phone_close(&world);
}
