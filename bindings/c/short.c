#include "phone.h"
#include <stdio.h>
int main(void) {
    uint8_t out[256] = {0};
    size_t n;
    phone_handle w = PHONE_CLOSED;
    if (phone_open_world(&w, PHONE_LIBRARY) == PHONE_OK)
        phone_report(&w, phone_text("NZ", 2), 2, phone_text("03-331 6005", 11), 11, out, 255, &n);
    phone_close(&w);
    puts((const char *)out);                           /* ok  +6433316005  +64 3 331 6005 .. */
}
