/* That phone.h compiles, as C and as C++, and that handles begin closed: `make header`. */
#include "phone.h"

int main(void) {
    phone_handle handle = PHONE_CLOSED;
    phone_prefixes prefixes = PHONE_CLOSED;
    handle = phone_closed();
    prefixes = phone_prefixes_closed();
    return handle.at || prefixes.at || !phone_text(0, 0);
}
