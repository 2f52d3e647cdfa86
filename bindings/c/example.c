/* Reads a table of the world and prints the report line of each word: example TABLE REGION WORD.. */
#include "phone.h"
#include <stdio.h>
#include <stdlib.h>
#include <string.h>

static uint8_t *read_all(const char *path, size_t *len) {
    FILE *file = fopen(path, "rb");
    if (!file) return NULL;
    fseek(file, 0, SEEK_END);
    long size = ftell(file);
    rewind(file);
    uint8_t *text = malloc(size > 0 ? (size_t)size : 1);
    *len = text ? fread(text, 1, (size_t)size, file) : 0;
    fclose(file);
    return text;
}

int main(int argc, char **argv) {
    if (argc < 3) return 2;
    size_t len, wrote;
    uint8_t *text = read_all(argv[1], &len);
    if (!text) return 3;
    phone_handle world = PHONE_CLOSED;
    phone_status status = phone_open(phone_text(text, len), len, PHONE_LIBRARY, &world);
    free(text);
    if (status != PHONE_OK) return 4;
    for (int i = 3; i < argc; i++) {
        uint8_t out[1024] = {0};
        const uint8_t *hint = phone_text(argv[2], strlen(argv[2])), *line = (const uint8_t *)argv[i];
        status = phone_report(&world, hint, strlen(argv[2]), line, strlen(argv[i]), out, sizeof out, &wrote);
        if (status == PHONE_OK) printf("%.*s\n", (int)wrote, (const char *)out);
        else if (phone_status_words(status, out, sizeof out, &wrote) == PHONE_OK) fprintf(stderr, "%.*s\n", (int)wrote, (const char *)out);
    }
    phone_close(&world);
    return 0;
}
