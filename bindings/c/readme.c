#include "dilluvas_file.h"
#include <stdio.h>

#define BYTES(text) (const uint8_t *)(text), sizeof(text) - 1

int main(void) {
    dilluvas_file file = DILLUVAS_FILE_CLOSED;
    uint8_t colour[64];
    size_t len;
    bool had;
    dilluvas_status status = dilluvas_file_open(&file, "fruit.db", NULL);
    if (!status)
        DILLUVAS_FILE_CALL(&file, status, dilluvas_map_set(&file.cache, BYTES("fruit"), BYTES("lime"), BYTES("green"), &had));
    if (!status) status = dilluvas_file_flush(&file, NULL);
    if (!status)
        DILLUVAS_FILE_CALL(&file, status,
                           dilluvas_map_get(&file.cache, BYTES("fruit"), BYTES("lime"), colour, sizeof colour, &len));
    if (!status) printf("lime = %.*s\n", (int)len, (const char *)colour);
    dilluvas_file_close(&file);
    return status != DILLUVAS_OK;
}
