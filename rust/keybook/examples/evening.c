#include "keybook.h"
#include <stdio.h>

/* Sells two traffic keys from TS 101 to 200, with their key, and watches with them. */
static const uint8_t load[] = {0x01, 0x0A, 0x0B, 0x0C, 0, 1, 0, 2, 0, 0, 0, 100, 0, 0, 0, 200, 0x0C, 0x02, 0, 0, 0, 2, 0, 0, 0, 0,
                               0, 1, 2, 3, 4, 5, 6, 7, 8, 9, 10, 11, 12, 13, 14, 15};
static uint8_t message[] = {0x02, 0x0A, 0x0B, 0x0C, 0, 1, 0, 2, 0, 0, 0, 101, 0x01};

static void show(const char *what, const uint8_t *bytes, size_t length) {
    printf("%s ", what);
    for (size_t i = 0; i < length; i++)
        printf("%02X", (unsigned)bytes[i]);
    printf("\n");
}

int main(void) {
    keybook book;
    uint8_t key[KEYBOOK_KEY_BYTES] = {0}, reply[KEYBOOK_REPLY_BYTES];
    if (keybook_size() != sizeof book)
        return 1;
    keybook_empty(&book);
    keybook_call(&book, load, sizeof load, key, sizeof key, reply);
    show("load   ", reply, sizeof reply);
    for (int ts = 101; ts <= 103; ts++) {
        message[11] = (uint8_t)ts;
        keybook_call(&book, message, sizeof message, key, sizeof key, reply);
        show(reply[0] == 0x01 ? "granted" : "refused", reply, sizeof reply);
    }
    show("key    ", key, sizeof key);
    return 0;
}
