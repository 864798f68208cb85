/* Prints the listing of the day file on standard input. */
#include <stdio.h>

#include "cormcushion.h"

int main(void) {
    static uint8_t file[65536], text[2048];
    size_t length = fread(file, 1, sizeof file, stdin);
    uint64_t answer = cormcushion_list_shares(file, length, text, sizeof text);
    if (CORMCUSHION_NUMBER(answer) == 0)
        fwrite(text, 1, CORMCUSHION_FIGURE(answer), stdout);
    else
        printf("REFUSED %d %d\n", (int)CORMCUSHION_NUMBER(answer), (int)CORMCUSHION_FIGURE(answer));
}
