/* Prints what brawnesk_message says of each number from 0 to 255. The twin of rust/examples/messages.rs. */
#include <brawnesk.h>
#include <stdio.h>

int main(void) {
    for (unsigned number = 0; number < 256; number++)
        printf("%u %s\n", number, brawnesk_message(number));
    return 0;
}
