/* The children's row net of document 01, which the programs of this folder take where they are given no file. */
#include "menu.h"

static const uint8_t row_net[] = {
    1, 0, 0, 0, MENU_NET_BYTES(3, 2), 3, 2, /* version, length, three places, two transitions */
    0, 1, 0, 0, 0, 0,                       /* a token in place 0 */
    1, 3, 1, 0, 0, 0, 1, 0,                 /* 0 loads the own file: 1 to 3 ticks, from place 0 to place 1 */
    0, 0, 0, 1, 0, 0, 0, 1,                 /* 1 fills the row: at once, from place 1 to place 2 */
};
