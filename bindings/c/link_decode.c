/* A program whose only call no interface has changed: that it does not link with an archive of another interface is the
 * header's doing. tools/c-tests links it. Status 0 where the text was converted. */
#include "vindaskot.h"

int main(void)
{
    static const uint8_t euro[1] = {0x80};
    uint8_t out[3];
    uint64_t answer[2];
    return vindaskot_decode(euro, sizeof euro, out, sizeof out, answer) == VINDASKOT_DONE && out[0] == 0xE2 ? 0 : 1;
}
