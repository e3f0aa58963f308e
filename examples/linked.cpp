// C++ links the library as C does: a modem begins, and a call with too few octets for its messages is refused.
#include "curlewreel.h"
#include <cstdio>

int main() {
    curlewreel_settings settings{};
    settings.tek_life = 1800;
    settings.tek_grace = 300;
    settings.ak_life = 86400;
    settings.ak_grace = 300;
    settings.authorize = settings.reauthorize = settings.operational = settings.rekey = 10;
    settings.reject = 60;
    uint8_t out[CURLEWREEL_OCTETS_SENT];

    const curlewreel_modem_call fresh = curlewreel_modem_new(settings, 77, 5);
    const curlewreel_modem_call begun = curlewreel_modem_established(fresh.modem, out, sizeof out);
    std::printf("established: %s, %zu octets, %s\n", curlewreel_refusal_name(begun.number), begun.count,
                curlewreel_authorization_state_name(begun.modem.authorization.state));
    const curlewreel_modem_call cut = curlewreel_modem_established(fresh.modem, out, sizeof out - 1);
    std::printf("into %zu octets: %s\n", sizeof out - 1, curlewreel_refusal_name(cut.number));
    curlewreel_wipe_stack();
    return 0;
}
