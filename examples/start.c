/* The least program: a modem is made, is established, and says what it wants sent. */
#include <curlewreel.h>
#include <stdio.h>

int main(void) {
    curlewreel_settings settings = {.tek_life = 43200, .tek_grace = 3600, .ak_life = 604800, .ak_grace = 3600, .authorize = 10,
                                    .reauthorize = 10, .operational = 10, .rekey = 10, .reject = 60};
    uint8_t out[CURLEWREEL_OCTETS_SENT];
    curlewreel_modem_call call = curlewreel_modem_new(settings, 77, 8800);
    if (call.number == CURLEWREEL_DONE) call = curlewreel_modem_established(call.modem, out, sizeof out);
    if (call.number != CURLEWREEL_DONE) {
        printf("refused: %s\n", curlewreel_refusal_name(call.number));
        return 1;
    }
    for (size_t at = 0; at < call.count; at += curlewreel_message_octets(out + at))
        printf("to be sent: message %d of %zu octets\n", out[at], curlewreel_message_octets(out + at));
    printf("the modem is in %s\n", curlewreel_authorization_state_name(call.modem.authorization.state));
    return 0;
}
