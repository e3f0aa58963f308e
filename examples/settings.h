/* Settings that the examples share, with what each means in the field. The lives are the shortest that document 01 takes, so that a rollover is near;
 * an operator sets some 12 hours for a TEK and 7 days for an authorization key. */
#ifndef EXAMPLES_SETTINGS_H
#define EXAMPLES_SETTINGS_H

#include "curlewreel.h"

static const curlewreel_settings settings = {
    .tek_life = 1800,   /* a traffic key lives half an hour; the head-end makes the next one halfway */
    .tek_grace = 300,   /* the modem asks for the next pair 5 minutes before its newer key ends */
    .ak_life = 86400,   /* an authorization key lives a day */
    .ak_grace = 300,    /* the modem asks for authorization anew 5 minutes before its end */
    .authorize = 10,    /* an Authorization Request without an answer is sent again after so many seconds */
    .reauthorize = 10,  /* the same, of a modem that was authorized before */
    .operational = 10,  /* a Key Request without an answer, while no keys are held, is sent again after so many */
    .rekey = 10,        /* the same, while keys are still held */
    .reject = 60,       /* a modem that was rejected (with another error than 6, which silences it for good) stays away so long; then it has to
                         * be established again */
};

#endif
