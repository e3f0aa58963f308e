/* Frames' octets, sealed and opened here: `width` is the frame's length. The states are left as they are. */
static void frames_sealed_here(void) {
    static uint8_t frame[61], sealed[64], opened[64], behind[64];
    for (size_t i = 0; i < sizeof frame; i++) frame[i] = (uint8_t)(7 * i + 1);
    memset(behind, 0xee, sizeof behind);
    memset(sealed, 0xee, sizeof sealed);
    memset(opened, 0xee, sizeof opened);
    curlewreel_sealed s = curlewreel_headend_seal_frame(h, records, 64, 271, said_of(60), frame, sizeof frame, sealed, sizeof sealed);
    SAME(s.number, 0);
    SAME(s.key, 1);
    SAME(s.width, sizeof frame);
    OCTETS(sealed, frame, CURLEWREEL_OCTETS_FRAME);
    OCTETS(sealed + sizeof frame, behind, 3);
    curlewreel_modem_opening o = curlewreel_modem_open_frame(m, CURLEWREEL_DOWN, 271, said_of(60), 1, sealed, sizeof frame, key_up, 20, opened,
                                                             sizeof opened, out, 216);
    SAME(o.number, 0);
    SAME(o.width, sizeof frame);
    SAME(o.count, 0);
    SAME(o.modem.taken, m.taken + 1);
    OCTETS(opened, frame, sizeof frame);
    OCTETS(opened + sizeof frame, behind, 3);
    s = curlewreel_modem_seal_frame(m, said_of(62), frame, 28, sealed, 28);
    SAME(s.number, 0);
    SAME(s.key, 1);
    SAME(s.width, 28);
    memset(opened, 0xee, sizeof opened);
    curlewreel_headend_opening p = curlewreel_headend_open_frame(h, records, 64, CURLEWREEL_UP, 271, said_of(62), 1, sealed, 28, key_down, 20, opened,
                                                                 sizeof opened, out, 40);
    SAME(p.number, 0);
    SAME(p.width, 28);
    SAME(p.count, 0);
    SAME(p.headend.taken, h.taken + 1);
    OCTETS(opened, frame, 28);
    OCTETS(opened + 28, behind, 36);
    p = curlewreel_headend_open_frame(h, records, 64, CURLEWREEL_UP, 271, said_of(62), 9, sealed, 28, key_down, 20, opened, 28, out, 40);
    SAME(p.number, CURLEWREEL_NO_KEY_FOR_FRAME);
    SAME(p.width, 0);
    SAME(p.count, 40);
    SAME(p.headend.refused, h.refused + 1);
    o = curlewreel_modem_open_frame(m, CURLEWREEL_DOWN, 271, said_of(60), 9, sealed, 28, key_up, 20, opened, 28, out, 216);
    SAME(o.number, CURLEWREEL_NO_KEY_FOR_FRAME);
    SAME(o.width, 0);
    SAME(o.count, 36);
    SAME(o.modem.refused, m.refused + 1);
    /* questions 2, 15 and 10 by their arguments: a slice, the frame, a SAID of suite 256 */
    SAME(curlewreel_modem_seal_frame(m, said_of(60), frame, 11, sealed, 10).number, CURLEWREEL_WRONG_LENGTH);
    SAME(curlewreel_modem_seal_frame(m, said_of(60), frame, 11, sealed, 11).number, CURLEWREEL_SHORT_FRAME);
    SAME(curlewreel_modem_seal_frame(m, said_of(61), frame, 12, sealed, 12).number, CURLEWREEL_UNKNOWN_SAID);
    SAME(curlewreel_headend_seal_frame(h, records, 64, 271, said_of(61), frame, 12, sealed, 12).number, CURLEWREEL_UNKNOWN_SAID);
    SAME(curlewreel_headend_open_frame(h, records, 64, 0, 271, said_of(62), 1, sealed, 12, key_down, 20, opened, 11, out, 40).number, 2);
    SAME(curlewreel_headend_open_frame(h, records, 64, 0, 271, said_of(62), 1, sealed, 12, key_down, 20, opened, 12, out, 39).number, 2);
    SAME(curlewreel_headend_open_frame(h, records, 64, 0, 271, said_of(62), 1, sealed, 11, key_down, 20, opened, 12, out, 40).number, 15);
    SAME(curlewreel_modem_open_frame(m, 1, 271, said_of(60), 1, sealed, 12, key_up, 19, opened, 12, out, 216).number, 2);
    SAME(curlewreel_modem_open_frame(m, 1, 271, said_of(60), 1, sealed, 12, key_up, 20, opened, 12, out, 215).number, 2);
}
