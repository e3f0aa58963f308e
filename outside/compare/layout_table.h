/* Every size and offset of the header's structs, a line for each: struct, field, offset, size. */
#define F(type, field) printf("%s.%s %zu %zu\n", #type, #field, offsetof(curlewreel_##type, field), sizeof(((curlewreel_##type *)0)->field))
#define S(type) printf("%s %zu %zu\n", #type, sizeof(curlewreel_##type), _Alignof(curlewreel_##type))

static void table_of_modem(void) {
    S(settings); F(settings, tek_life); F(settings, tek_grace); F(settings, ak_life); F(settings, ak_grace); F(settings, authorize);
    F(settings, reauthorize); F(settings, operational); F(settings, rekey); F(settings, reject);
    S(timer); F(timer, on); F(timer, at);
    S(key); F(key, number); F(key, deadline); F(key, tek); F(key, vector);
    S(authorization); F(authorization, state); F(authorization, identifier); F(authorization, ak_number); F(authorization, timer);
    S(tek); F(tek, said); F(tek, suite); F(tek, state); F(tek, identifier); F(tek, timer); F(tek, held); F(tek, older); F(tek, newer);
    S(modem); F(modem, settings); F(modem, address); F(modem, said); F(modem, clock); F(modem, counter); F(modem, authorization);
    F(modem, used); F(modem, teks); F(modem, taken); F(modem, refused);
}

static void table_of_headend(void) {
    S(record); F(record, said); F(record, suite); F(record, older); F(record, newer);
    S(listing); F(listing, count); F(listing, saids); F(listing, suites);
    S(auth_keys); F(auth_keys, next); F(auth_keys, older); F(auth_keys, newer);
    S(entry); F(entry, address); F(entry, allowed); F(entry, listing); F(entry, keys);
    S(headend); F(headend, settings); F(headend, clock); F(headend, modems); F(headend, entries); F(headend, used); F(headend, taken);
    F(headend, refused);
}

static void table(void) {
    S(written); F(written, number); F(written, count);
    table_of_modem();
    S(modem_call); F(modem_call, number); F(modem_call, count); F(modem_call, modem);
    S(sealed); F(sealed, number); F(sealed, key); F(sealed, width);
    S(modem_opening); F(modem_opening, number); F(modem_opening, width); F(modem_opening, count); F(modem_opening, modem);
    table_of_headend();
    S(headend_call); F(headend_call, number); F(headend_call, count); F(headend_call, headend);
    S(headend_opening); F(headend_opening, number); F(headend_opening, width); F(headend_opening, count); F(headend_opening, headend);
}
