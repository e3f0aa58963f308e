//! The static library as C sees it: the structs and functions of include/curlewreel.h, in its order.
// each program uses a part of them
#![allow(dead_code)]

#[path = "engine_frames.rs"]
mod frames;
#[allow(unused_imports)]
pub use frames::*;

#[repr(C)]
pub struct Written {
    pub number: u8,
    pub count: usize,
}

#[repr(C)]
#[derive(Clone, Copy, PartialEq, Debug, Default)]
pub struct Settings {
    pub tek_life: u64,
    pub tek_grace: u64,
    pub ak_life: u64,
    pub ak_grace: u64,
    pub authorize: u64,
    pub reauthorize: u64,
    pub operational: u64,
    pub rekey: u64,
    pub reject: u64,
}

#[repr(C)]
#[derive(Clone, Copy, PartialEq, Debug, Default)]
pub struct Timer {
    pub on: u8,
    pub at: u64,
}

#[repr(C)]
#[derive(Clone, Copy, PartialEq, Debug, Default)]
pub struct Key {
    pub number: u8,
    pub deadline: u64,
    pub tek: [u8; 16],
    pub vector: [u8; 16],
}

#[repr(C)]
#[derive(Clone, Copy, PartialEq, Debug, Default)]
pub struct Authorization {
    pub state: u8,
    pub identifier: u8,
    pub ak_number: u8,
    pub timer: Timer,
}

#[repr(C)]
#[derive(Clone, Copy, PartialEq, Debug, Default)]
pub struct Tek {
    pub said: u16,
    pub suite: u16,
    pub state: u8,
    pub identifier: u8,
    pub timer: Timer,
    pub held: u8,
    pub older: Key,
    pub newer: Key,
}

#[repr(C)]
#[derive(Clone, Copy, PartialEq, Debug, Default)]
pub struct Modem {
    pub settings: Settings,
    pub address: u64,
    pub said: u16,
    pub clock: u64,
    pub counter: u8,
    pub authorization: Authorization,
    pub used: usize,
    pub teks: [Tek; 4],
    pub taken: u64,
    pub refused: u64,
}

#[repr(C)]
pub struct ModemCall {
    pub number: u8,
    pub count: usize,
    pub modem: Modem,
}

#[repr(C)]
pub struct Sealed {
    pub number: u8,
    pub key: u8,
    pub width: usize,
}

#[repr(C)]
pub struct ModemOpening {
    pub number: u8,
    pub width: usize,
    pub count: usize,
    pub modem: Modem,
}

#[repr(C)]
#[derive(Clone, Copy, PartialEq, Debug, Default)]
pub struct Record {
    pub said: u16,
    pub suite: u16,
    pub older: Key,
    pub newer: Key,
}

#[repr(C)]
#[derive(Clone, Copy, PartialEq, Debug, Default)]
pub struct Listing {
    pub count: usize,
    pub saids: [u16; 4],
    pub suites: [u16; 4],
}

#[repr(C)]
#[derive(Clone, Copy, PartialEq, Debug, Default)]
pub struct AuthKeys {
    pub next: u8,
    pub older: u64,
    pub newer: u64,
}

#[repr(C)]
#[derive(Clone, Copy, PartialEq, Debug, Default)]
pub struct Entry {
    pub address: u64,
    pub allowed: u8,
    pub listing: Listing,
    pub keys: AuthKeys,
}

#[repr(C)]
#[derive(Clone, Copy, PartialEq, Debug, Default)]
pub struct Headend {
    pub settings: Settings,
    pub clock: u64,
    pub modems: usize,
    pub entries: [Entry; 16],
    pub used: usize,
    pub taken: u64,
    pub refused: u64,
}

#[repr(C)]
pub struct HeadendCall {
    pub number: u8,
    pub count: usize,
    pub headend: Headend,
}

#[repr(C)]
pub struct HeadendOpening {
    pub number: u8,
    pub width: usize,
    pub count: usize,
    pub headend: Headend,
}

#[link(name = "curlewreel", kind = "static")]
extern "C" {
    pub fn curlewreel_frame(
        clock: u64,
        older_number: u8,
        older_deadline: u64,
        newer_number: u8,
        newer_deadline: u64,
        width: usize,
        keys: *const u8,
        keys_len: usize,
        number: u8,
        tek: *mut u8,
        tek_len: usize,
        vector: *mut u8,
        vector_len: usize,
    ) -> u8;
    pub fn curlewreel_read(
        end: u8,
        message: *const u8,
        message_len: usize,
        read_key: *const u8,
        read_key_len: usize,
        fields: *mut u8,
        fields_len: usize,
    ) -> u8;
    pub fn curlewreel_write(
        fields: *const u8,
        fields_len: usize,
        auth_key: *const u8,
        auth_key_len: usize,
        write_key: *const u8,
        write_key_len: usize,
        out: *mut u8,
        out_len: usize,
    ) -> Written;

    pub fn curlewreel_modem_new(settings: Settings, address: u64, said: u16) -> ModemCall;
    pub fn curlewreel_modem_established(m: Modem, out: *mut u8, out_len: usize) -> ModemCall;
    pub fn curlewreel_modem_reauth(m: Modem, out: *mut u8, out_len: usize) -> ModemCall;
    pub fn curlewreel_modem_clock(m: Modem, second: u64, key: *const u8, key_len: usize, out: *mut u8, out_len: usize) -> ModemCall;
    pub fn curlewreel_modem_receive(
        m: Modem,
        message: *const u8,
        message_len: usize,
        read_key: *const u8,
        read_key_len: usize,
        write_key: *const u8,
        write_key_len: usize,
        out: *mut u8,
        out_len: usize,
    ) -> ModemCall;
    pub fn curlewreel_modem_seal(m: Modem, said: u16, tek: *mut u8, tek_len: usize, vector: *mut u8, vector_len: usize) -> Sealed;
    pub fn curlewreel_modem_open(
        m: Modem,
        direction: u8,
        address: u64,
        said: u16,
        number: u8,
        write_key: *const u8,
        write_key_len: usize,
        tek: *mut u8,
        tek_len: usize,
        vector: *mut u8,
        vector_len: usize,
        out: *mut u8,
        out_len: usize,
    ) -> ModemOpening;

    pub fn curlewreel_headend_new(settings: Settings) -> HeadendCall;
    pub fn curlewreel_headend_list(
        h: Headend,
        records: *mut Record,
        records_len: usize,
        address: u64,
        allowed: u8,
        listing: Listing,
        material: *const u8,
        material_len: usize,
    ) -> HeadendCall;
    pub fn curlewreel_headend_clock(
        h: Headend,
        records: *mut Record,
        records_len: usize,
        second: u64,
        material: *const u8,
        material_len: usize,
    ) -> HeadendCall;
    pub fn curlewreel_headend_receive(
        h: Headend,
        records: *const Record,
        records_len: usize,
        address: u64,
        message: *const u8,
        message_len: usize,
        read_key: *const u8,
        read_key_len: usize,
        write_key: *const u8,
        write_key_len: usize,
        auth_key: *const u8,
        auth_key_len: usize,
        out: *mut u8,
        out_len: usize,
    ) -> HeadendCall;
    pub fn curlewreel_headend_seal(
        h: Headend,
        records: *const Record,
        records_len: usize,
        address: u64,
        said: u16,
        tek: *mut u8,
        tek_len: usize,
        vector: *mut u8,
        vector_len: usize,
    ) -> Sealed;
    pub fn curlewreel_headend_open(
        h: Headend,
        records: *const Record,
        records_len: usize,
        direction: u8,
        address: u64,
        said: u16,
        number: u8,
        write_key: *const u8,
        write_key_len: usize,
        tek: *mut u8,
        tek_len: usize,
        vector: *mut u8,
        vector_len: usize,
        invalid: *mut u8,
        invalid_len: usize,
    ) -> HeadendOpening;
}
