//! The functions of the header that seal and open a frame's octets (document 02, M-103).

use super::{Headend, HeadendOpening, Modem, ModemOpening, Record, Sealed};

extern "C" {
    pub fn curlewreel_modem_seal_frame(
        m: Modem,
        said: u16,
        frame: *const u8,
        frame_len: usize,
        sealed: *mut u8,
        sealed_len: usize,
    ) -> Sealed;
    pub fn curlewreel_modem_open_frame(
        m: Modem,
        direction: u8,
        address: u64,
        said: u16,
        number: u8,
        frame: *const u8,
        frame_len: usize,
        write_key: *const u8,
        write_key_len: usize,
        opened: *mut u8,
        opened_len: usize,
        out: *mut u8,
        out_len: usize,
    ) -> ModemOpening;

    pub fn curlewreel_headend_seal_frame(
        h: Headend,
        records: *const Record,
        records_len: usize,
        address: u64,
        said: u16,
        frame: *const u8,
        frame_len: usize,
        sealed: *mut u8,
        sealed_len: usize,
    ) -> Sealed;
    pub fn curlewreel_headend_open_frame(
        h: Headend,
        records: *const Record,
        records_len: usize,
        direction: u8,
        address: u64,
        said: u16,
        number: u8,
        frame: *const u8,
        frame_len: usize,
        write_key: *const u8,
        write_key_len: usize,
        opened: *mut u8,
        opened_len: usize,
        invalid: *mut u8,
        invalid_len: usize,
    ) -> HeadendOpening;
}
