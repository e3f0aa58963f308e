//! Every size and offset of engine.rs, in the lines that `layout.c table` prints of the header.

mod engine;

use engine::*;
use std::mem::{align_of, offset_of, size_of};

/// The octets of the field that `of` names.
fn size_of_field<S, T>(_: fn(&S) -> &T) -> usize {
    size_of::<T>()
}

macro_rules! lines {
    ($name:literal, $type:ty, $($field:ident)*) => {
        println!("{} {} {}", $name, size_of::<$type>(), align_of::<$type>());
        $(println!("{}.{} {} {}", $name, stringify!($field), offset_of!($type, $field), size_of_field(|s: &$type| &s.$field));)*
    };
}

fn main() {
    lines!("written", Written, number count);
    lines!("settings", Settings, tek_life tek_grace ak_life ak_grace authorize reauthorize operational rekey reject);
    lines!("timer", Timer, on at);
    lines!("key", Key, number deadline tek vector);
    lines!("authorization", Authorization, state identifier ak_number timer);
    lines!("tek", Tek, said suite state identifier timer held older newer);
    lines!("modem", Modem, settings address said clock counter authorization used teks taken refused);
    lines!("modem_call", ModemCall, number count modem);
    lines!("sealed", Sealed, number key width);
    lines!("modem_opening", ModemOpening, number width count modem);
    lines!("record", Record, said suite older newer);
    lines!("listing", Listing, count saids suites);
    lines!("auth_keys", AuthKeys, next older newer);
    lines!("entry", Entry, address allowed listing keys);
    lines!("headend", Headend, settings clock modems entries used taken refused);
    lines!("headend_call", HeadendCall, number count headend);
    lines!("headend_opening", HeadendOpening, number width count headend);
}
