//! The library's calls that seal and open a frame's octets, with their lent slices.

use super::{lent, Answer, Lent, Run};
use crate::calls::Frame;
use crate::engine::*;

/// What a sealing answers; the frame that it was lent has to be as it was.
fn sealed(s: &Sealed, frame: &Lent, out: &Lent) -> Answer {
    frame.written(0)?;
    let octets = out.written(s.width)?;
    match s.number {
        0 if s.width == frame.now.len() => Ok((0, format!("0,{},{octets}", s.key))),
        n if n != 0 && s.width == 0 && s.key == 0 => Ok((n, n.to_string())),
        n => Err(format!("number {n}, key {}, width {}", s.key, s.width)),
    }
}

/// The same of an opening: the width, and what was put out.
fn opened(number: u8, width: usize, sent: String, frame: &Lent, out: &Lent) -> Answer {
    frame.written(0)?;
    let octets = out.written(width)?;
    match number {
        0 if width == frame.now.len() && sent.is_empty() => Ok((0, format!("0,{octets}"))),
        13 if width == 0 => Ok((13, format!("13,{sent}"))),
        n if n != 0 && width == 0 && sent.is_empty() => Ok((n, n.to_string())),
        n => Err(format!("number {n}, width {width} and messages {sent}")),
    }
}

impl Run {
    pub(super) fn seal_down_frame(&mut self, address: u64, said: u16, octets: &[u8]) -> Answer {
        let (h, records, n) = (self.state.headend, self.records(), self.lengths.records);
        let mut frame = Lent::of(octets);
        let ((octets, length), (out, room)) = (frame.lend(), self.frame.lend());
        let s = unsafe { curlewreel_headend_seal_frame(h, records, n, address, said, octets, length, out, room) };
        sealed(&s, &frame, &self.frame)
    }

    pub(super) fn seal_up_frame(&mut self, said: u16, octets: &[u8]) -> Answer {
        let mut frame = Lent::of(octets);
        let ((octets, length), (out, room)) = (frame.lend(), self.frame.lend());
        let s = unsafe { curlewreel_modem_seal_frame(self.state.modem, said, octets, length, out, room) };
        sealed(&s, &frame, &self.frame)
    }

    pub(super) fn open_up_frame(&mut self, f: &Frame, octets: &[u8]) -> Answer {
        let (h, records, n) = (self.state.headend, self.records(), self.lengths.records);
        let mut frame = Lent::of(octets);
        let ((octets, length), (out, room), (invalid, invalid_room)) = (frame.lend(), self.frame.lend(), self.out.lend());
        let (direction, address, said, number, (key, key_len)) = (f.direction, f.address, f.said, f.number, lent(&f.write_key));
        let o = unsafe {
            curlewreel_headend_open_frame(
                h,
                records,
                n,
                direction,
                address,
                said,
                number,
                octets,
                length,
                key,
                key_len,
                out,
                room,
                invalid,
                invalid_room,
            )
        };
        self.state.headend = o.headend;
        opened(o.number, o.width, self.out.written(o.count)?, &frame, &self.frame)
    }

    pub(super) fn open_down_frame(&mut self, f: &Frame, octets: &[u8]) -> Answer {
        let mut frame = Lent::of(octets);
        let ((octets, length), (out, room), (sent, sent_room)) = (frame.lend(), self.frame.lend(), self.out.lend());
        let (m, direction, address, said, number) = (self.state.modem, f.direction, f.address, f.said, f.number);
        let (key, key_len) = lent(&f.write_key);
        let o = unsafe {
            curlewreel_modem_open_frame(m, direction, address, said, number, octets, length, key, key_len, out, room, sent, sent_room)
        };
        self.state.modem = o.modem;
        opened(o.number, o.width, self.out.written(o.count)?, &frame, &self.frame)
    }
}
