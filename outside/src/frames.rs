//! Frames sealed here (document 02, M-103): the calls of both ends that seal and open a frame's octets.

use crate::cipher::{opened, sealed, CLEAR};
use crate::digest::KEY;
use crate::frame::{OpenedFrame, SealedFrame, SHORT_FRAME};
use crate::headend::HeadEnd;
use crate::modem::Modem;
use crate::settings::{address_fits, said_fits, AES};

impl HeadEnd {
    /// Seals a frame with the older: questions 1, 15, 10. The key's number and the sealed frame.
    pub fn seal_frame(&self, address: u64, said: u64, frame: &[u8]) -> SealedFrame {
        if !address_fits(address) || !said_fits(said) {
            return Err(1);
        }
        if frame.len() < CLEAR {
            return Err(SHORT_FRAME);
        }
        let key = &self.association(address, said).filter(|r| r.suite == AES).ok_or(10)?.older;
        Ok((key.number, sealed(&key.tek, &key.vector, frame)))
    }

    /// Opens a frame: its octets, or the number and, on 13, a TEK Invalid.
    pub fn open_frame(&mut self, direction: u64, address: u64, said: u64, number: u64, write_key: &[u8], frame: &[u8]) -> OpenedFrame {
        if direction != 0 || !address_fits(address) || !said_fits(said) || number > 15 {
            return Err((1, vec![]));
        }
        asked_of_opening(write_key, frame)?;
        let (key, _) = self.opener(address, said, number, write_key, |r| r.suite == AES)?;
        Ok(opened(&key.tek, &key.vector, frame))
    }
}

impl Modem {
    /// Seals a frame with the newer: questions 1, 15, 10, 14. The key's number and the sealed frame.
    pub fn seal_frame(&self, said: u64, frame: &[u8]) -> SealedFrame {
        if !said_fits(said) {
            return Err(1);
        }
        if frame.len() < CLEAR {
            return Err(SHORT_FRAME);
        }
        let at = self.slot(said).filter(|i| self.slots[*i].suite == AES).ok_or(10)?;
        let (_, key) = self.slots[at].keys.filter(|k| k.1.deadline > self.clock).ok_or(14)?;
        Ok((key.number, sealed(&key.tek, &key.vector, frame)))
    }

    /// Opens a frame: its octets, or the number and, on 13, what goes out.
    pub fn open_frame(&mut self, direction: u64, address: u64, said: u64, number: u64, write_key: &[u8], frame: &[u8]) -> OpenedFrame {
        if direction != 1 || !address_fits(address) || !said_fits(said) || number > 15 {
            return Err((1, vec![]));
        }
        asked_of_opening(write_key, frame)?;
        let (key, _) = self.opener(address, said, number, write_key, |s| s.suite == AES)?;
        Ok(opened(&key.tek, &key.vector, frame))
    }
}

/// Questions 2 and 15 of an opening.
fn asked_of_opening(write_key: &[u8], frame: &[u8]) -> Result<(), (u8, Vec<u8>)> {
    if write_key.len() != KEY {
        return Err((2, vec![]));
    }
    if frame.len() < CLEAR {
        return Err((SHORT_FRAME, vec![]));
    }
    Ok(())
}
