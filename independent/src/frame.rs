//! Frames (docs/FRAMES.md): a payload while it is made, and when it is sealed.

use crate::blocks::Sending;
use crate::lines::{System, RUN_IN};
use crate::{refused, Refusal};

const FRAME_MOST: usize = 60;

/// A frame that takes groups of blocks.
pub struct OpenFrame {
    /// The bytes below the mark.
    filled: Vec<u8>,
    length: usize,
}

/// A frame that can be drawn.
pub struct SealedFrame {
    payload: Vec<u8>,
}

impl OpenFrame {
    pub fn open(length: usize) -> Result<OpenFrame, Refusal> {
        if !(2..=FRAME_MOST).contains(&length) {
            return refused(12, 0);
        }
        Ok(OpenFrame { filled: RUN_IN.to_vec(), length })
    }

    /// Puts a group of blocks, whole or not at all.
    pub fn put(&mut self, group: &[(Sending, usize)]) -> Result<(), Refusal> {
        let mark = self.filled.len();
        for (place, (sending, index)) in group.iter().enumerate() {
            let fits = sending.block(*index).and_then(|block| {
                if self.filled.len() + block.len() > self.length {
                    return refused(6, place);
                }
                Ok(block)
            });
            match fits {
                Ok(block) => self.filled.extend(block),
                Err(refusal) => {
                    self.filled.truncate(mark);
                    return Err(refusal);
                }
            }
        }
        Ok(())
    }

    pub fn seal(mut self) -> SealedFrame {
        self.filled.resize(self.length, 0);
        SealedFrame { payload: self.filled }
    }
}

impl SealedFrame {
    pub fn payload(&self) -> &[u8] {
        &self.payload
    }

    pub fn draw(&self, system: &System, line: &mut [u16]) -> Result<(), Refusal> {
        system.draw(&self.payload, line)
    }
}
