//! The bytes of all buffers, and the packets that change them.
use crate::header::{Device, BUFFER_LIMIT};
use crate::text::{with_room, Ending};
use std::ops::Range;

/// A packet that was checked; its ranges lie in their buffers.
#[derive(Clone, Copy)]
pub enum Packet {
    Fill { buffer: u8, offset: u16, length: u16, byte: u8 },
    Copy(Transfer),
    Add(Transfer),
    Stall { resets: u16 },
}

#[derive(Clone, Copy)]
pub struct Transfer {
    pub source: u8,
    pub target: u8,
    pub from: u16,
    pub to: u16,
    pub length: u16,
}

/// The bytes of all buffers, one behind the other.
pub struct Memory {
    bytes: Vec<u8>,
    starts: Vec<usize>,
    read: [u8; BUFFER_LIMIT],
}

impl Memory {
    pub fn new(device: &Device) -> Result<Memory, Ending> {
        let mut bytes = with_room(device.buffers.iter().map(|buffer| buffer.size).sum())?;
        let mut starts = with_room(device.buffers.len() + 1)?;
        let mut given = device.given.as_slice();
        for buffer in &device.buffers {
            starts.push(bytes.len());
            if buffer.is_given {
                let (own, rest) = given.split_at(buffer.size);
                bytes.extend_from_slice(own);
                given = rest;
            } else {
                bytes.resize(bytes.len() + buffer.size, 0);
            }
        }
        starts.push(bytes.len());
        Ok(Memory { bytes, starts, read: [0; BUFFER_LIMIT] })
    }

    pub fn all(&self) -> &[u8] {
        &self.bytes
    }

    pub fn buffers(&self) -> usize {
        self.starts.len() - 1
    }

    /// The buffer that has this byte of all, and its place in it.
    pub fn place(&self, at: usize) -> (usize, usize) {
        let buffer = self.starts.partition_point(|start| *start <= at) - 1;
        (buffer, at - self.starts[buffer])
    }

    pub fn buffer(&self, buffer: usize) -> &[u8] {
        &self.bytes[self.starts[buffer]..self.starts[buffer + 1]]
    }

    fn range(&self, buffer: u8, offset: u16, length: u16) -> Range<usize> {
        let start = self.starts[usize::from(buffer)] + usize::from(offset);
        start..start + usize::from(length)
    }

    pub fn run(&mut self, packet: Packet) {
        match packet {
            Packet::Fill { buffer, offset, length, byte } => {
                let range = self.range(buffer, offset, length);
                self.bytes[range].fill(byte);
            }
            Packet::Copy(Transfer { source, target, from, to, length }) => {
                let to = self.range(target, to, length).start;
                let from = self.range(source, from, length);
                self.bytes.copy_within(from, to);
            }
            Packet::Add(Transfer { source, target, from, to, length }) => {
                let read = &mut self.read[..usize::from(length)];
                let start = self.starts[usize::from(source)] + usize::from(from);
                read.copy_from_slice(&self.bytes[start..start + read.len()]);
                let start = self.starts[usize::from(target)] + usize::from(to);
                for (byte, summand) in self.bytes[start..].iter_mut().zip(read) {
                    *byte = byte.wrapping_add(*summand);
                }
            }
            Packet::Stall { .. } => {}
        }
    }
}
