//! Guest memory for the original: plain bytes from a base on.
use crate::system_bus::SystemBus;

pub struct Plain {
    pub bytes: Vec<u8>,
    pub base: u64,
}

impl Plain {
    fn at<const N: usize>(&mut self, address: u64) -> &mut [u8; N] {
        let at = (address - self.base) as usize;
        (&mut self.bytes[at..at + N]).try_into().expect("N bytes")
    }
}

impl SystemBus for Plain {
    fn read_byte(&mut self, address: u64) -> u8 {
        u8::from_le_bytes(*self.at(address))
    }
    fn read_halfword(&mut self, address: u64) -> u16 {
        u16::from_le_bytes(*self.at(address))
    }
    fn read_word(&mut self, address: u64) -> u32 {
        u32::from_le_bytes(*self.at(address))
    }
    fn read_doubleword(&mut self, address: u64) -> u64 {
        u64::from_le_bytes(*self.at(address))
    }
    fn write_byte(&mut self, address: u64, val: u8) {
        *self.at(address) = val.to_le_bytes();
    }
    fn write_halfword(&mut self, address: u64, val: u16) {
        *self.at(address) = val.to_le_bytes();
    }
    fn write_word(&mut self, address: u64, val: u32) {
        *self.at(address) = val.to_le_bytes();
    }
    fn write_doubleword(&mut self, address: u64, val: u64) {
        *self.at(address) = val.to_le_bytes();
    }
}
