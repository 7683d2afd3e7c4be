//! Stand-in for ironsight's codec.rs, which is not in docs/src.

use crate::error::Result;

pub fn read_int16(_buf: &[u8], _at: usize) -> Result<i16> {
    unreachable!("codec::read_int16: not in docs/src")
}

pub fn read_uint16(_buf: &[u8], _at: usize) -> Result<u16> {
    unreachable!("codec::read_uint16: not in docs/src")
}

pub fn read_int24(_buf: &[u8], _at: usize) -> Result<i32> {
    unreachable!("codec::read_int24: not in docs/src")
}

pub fn read_uint24(_buf: &[u8], _at: usize) -> Result<u32> {
    unreachable!("codec::read_uint24: not in docs/src")
}

pub fn read_uint32(_buf: &[u8], _at: usize) -> Result<u32> {
    unreachable!("codec::read_uint32: not in docs/src")
}

pub fn read_float40(_buf: &[u8], _at: usize) -> Result<f64> {
    unreachable!("codec::read_float40: not in docs/src")
}

pub fn read_int16_scaled(_buf: &[u8], _at: usize, _scale: f64) -> Result<f64> {
    unreachable!("codec::read_int16_scaled: not in docs/src")
}

pub fn read_int24_scaled(_buf: &[u8], _at: usize, _scale: f64) -> Result<f64> {
    unreachable!("codec::read_int24_scaled: not in docs/src")
}

pub fn write_int16(_buf: &mut Vec<u8>, _value: i16) {
    unreachable!("codec::write_int16: not in docs/src")
}

pub fn write_uint16(_buf: &mut Vec<u8>, _value: u16) {
    unreachable!("codec::write_uint16: not in docs/src")
}

pub fn write_int24(_buf: &mut Vec<u8>, _value: i32) {
    unreachable!("codec::write_int24: not in docs/src")
}

pub fn write_uint32(_buf: &mut Vec<u8>, _value: u32) {
    unreachable!("codec::write_uint32: not in docs/src")
}

pub fn write_float40(_buf: &mut Vec<u8>, _value: f64) {
    unreachable!("codec::write_float40: not in docs/src")
}
