//! Values that are numbers alone, seen as their bytes.

use eoswynnor::ffi;
use std::fmt::Debug;

/// Numbers alone and no holes: any bytes are a value, and equal values are equal bytes.
///
/// # Safety
/// That has to be so.
pub unsafe trait Words: Copy + PartialEq + Debug {
    const ZERO: Self = unsafe { std::mem::zeroed() };
}

unsafe impl Words for u32 {}
unsafe impl Words for usize {}
// Each is checked to have no hole where it is described.
unsafe impl Words for ffi::Header {}
unsafe impl Words for ffi::Setup {}
unsafe impl Words for ffi::Agreement {}
unsafe impl Words for ffi::State {}
unsafe impl Words for ffi::Landed {}
unsafe impl Words for ffi::Ledger {}

pub fn bytes<T: Words>(value: &T) -> &[u8] {
    unsafe { std::slice::from_raw_parts(std::ptr::from_ref(value).cast(), size_of::<T>()) }
}

pub fn bytes_mut<T: Words>(value: &mut T) -> &mut [u8] {
    unsafe { std::slice::from_raw_parts_mut(std::ptr::from_mut(value).cast(), size_of::<T>()) }
}
