//! The same calls for a C program, under names beside the library's own.
#![allow(unsafe_code)]

use std::slice::from_raw_parts_mut;

macro_rules! exported {
    ($name:ident, $call:path, $($number:ident: $width:ty),+) => {
        exported!($name, $call, $($number: $width),+; table table_len, reply reply_len);
    };
    ($name:ident, $call:path, $($number:ident: $width:ty),+; $($buffer:ident $length:ident),+) => {
        /// # Safety
        /// Buffers of the given lengths, lent for the call, no two of which overlap.
        #[no_mangle]
        pub unsafe extern "C" fn $name($($number: $width,)+ $($buffer: *mut u8, $length: usize),+) -> u32 {
            $call($($number,)+ $(from_raw_parts_mut($buffer, $length)),+)
        }
    };
}

exported!(twin_open, crate::open, sites: u64, keys: u64);
exported!(twin_put, crate::put, site: u64, key: u64, value: u32);
exported!(twin_get, crate::get, site: u64, key: u64);
exported!(twin_look, crate::look, site: u64, key: u64);
exported!(twin_adopt, crate::adopt, site: u64, key: u64, origin: u64, clock: u64);
exported!(twin_deliver, crate::deliver, site: u64, origin: u64);
exported!(twin_drain, crate::drain, site: u64, budget: u64);
exported!(twin_retire, crate::retire, site: u64);
exported!(twin_touch, crate::touch, site: u64, key: u64, now: u64, toucher: u64, tier: u64);
exported!(
    twin_cold,
    crate::cold,
    site: u64,
    now: u64,
    threshold: u64;
    table table_len,
    list list_len,
    reply reply_len
);
exported!(twin_short_put, crate::short::put, site: u64, key: u64, value: u32);
exported!(twin_short_get, crate::short::get, site: u64, key: u64);
exported!(twin_short_adopt, crate::short::adopt, site: u64, key: u64, origin: u64, clock: u64);
exported!(twin_short_deliver, crate::short::deliver, site: u64, origin: u64);
exported!(twin_short_drain, crate::short::drain, site: u64, budget: u64);
exported!(twin_short_touch, crate::short::touch, site: u64, key: u64, now: u64, toucher: u64, tier: u64);
exported!(twin_long_put, crate::long::put, site: u64, key: u64, value: u32);
exported!(twin_long_get, crate::long::get, site: u64, key: u64);
exported!(twin_long_adopt, crate::long::adopt, site: u64, key: u64, origin: u64, clock: u64);
exported!(twin_long_deliver, crate::long::deliver, site: u64, origin: u64);
exported!(twin_long_drain, crate::long::drain, site: u64, budget: u64);
exported!(twin_long_touch, crate::long::touch, site: u64, key: u64, now: u64, toucher: u64, tier: u64);
