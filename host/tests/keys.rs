//! Keys are wiped when they are dropped, compared whole, and never printed.
use std::mem::ManuallyDrop;
use store_reader::{Eui64, Key, Nwk, PanId};

const BYTES: [u8; 16] = [0xC0, 1, 2, 3, 4, 5, 6, 7, 8, 9, 10, 11, 12, 13, 14, 15];

/// The bytes where a key stood are 0 once it is dropped.
#[test]
fn a_dropped_key_is_wiped() {
    let mut key = ManuallyDrop::new(Key::new(BYTES));
    let place = key.bytes().as_ptr();
    assert!(std::mem::needs_drop::<Key>());
    // SAFETY: the key is dropped once; its memory stays, being that of this function's variable.
    let left = unsafe {
        assert_eq!(std::ptr::read_volatile(place), BYTES[0]);
        ManuallyDrop::drop(&mut key);
        std::array::from_fn::<u8, 16, _>(|i| std::ptr::read_volatile(place.add(i)))
    };
    assert_eq!(left, [0; 16]);
}

#[test]
fn keys_are_equal_if_every_byte_is() {
    let key = Key::new(BYTES);
    assert_eq!(key, key.clone());
    for bit in 0..128 {
        let mut other = BYTES;
        other[bit / 8] ^= 1 << (bit % 8);
        assert_ne!(key, Key::new(other), "bit {bit}");
    }
    assert_eq!(format!("{key:?}"), "Key(..)");
}

#[test]
fn addresses_are_ordered_and_printed_as_on_the_label() {
    let mut addresses = [0x0200_0000_0000_0000, 0x0012_4B00_1CA1_B2C3, 0x0012_4B00_1CA1_B3C2].map(Eui64::from);
    addresses.sort();
    let labels = addresses.map(|address| address.to_string());
    assert_eq!(labels, ["00:12:4B:00:1C:A1:B2:C3", "00:12:4B:00:1C:A1:B3:C2", "02:00:00:00:00:00:00:00"]);
    assert_eq!(u64::from(addresses[0]), 0x0012_4B00_1CA1_B2C3);
    assert_eq!(
        format!("{:?} {:?} {:?}", addresses[2], Nwk(0x1A), PanId(0xFFFE)),
        "Eui64(02:00:00:00:00:00:00:00) Nwk(0x001A) PanId(0xFFFE)"
    );
}
