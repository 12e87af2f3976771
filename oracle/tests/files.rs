//! Files there and back, and files that are none.

use oracle::codec::*;
use oracle::convert;
use oracle::maps::{Size, random_map};
use oracle::rng::Rng;
use oracle::sample::{crossing, random_set};

#[test]
fn seven_bit_numbers() {
    // Published ULEB128 values, then the ends of the range.
    for (n, bytes) in [
        (0, "00"),
        (2, "02"),
        (127, "7f"),
        (128, "8001"),
        (129, "8101"),
        (12857, "b964"),
        (624485, "e58e26"),
        (u64::MAX, "ffffffffffffffffff01"),
    ] {
        let bytes = from_hex(bytes).unwrap();
        assert_eq!(write_number(n), bytes);
        assert_eq!(read_number(&bytes), Ok(n));
    }
    for bad in [
        "",
        "80",
        "8000",
        "818000",
        "ffffffffffffffffff02",
        "ffffffffffffffffffff01",
        "ffffffffffffffffff8100",
        "0000",
    ] {
        assert_eq!(read_number(&from_hex(bad).unwrap()), Err(Bad), "{bad}");
    }
    let mut rng = Rng::new(3);
    for _ in 0..10_000 {
        let n = rng.bits() >> rng.below(64);
        assert_eq!(read_number(&write_number(n)), Ok(n));
    }
}

#[test]
fn the_crossing_as_bytes() {
    let bytes = write_map(&crossing(2.0));
    let head = from_hex("04 01 03 00 01 00 02 00 00 02 01 02").unwrap();
    assert!(bytes.starts_with(&head));
    assert!(bytes.ends_with(&[0; 4]));
    assert_eq!(bytes.len(), 12 + 48 + 2 + 48 + 4);
}

#[test]
fn maps_there_and_back() {
    let mut rng = Rng::new(11);
    for i in 0..600 {
        let size = [Size::Small, Size::Medium, Size::Large][i % 3];
        let map = random_map(&mut rng, size);
        let bytes = write_map(&map);
        let back = read_map(&bytes).expect("a map file");
        assert_eq!(write_map(&back), bytes);
        // Through the supplied `Map` as well, down to the bits.
        let own = convert::from_map(&convert::to_map(&map));
        assert_eq!(write_map(&own), bytes);
    }
}

#[test]
fn no_part_of_a_file_is_one() {
    let mut rng = Rng::new(12);
    for _ in 0..40 {
        let bytes = write_map(&random_map(&mut rng, Size::Small));
        for n in 0..bytes.len() {
            assert_eq!(read_map(&bytes[..n]).err(), Some(Bad));
        }
        let mut more = bytes.clone();
        more.push(0);
        assert_eq!(read_map(&more).err(), Some(Bad));
        let bytes = write_set(&random_set(&mut rng, 12, 9));
        for n in 0..bytes.len() {
            assert_eq!(read_set(&bytes[..n]).err(), Some(Bad));
        }
    }
}

#[test]
fn sets_there_and_back() {
    let mut rng = Rng::new(13);
    for _ in 0..2000 {
        let set = random_set(&mut rng, 20, 30);
        let bytes = write_set(&set);
        assert_eq!(read_set(&bytes), Ok(set.clone()));
        assert_eq!(convert::from_set(&convert::to_set(&set)), set);
    }
}

/// What reads as a file writes as the same bytes: one form for one content.
#[test]
fn one_form() {
    let mut rng = Rng::new(14);
    for _ in 0..3000 {
        let mut bytes = write_map(&random_map(&mut rng, Size::Small));
        let at = rng.below(bytes.len());
        bytes[at] = rng.bits() as u8;
        if let Ok(map) = read_map(&bytes) {
            assert_eq!(write_map(&map), bytes);
        }
        let mut bytes = write_set(&random_set(&mut rng, 8, 200));
        let at = rng.below(bytes.len());
        bytes[at] ^= 1 << rng.below(8);
        if let Ok(set) = read_set(&bytes) {
            assert_eq!(write_set(&set), bytes);
        }
    }
}

#[test]
fn faults() {
    for bad in [
        // A lane of kind 8, a boundary flag of 2, an option of 2.
        "04 01 03 08 01 00 02 00 00 00 00 00 00 00",
        "04 01 03 00 01 02 02 00 00 00 00 00 00 00",
        "04 01 03 00 01 00 02 00 02 00 00 00 00 00",
        // Next not above a number; numbers that do not rise.
        "03 01 03 00 01 00 02 00 00 00 00 00 00 00",
        "09 00 02 01 00 01 00 00 00 00 00",
        "09 00 02 02 00 01 00 00 00 00 00",
        // Rule kinds 0 and 7, sign type 0, kind number 0.
        "09 00 00 00 00 00 01 01 00 00 00",
        "09 00 00 00 00 00 01 01 07 00 00",
        "09 00 00 00 00 00 01 01 02 00 00 00 00 00",
        "09 00 00 00 00 00 01 01 06 00 00 00",
    ] {
        assert_eq!(read_map(&from_hex(bad).unwrap()).err(), Some(Bad), "{bad}");
    }
    for good in [
        "00 00 00 00 00 00 00",
        "04 01 03 07 01 01 02 01 01 00 00 00 00 00 00",
        "09 00 02 01 00 02 00 00 00 00 00",
        "09 00 00 00 00 00 01 00 06 01 00 00",
        "09 00 00 00 00 00 01 00 02 01 00 00 00 00",
    ] {
        assert!(read_map(&from_hex(good).unwrap()).is_ok(), "{good}");
    }
    for bad in [
        "01 00 01 00 00 00",
        "01 09 01 00 00 00",
        "02 05 04 05 04 00 00 00",
        "02 05 04 04 09 00 00 00",
        "01 05 04 01 05 04 00 00",
        "01 05 04 00 01 05 04 00",
        "00 00 00 01 00 00",
        "00 00 00 01 05 00",
        "00 00 00 01 01 09 01",
        "00 00 00 01 01 01",
        "00 00 00 00 00",
    ] {
        assert_eq!(read_set(&from_hex(bad).unwrap()), Err(Bad), "{bad}");
    }
    for good in ["00 00 00 00", "01 03 00 01 04 00 00 02 01 00 04 08 00"] {
        assert!(read_set(&from_hex(good).unwrap()).is_ok(), "{good}");
    }
}
