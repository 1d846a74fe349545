//! The static library called from Rust: a violation, an acceptance after a set was blurred, an empty cell, an area too short, an
//! answer too short.

/// Document 01's example: VIOLATION 102 3, and BORROWED AT 2.
const LISTING: [u8; 41] = [
    0x03, 0x00, 0x01, 0x00, 0x00, 0x01, 0x00, 0x05, 0x00, 0x02, 0x00, 0x00, 0x00, 0x03, 0x00, 0x00, 0x05, 0x00, 0x18,
    0x00, 0x00, 0x00, 0x01, 0x00, 0x00, 0x01, 0x00, 0x0D, 0x00, 0x00, 0x02, 0x00, 0x12, 0x00, 0x00, 0x01, 0x01, 0x00,
    0x0C, 0x00, 0x00,
];

/// examples/accept_blurred: ACCEPT, and BLURRED 1.
const LENDS: [u8; 113] = [
    0x0E, 0x00, 0x01, 0x00, 0x0B, 0x0B, 0x00, 0x00, 0x00, 0x00, 0x00, 0x00, 0x00, 0x00, 0x00, 0x00, 0x00, 0x00, 0x05,
    0x00, 0x02, 0x00, 0x00, 0x00, 0x0E, 0x00, 0x00, 0x02, 0x00, 0x12, 0x00, 0x00, 0x00, 0x02, 0x00, 0x12, 0x00, 0x01,
    0x00, 0x02, 0x00, 0x12, 0x00, 0x02, 0x00, 0x02, 0x00, 0x12, 0x00, 0x03, 0x00, 0x02, 0x00, 0x12, 0x00, 0x04, 0x00,
    0x02, 0x00, 0x12, 0x00, 0x05, 0x00, 0x02, 0x00, 0x12, 0x00, 0x06, 0x00, 0x02, 0x00, 0x12, 0x00, 0x07, 0x00, 0x02,
    0x00, 0x12, 0x00, 0x08, 0x00, 0x02, 0x00, 0x12, 0x00, 0x09, 0x00, 0x02, 0x00, 0x12, 0x00, 0x0A, 0x00, 0x04, 0x00,
    0x16, 0x00, 0x0B, 0x00, 0x01, 0x01, 0x00, 0x00, 0x10, 0x00, 0x00, 0x00, 0x0A, 0x00, 0x00, 0x00, 0x17, 0x00,
];

/// Those of include/buslatim.h that are used here. `callers/run` sees that they are the header's.
mod buslatim {
    pub const AREA_WORDS: usize = 16384;
    pub const ANSWER_WORDS: usize = 7;
    pub const ACCEPT: u32 = 0;
    pub const VIOLATION: u32 = 1;
    pub const REFUSED: u32 = 2;
    pub const EMPTY: u32 = 3;
    pub const MOVELOC_EXISTS_BORROW: u32 = 102;
    pub const REFUSED_AREA: u32 = 7;
}
use buslatim::*;

/// What the words hold before a call.
const USED: u32 = 7;

mod library {
    extern "C" {
        pub fn reference_safety_verify(
            listing: *const u8,
            listing_len: usize,
            area: *mut u32,
            area_len: usize,
            answer: *mut u32,
            answer_len: usize,
        ) -> bool;
    }
}

fn verify(listing: &[u8], area: &mut [u32], answer: &mut [u32]) -> bool {
    // The slices are valid for their lengths, and the borrow checker keeps them apart.
    unsafe {
        library::reference_safety_verify(
            listing.as_ptr(),
            listing.len(),
            area.as_mut_ptr(),
            area.len(),
            answer.as_mut_ptr(),
            answer.len(),
        )
    }
}

fn main() {
    let mut area = vec![USED; AREA_WORDS + 1];
    let mut answer = [USED; ANSWER_WORDS + 1];
    assert!(verify(&LISTING, &mut area, &mut answer));
    assert_eq!(answer, [VIOLATION, MOVELOC_EXISTS_BORROW, 3, 1, 0, 0, 2, USED]);
    assert!(area[..AREA_WORDS].iter().all(|w| *w == 0));
    assert_eq!(area[AREA_WORDS], USED);

    let mut answer = [USED; ANSWER_WORDS];
    assert!(verify(&LENDS, &mut area, &mut answer));
    assert_eq!(answer, [ACCEPT, 0, 0, 1, 1, 0, 0]);

    let mut area = vec![USED; AREA_WORDS];
    let mut answer = [USED; ANSWER_WORDS];
    assert!(verify(&[], &mut area, &mut answer));
    assert_eq!(answer, [EMPTY, 0, 0, 0, 0, 0, 0]);
    assert!(area.iter().all(|w| *w == 0));

    let mut area = vec![USED; AREA_WORDS - 1];
    let mut answer = [USED; ANSWER_WORDS];
    assert!(verify(&LISTING, &mut area, &mut answer));
    assert_eq!(answer, [REFUSED, REFUSED_AREA, 0, 0, 0, 0, 0]);
    assert!(area.iter().all(|w| *w == USED));

    let mut area = vec![USED; AREA_WORDS];
    let mut answer = [USED; ANSWER_WORDS - 1];
    assert!(!verify(&LISTING, &mut area, &mut answer));
    assert_eq!(answer, [USED; ANSWER_WORDS - 1]);
    assert!(area.iter().all(|w| *w == USED));
    println!("called from Rust");
}
