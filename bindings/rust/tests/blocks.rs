//! The block corrector and encoder through the safe crate: what is encoded, what is mended, what is turned away, and
//! what is written.
use locator::{correct, encode, Refusal, WORD};

const LAST: usize = 2047;

/// Bytes that look like nothing, the last bit 0.
fn noise(seed: u32) -> [u8; WORD] {
    let mut x = seed;
    let mut word = core::array::from_fn(|_| {
        x = x.wrapping_mul(1664525).wrapping_add(1013904223);
        (x >> 24) as u8
    });
    word[WORD - 1] &= 127;
    word
}

/// A codeword of this strength.
fn codeword(strength: u16, seed: u32) -> [u8; WORD] {
    let mut word = noise(seed);
    assert_eq!(encode(strength, &mut word), Ok(11 * strength));
    word
}

/// The word with these bits flipped.
fn flipped(mut word: [u8; WORD], bits: impl IntoIterator<Item = usize>) -> [u8; WORD] {
    for j in bits {
        word[j / 8] ^= 1 << (j % 8);
    }
    word
}

#[test]
fn codewords_are_not_changed() {
    for strength in 1..=8 {
        for word in [
            codeword(strength, 3),
            [0; WORD],
            flipped([255; WORD], [LAST]),
        ] {
            let mut lent = word;
            assert_eq!(correct(strength, &mut lent), Ok(0));
            assert_eq!(lent, word);
        }
    }
}

#[test]
fn up_to_the_strength_every_error_is_mended() {
    for strength in 1..=8u16 {
        let word = codeword(strength, u32::from(strength));
        for errors in 0..=strength {
            let spread = (0..usize::from(errors)).map(|k| (k * 283 + 2046) % LAST);
            let mut lent = flipped(word, spread);
            assert_eq!(correct(strength, &mut lent), Ok(errors));
            assert_eq!(lent, word);
        }
    }
}

#[test]
fn what_is_far_is_turned_away_and_not_written() {
    for strength in 4..=8u16 {
        let far = flipped(
            codeword(strength, 9),
            (0..=usize::from(strength)).map(|k| 100 + k),
        );
        let mut lent = far;
        assert_eq!(correct(strength, &mut lent), Err(Refusal::Far));
        assert_eq!(lent, far);
    }
}

#[test]
fn refusals_stand_in_their_order() {
    let far = noise(1);
    let last = flipped(codeword(8, 1), [LAST]);
    for strength in [0, 9, 65535] {
        assert_eq!(correct(strength, &mut []), Err(Refusal::Block));
        assert_eq!(correct(strength, &mut [0; WORD + 1]), Err(Refusal::Block));
        assert_eq!(correct(strength, &mut last.clone()), Err(Refusal::Block));
        let mut lent = far;
        assert_eq!(correct(strength, &mut lent), Err(Refusal::Strength));
        assert_eq!(lent, far);
    }
    assert_eq!(correct(8, &mut [0; WORD - 1]), Err(Refusal::Block));
    let mut lent = last;
    assert_eq!(correct(8, &mut lent), Err(Refusal::Block));
    assert_eq!(lent, last);
    assert_eq!(
        [Refusal::Block, Refusal::Strength, Refusal::Far].map(Refusal::number),
        [22, 23, 24]
    );
}

#[test]
fn the_encoder_refuses_likewise() {
    let last = flipped(noise(1), [LAST]);
    for strength in [0, 9, 65535] {
        assert_eq!(encode(strength, &mut []), Err(Refusal::Block));
        assert_eq!(encode(strength, &mut last.clone()), Err(Refusal::Block));
        let mut lent = noise(1);
        assert_eq!(encode(strength, &mut lent), Err(Refusal::Strength));
        assert_eq!(lent, noise(1));
    }
    let mut lent = last;
    assert_eq!(encode(8, &mut lent), Err(Refusal::Block));
    assert_eq!(lent, last);
}

#[test]
fn data_stay_and_check_bits_do_not_matter() {
    for strength in 1..=8u16 {
        let checks = 11 * usize::from(strength);
        let (word, made) = (noise(77), codeword(strength, 77));
        let data = |w: &[u8; WORD]| -> Vec<u8> {
            (checks..LAST).map(|j| w[j / 8] >> (j % 8) & 1).collect()
        };
        assert_eq!(data(&made), data(&word));
        for mut other in [made, flipped(word, 0..checks)] {
            assert_eq!(encode(strength, &mut other), Ok(11 * strength));
            assert_eq!(other, made);
        }
    }
}
