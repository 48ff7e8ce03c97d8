//! Random words of packets.

const STEP: u64 = 0xD1B5_4A32_D192_ED03;

/// The random words of a direction's packets by a seed, one after the other: those that `hinge` and `hingetulip.aio` draw, so that one
/// seed loses the same packets everywhere.
///
/// ```
/// use hingetulip::{Outcome, Packet, Shaper, Target, Words};
///
/// let mut shaper = Shaper::new()?;
/// shaper.configure("pipe 1 config bw 8Mbit/s plr 0.5")?;
/// let packets = Words::new(1, 1).take(8).map(|word| Packet { word, ..Packet::new(0, Target::Pipe(1), 1000) });
/// let fates = packets.map(|it| shaper.submit(&it)).collect::<Result<Vec<_>, _>>()?;
/// assert_eq!(fates.iter().filter(|it| it.outcome == Outcome::Lost).count(), 3);
/// # Ok::<(), hingetulip::Error>(())
/// ```
#[derive(Debug, Clone)]
pub struct Words {
    place: u64,
}

impl Words {
    /// The words of a seed and a direction, from 1: that of a link is its pipe's number, and that of a queue its number + 65536.
    #[must_use]
    pub fn new(seed: u64, direction: u32) -> Self {
        let direction = u64::from(direction).wrapping_sub(1).wrapping_mul(0x8CB9_2BA7_2F3D_8DD7);
        Self { place: seed.wrapping_mul(0x9E37_79B9_7F4A_7C15).wrapping_add(direction) }
    }

    /// The word of the packet with a number, from 1.
    pub(crate) fn of_packet(seed: u64, direction: u32, number: u64) -> u32 {
        let mut words = Self::new(seed, direction);
        words.place = words.place.wrapping_add(STEP.wrapping_mul(number.wrapping_sub(1)));
        words.next().unwrap_or(0)
    }
}

impl Iterator for Words {
    type Item = u32;

    /// The word of the next packet, 0 to 2^31 - 1, by splitmix64. It is always there.
    fn next(&mut self) -> Option<u32> {
        self.place = self.place.wrapping_add(STEP);
        let z = (self.place ^ self.place >> 30).wrapping_mul(0xBF58_476D_1CE4_E5B9);
        let z = (z ^ z >> 27).wrapping_mul(0x94D0_49BB_1331_11EB);
        Some((z ^ z >> 31) as u32 & 0x7FFF_FFFF)
    }
}
