//! XXH64, the digest of a journal: quick, and enough to tell a whole journal from a torn one.

const PRIMES: [u64; 5] =
    [0x9E37_79B1_85EB_CA87, 0xC2B2_AE3D_27D4_EB4F, 0x1656_67B1_9E37_79F9, 0x85EB_CA77_C2B2_AE63, 0x27D4_EB2F_1656_67C5];

/// A digest of bytes that come in parts.
pub struct Digest {
    lanes: [u64; 4],
    held: Vec<u8>,
    total: u64,
}

fn round(lane: u64, word: u64) -> u64 {
    lane.wrapping_add(word.wrapping_mul(PRIMES[1])).rotate_left(31).wrapping_mul(PRIMES[0])
}

fn word(bytes: &[u8]) -> u64 {
    u64::from_le_bytes(bytes[..8].try_into().expect("8 bytes"))
}

impl Digest {
    pub fn new() -> Digest {
        let first = PRIMES[0].wrapping_add(PRIMES[1]);
        Digest { lanes: [first, PRIMES[1], 0, 0u64.wrapping_sub(PRIMES[0])], held: Vec::new(), total: 0 }
    }

    /// The next bytes.
    pub fn add(&mut self, mut bytes: &[u8]) {
        self.total += bytes.len() as u64;
        if !self.held.is_empty() {
            let (front, rest) = bytes.split_at(bytes.len().min(32 - self.held.len()));
            self.held.extend(front);
            bytes = rest;
            if self.held.len() < 32 {
                return;
            }
            let held = std::mem::take(&mut self.held);
            self.stripe(&held);
        }
        let stripes = bytes.chunks_exact(32);
        self.held.extend(stripes.remainder());
        for stripe in stripes {
            self.stripe(stripe);
        }
    }

    fn stripe(&mut self, bytes: &[u8]) {
        for (lane, part) in self.lanes.iter_mut().zip(bytes.chunks_exact(8)) {
            *lane = round(*lane, word(part));
        }
    }

    /// The digest of all that was added.
    pub fn end(self) -> u64 {
        let mut sum = match self.total {
            0..32 => PRIMES[4],
            _ => self.joined(),
        };
        sum = sum.wrapping_add(self.total);
        let words = self.held.chunks_exact(8);
        let mut rest = words.remainder();
        for part in words {
            sum = (sum ^ round(0, word(part))).rotate_left(27).wrapping_mul(PRIMES[0]).wrapping_add(PRIMES[3]);
        }
        if let Some((half, behind)) = rest.split_at_checked(4) {
            let half = u64::from(u32::from_le_bytes(half.try_into().expect("4 bytes")));
            sum = (sum ^ half.wrapping_mul(PRIMES[0])).rotate_left(23).wrapping_mul(PRIMES[1]).wrapping_add(PRIMES[2]);
            rest = behind;
        }
        for byte in rest {
            sum = (sum ^ u64::from(*byte).wrapping_mul(PRIMES[4])).rotate_left(11).wrapping_mul(PRIMES[0]);
        }
        sum = (sum ^ sum >> 33).wrapping_mul(PRIMES[1]);
        sum = (sum ^ sum >> 29).wrapping_mul(PRIMES[2]);
        sum ^ sum >> 32
    }

    /// The four lanes as one.
    fn joined(&self) -> u64 {
        let turns = [1, 7, 12, 18];
        let sum = self.lanes.iter().zip(turns).fold(0u64, |sum, (lane, by)| sum.wrapping_add(lane.rotate_left(by)));
        self.lanes.iter().fold(sum, |sum, &lane| (sum ^ round(0, lane)).wrapping_mul(PRIMES[0]).wrapping_add(PRIMES[3]))
    }
}

#[cfg(test)]
mod tests {
    use super::Digest;

    fn of(parts: &[&[u8]]) -> u64 {
        let mut digest = Digest::new();
        parts.iter().for_each(|p| digest.add(p));
        digest.end()
    }

    #[test]
    fn published_values() {
        assert_eq!(of(&[b""]), 0xEF46_DB37_51D8_E999);
        assert_eq!(of(&[b"a"]), 0xD24E_C4F1_A98C_6E5B);
        assert_eq!(of(&[b"abc"]), 0x44BC_2CF5_AD77_0999);
        let long = b"Nobody inspects the spammish repetition";
        assert_eq!(of(&[long]), 0xFBCE_A83C_8A37_8BF1);
    }

    #[test]
    fn parts_do_not_matter() {
        let bytes: Vec<u8> = (0..200u8).collect();
        for cut in 0..200 {
            assert_eq!(of(&[&bytes[..cut], &bytes[cut..]]), of(&[&bytes]), "{cut}");
        }
    }
}
