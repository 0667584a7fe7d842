//! Bytes to be read, and the faults of them that need not know what they say.
use crate::recipes::take_one;
use crate::rng::Rng;

/// Bytes to be read: the first `len` of them, and a reader that runs on finds more behind.
pub struct Bytes {
    all: Vec<u8>,
    len: usize,
}

impl Bytes {
    /// These bytes, all of them lent.
    pub fn new(all: Vec<u8>) -> Self {
        Self { len: all.len(), all }
    }

    pub fn lent(&self) -> &[u8] {
        &self.all[..self.len]
    }
}

/// An input of bytes, and of an output for what is read of them, that can be spoilt.
pub trait Spoilt: Sized {
    /// Bytes that a reader turns on.
    const TURNS: &'static [u8];
    /// How many bytes may be left over.
    const LEFT_OVER: &'static [usize];

    fn bytes(&mut self) -> &mut Bytes;

    /// An output that does not fit.
    fn spoil_output(&mut self, rng: &mut Rng);

    /// Among how many of the bytes, from the first on, one is changed, put in or taken out.
    fn reach(_: &mut Rng, len: usize) -> usize {
        len
    }

    /// A byte that has no place: any, or one that a reader turns on.
    fn stray_byte(rng: &mut Rng) -> u8 {
        if rng.one_in(6) { rng.next() as u8 } else { rng.pick(Self::TURNS) }
    }

    /// Some bytes are not lent any more; they stay behind those that are.
    fn cut(&mut self, rng: &mut Rng) {
        let bytes = self.bytes();
        let most = rng.pick(&[2, 6, bytes.len.max(1)]).min(bytes.len.max(1));
        bytes.len -= (1 + rng.below(most)).min(bytes.len);
    }

    /// Bits flipped.
    fn flip(&mut self, rng: &mut Rng) {
        let bytes = self.bytes();
        for _ in 0..rng.pick(&[1, 1, 2, 3, 8]) {
            if bytes.len > 0 {
                let reach = Self::reach(rng, bytes.len);
                let at = rng.below(reach);
                bytes.all[at] ^= 1 << rng.below(8);
            }
        }
    }

    /// A byte too many, or one too few.
    fn insert_or_remove(&mut self, rng: &mut Rng) {
        let bytes = self.bytes();
        let reach = Self::reach(rng, bytes.len);
        let at = rng.below(reach + 1);
        if rng.one_in(2) || at == bytes.len {
            bytes.all.insert(at, Self::stray_byte(rng));
            bytes.len += 1;
        } else {
            bytes.all.remove(at);
            bytes.len -= 1;
        }
    }

    /// Bytes behind the last.
    fn left_over(&mut self, rng: &mut Rng) {
        let bytes = self.bytes();
        bytes.all.truncate(bytes.len);
        for _ in 0..rng.pick(Self::LEFT_OVER) {
            bytes.all.push(Self::stray_byte(rng));
        }
        bytes.len = bytes.all.len();
    }

    /// One fault of the bytes or the output.
    fn byte_fault(&mut self, rng: &mut Rng) {
        let faults = [Self::cut, Self::flip, Self::insert_or_remove, Self::left_over, Self::spoil_output];
        take_one(&faults, self, rng);
    }

    /// As often as not, bytes that are too few or too many or an output that does not fit.
    fn spoil_length(&mut self, rng: &mut Rng) {
        match rng.below(6) {
            0 => self.cut(rng),
            1 => self.left_over(rng),
            2 => self.spoil_output(rng),
            _ => {}
        }
    }
}
