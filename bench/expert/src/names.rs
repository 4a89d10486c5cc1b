//! Names by their bytes.

/// The most bytes of a name that has a key.
pub const MOST: usize = 15;

/// Sixteen bytes: those of a name, zeros behind them, and how many they are in the last one, so
/// that a byte 0 in a text is none of these zeros.
#[derive(Clone, Copy, Default, PartialEq, Eq)]
pub struct Key {
    pub low: u64,
    pub high: u64,
}

impl Key {
    fn of(name: &str) -> Option<Key> {
        let mut bytes = [0; 16];
        bytes[..MOST].get_mut(..name.len())?.copy_from_slice(name.as_bytes());
        bytes[MOST] = name.len() as u8;
        let both = u128::from_le_bytes(bytes);
        Some(Key { low: both as u64, high: (both >> 64) as u64 })
    }
}

#[derive(Clone, Copy)]
struct Hash {
    factor: u64,
    shift: u32,
}

impl Hash {
    #[inline(always)]
    fn place(self, key: Key) -> usize {
        ((key.low ^ key.high.rotate_left(29)).wrapping_mul(self.factor) >> self.shift) as usize
    }
}

/// The numbers of names, each in a place of its own; longer names aren't here.
pub struct Names {
    hash: Hash,
    slots: Vec<(Key, u32)>,
}

impl Names {
    pub fn of(names: &[&str]) -> Names {
        let numbered = names.iter().zip(0..);
        let keys: Vec<(Key, u32)> =
            numbered.filter_map(|(name, number)| Some((Key::of(name)?, number))).collect();
        let mut state = 0x9e37_79b9_7f4a_7c15_u64;
        let mut bits = 9;
        loop {
            for _ in 0..2000 {
                state = state.wrapping_mul(6364136223846793005).wrapping_add(1442695040888963407);
                let hash = Hash { factor: (state ^ (state >> 29)) | 1, shift: 64 - bits };
                if let Some(slots) = apart(&keys, hash, 1 << bits) {
                    return Names { hash, slots };
                }
            }
            bits += 1;
        }
    }

    #[inline(always)]
    pub fn number(&self, key: Key) -> Option<usize> {
        // the shift leaves no more bits than there are slots
        let (found, number) = unsafe { *self.slots.get_unchecked(self.hash.place(key)) };
        (found == key).then_some(number as usize)
    }
}

/// The keys in their places, where no two have one place.
fn apart(keys: &[(Key, u32)], hash: Hash, size: usize) -> Option<Vec<(Key, u32)>> {
    let mut slots = vec![(Key::default(), 0); size];
    for &(key, number) in keys {
        let slot = &mut slots[hash.place(key)];
        if slot.0 != Key::default() {
            return None;
        }
        *slot = (key, number);
    }
    Some(slots)
}
