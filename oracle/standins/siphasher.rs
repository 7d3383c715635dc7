//! Stands in for the crate `siphasher`: SipHash-1-3 with a key, as usvg's tables of names need it.

pub mod sip {
    use std::hash::Hasher;

    /// Keeps the bytes, and hashes them all at the end.
    pub struct SipHasher13 {
        keys: (u64, u64),
        bytes: Vec<u8>,
    }

    impl SipHasher13 {
        pub fn new_with_keys(key0: u64, key1: u64) -> Self {
            Self { keys: (key0, key1), bytes: Vec::new() }
        }
    }

    impl Hasher for SipHasher13 {
        fn write(&mut self, bytes: &[u8]) {
            self.bytes.extend_from_slice(bytes);
        }

        fn finish(&self) -> u64 {
            let mut state = start(self.keys);
            for block in blocks(&self.bytes) {
                state[3] ^= block;
                round(&mut state);
                state[0] ^= block;
            }
            state[2] ^= 0xff;
            (0..3).for_each(|_| round(&mut state));
            state[0] ^ state[1] ^ state[2] ^ state[3]
        }
    }

    fn start((key0, key1): (u64, u64)) -> [u64; 4] {
        [key0 ^ 0x736f6d6570736575, key1 ^ 0x646f72616e646f6d, key0 ^ 0x6c7967656e657261, key1 ^ 0x7465646279746573]
    }

    /// Blocks of eight bytes, little-endian; the last one is padded and ends with the length.
    fn blocks(bytes: &[u8]) -> Vec<u64> {
        let mut padded = bytes.to_vec();
        padded.resize(bytes.len() / 8 * 8 + 7, 0);
        padded.push(bytes.len() as u8);
        let read = |block: &[u8]| u64::from_le_bytes(block.try_into().unwrap());
        padded.chunks_exact(8).map(read).collect()
    }

    fn round(v: &mut [u64; 4]) {
        v[0] = v[0].wrapping_add(v[1]);
        v[1] = v[1].rotate_left(13) ^ v[0];
        v[0] = v[0].rotate_left(32);
        v[2] = v[2].wrapping_add(v[3]);
        v[3] = v[3].rotate_left(16) ^ v[2];
        v[0] = v[0].wrapping_add(v[3]);
        v[3] = v[3].rotate_left(21) ^ v[0];
        v[2] = v[2].wrapping_add(v[1]);
        v[1] = v[1].rotate_left(17) ^ v[2];
        v[2] = v[2].rotate_left(32);
    }
}
