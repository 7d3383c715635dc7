//! Stands in for the crate `imagesize`: a card has no images, so it is never asked.

pub struct ImageSize {
    pub width: usize,
    pub height: usize,
}

pub fn blob_size(_: &[u8]) -> Result<ImageSize, ()> {
    unreachable!("a card has no images")
}
