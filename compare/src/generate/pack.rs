//! Packs lines into an image, and spoils its directory.

use super::intent::DirectoryFault;
use super::values;
use crate::emulator::image::IMAGE_WORDS;
use crate::prng::Rng;

/// An image of the lines. With `gaps`, words that nothing may look at stand between the regions.
pub fn pack(rng: &mut Rng, lines: &[Vec<u32>], gaps: bool) -> Vec<u32> {
    let mut directory = vec![lines.len() as u32];
    let mut body = Vec::new();
    let start = 1 + 2 * lines.len();
    for line in lines {
        if gaps && rng.chance(40) {
            let gap = rng.between(1, 5);
            body.extend((0..gap).map(|_| values::word(rng)));
        }
        directory.extend([(start + body.len()) as u32, line.len() as u32]);
        body.extend(line);
    }
    if gaps {
        let gap = rng.below(4);
        body.extend((0..gap).map(|_| values::word(rng)));
    }
    [directory, body].concat()
}

/// Makes the directory lie in one way; nothing where this image cannot.
pub fn spoil(rng: &mut Rng, image: &mut Vec<u32>, fault: DirectoryFault) -> Option<()> {
    let lines = image[0];
    match fault {
        DirectoryFault::Empty => image.clear(),
        DirectoryFault::HugeCount => {
            // The last one only looks right when its high bit is lost.
            image[0] = rng.pick(&[u32::MAX, 1 << 31, (1 << 31) - 1, 1 << 30, lines | 1 << 31]);
        }
        DirectoryFault::CountPastEnd => image[0] = (image.len() as u32 - 1) / 2 + 1,
        _ if lines == 0 => return None,
        DirectoryFault::Overlap | DirectoryFault::Unsorted if lines < 2 => return None,
        _ => spoil_pair(rng, image, fault),
    }
    Some(())
}

/// Spoils one pair of offset and length, or the order of two.
fn spoil_pair(rng: &mut Rng, image: &mut [u32], fault: DirectoryFault) {
    let lines = image[0] as usize;
    let line = rng.index(lines);
    let later = 1 + rng.index(lines.max(2) - 1);
    match fault {
        DirectoryFault::InDirectory => image[1] = rng.below(1 + 2 * lines as u32),
        DirectoryFault::Overlap => {
            let end = image[2 * later - 1] + image[2 * later];
            image[2 * later + 1] = end - rng.between(1, 7);
        }
        DirectoryFault::Unsorted => {
            image.swap(2 * later - 1, 2 * later + 1);
            image.swap(2 * later, 2 * later + 2);
        }
        DirectoryFault::PastEnd => {
            let over = rng.between(1, 7);
            image[2 * lines - 1] = image.len() as u32 - image[2 * lines] + over;
        }
        DirectoryFault::Wrapping => image[2 * line + 1] = rng.below(14).wrapping_sub(28),
        _ => {
            // Next to a line's lengths, slots of six words, one slot too many, and far off.
            let near = [1, 6, 8, 13, 15, 20, 22, 27, 29];
            let others = [0, 12, 18, 24, 35, 39, 1 << 31, u32::MAX];
            let bad = if rng.chance(50) {
                rng.pick(&near)
            } else {
                rng.pick(&others)
            };
            image[2 * line + 2] = bad;
        }
    }
}

/// Fills the image up with words that belong to no line.
pub fn fill_to(rng: &mut Rng, image: &mut Vec<u32>, words: usize) {
    let filler = values::word(rng);
    image.resize(words.max(image.len()), filler);
}

/// A length above what an image may have.
pub fn too_long(rng: &mut Rng) -> usize {
    IMAGE_WORDS + rng.pick(&[1, 1, 2, 5, 100])
}
