//! Serials that make the check slow: the worst set that is known.
//!
//! The check finds the records of a serial by a slot, `serial % 1024`, and in a slot with several records by a
//! tree: at each record the next bit of `serial / 1024` chooses one of two links. A record is entered at the end
//! of its serial's path, behind records that agree with it in the slot and in the bits so far, and a search follows
//! the path to its end. So these serials agree in the slot and in every bit but the last ones, which tell them
//! apart: the first records make a chain, one for each bit, and the others a tree below it, filled level by level.

/// The slot that all serials have.
const SLOT: u32 = 1_000;

/// Gives so many serials, a power of two, in the order of the records.
pub fn worst_serials(count: usize) -> Vec<u32> {
    let step = u32::MAX / count as u32 + 1;
    (0..count as u32).map(|n| n * step + SLOT).collect()
}

#[cfg(test)]
mod tests {
    use super::*;

    /// The steps that it takes to enter the serials into the index, and to follow the path of each.
    fn steps(serials: &[u32]) -> (usize, usize) {
        let mut links = vec![[None; 2]; serials.len()];
        let mut path = |serial: u32, entered: Option<usize>| {
            let (mut at, mut bits, mut steps) = (0, serial / 1_024, 1);
            while let Some(next) = links[at][bits as usize % 2] {
                (at, bits, steps) = (next, bits / 2, steps + 1);
            }
            links[at][bits as usize % 2] = entered;
            steps
        };
        let entering = (1..serials.len()).map(|i| path(serials[i], Some(i))).sum();
        let finding = serials.iter().map(|serial| path(*serial, None)).sum();
        (entering, finding)
    }

    #[test]
    fn the_steps_are_as_many_as_are_known() {
        assert_eq!(steps(&worst_serials(512)), (10_055, 11_240));
        assert_eq!(steps(&worst_serials(128)), (2_358, 2_788));
    }

    #[test]
    fn all_serials_have_one_slot() {
        let serials = worst_serials(512);
        assert!(serials.iter().all(|serial| serial % 1_024 == SLOT));
        assert_eq!(serials[511], u32::MAX - (1 << 23) + 1 + SLOT);
    }
}
