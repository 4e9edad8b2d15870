//! Run and cut: the image as the processor sees it, and as the memory holds it after a cut.
use super::leaf::LINE_BYTES;
use super::steps::Step;

pub fn lines(image: &[u8]) -> usize {
    image.len() / LINE_BYTES
}

/// All stores, in order; fences and write-backs change no byte.
pub fn run(image: &mut [u8], steps: &[Step]) {
    for step in steps {
        if let Step::Store { place, value } = *step {
            image[place..place + 8].copy_from_slice(&value.to_le_bytes());
        }
    }
}

/// "After a cut a line holds its start plus some first few of its stores": as many as arrived.
pub fn cut(image: &mut [u8], steps: &[Step], arrivals: &[u64]) {
    let mut met = vec![0; lines(image)];
    for step in steps {
        if let Step::Store { place, value } = *step {
            let line = place / LINE_BYTES;
            met[line] += 1;
            if met[line] <= arrivals[line] {
                image[place..place + 8].copy_from_slice(&value.to_le_bytes());
            }
        }
    }
}

/// For each line the fewest and the most of its stores that a cut after these steps may leave.
#[derive(Clone, Debug, PartialEq, Eq)]
pub struct Permitted {
    pub settled: Vec<u64>,
    pub made: Vec<u64>,
}

impl Permitted {
    pub fn after(steps: &[Step], lines: usize) -> Permitted {
        let mut permitted = Permitted { settled: vec![0; lines], made: vec![0; lines] };
        for (at, step) in steps.iter().enumerate() {
            if let Step::Store { place, .. } = *step {
                let line = place / LINE_BYTES;
                permitted.made[line] += 1;
                permitted.settled[line] += u64::from(is_settled(steps, at, line));
            }
        }
        permitted
    }

    /// Refusal 10 is given exactly when this is false.
    pub fn allows(&self, arrivals: &[u64]) -> bool {
        arrivals.len() == self.made.len()
            && (0..arrivals.len()).all(|line| (self.settled[line]..=self.made[line]).contains(&arrivals[line]))
    }
}

/// "A store is settled once its line has had a write-back among the steps taken and a fence has come after both the
/// store and that write-back."
fn is_settled(steps: &[Step], store: usize, line: usize) -> bool {
    let mut later_fences = (store + 1..steps.len()).filter(|&at| steps[at] == Step::Fence);
    later_fences.any(|fence| steps[..fence].contains(&Step::WriteBack { line }))
}
