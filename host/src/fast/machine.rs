//! Run and cut without a list of decoded steps: one pass that checks, one that stores.

const WRITE_BACK: u64 = 1 << 32;
const FENCE: u64 = 1 << 33;
const MOST_LINES: usize = 1024;

/// The words of the first n steps, where all are there and well formed.
pub fn checked<'a>(image: &[u8], list: &'a [u64], n: u64) -> Option<&'a [[u64; 2]]> {
    if n > 56 {
        return None;
    }
    let steps = list.get(..2 * n as usize)?.as_chunks::<2>().0;
    let (bytes, lines) = (image.len() as u64, image.len() as u64 / 64);
    let store = |first: u64| first < bytes && first.is_multiple_of(8);
    let other = |first: u64| first == FENCE || first.wrapping_sub(WRITE_BACK) < lines;
    steps.iter().all(|&[first, second]| store(first) || (second == 0 && other(first))).then_some(steps)
}

fn store(image: &mut [u8], place: u64, value: u64) {
    if let Some(bytes) = image.get_mut(place as usize..place as usize + 8) {
        bytes.copy_from_slice(&value.to_le_bytes());
    }
}

pub fn run(image: &mut [u8], steps: &[[u64; 2]]) {
    for &[place, value] in steps {
        if place < WRITE_BACK {
            store(image, place, value);
        }
    }
}

/// Each line's arrivals are at least its settled and at most its made stores.
pub fn permitted(steps: &[[u64; 2]], arrivals: &[u64]) -> bool {
    let before_last_fence = steps.iter().rposition(|step| step[0] == FENCE).unwrap_or(0);
    let mut made = [0u8; MOST_LINES];
    let mut waiting = [0u8; MOST_LINES];
    let mut written_back = [false; MOST_LINES];
    for (at, &[first, _]) in steps.iter().enumerate() {
        if first < WRITE_BACK {
            let line = first as usize / 64 % MOST_LINES;
            made[line] += 1;
            waiting[line] += u8::from(at >= before_last_fence);
        } else if first < FENCE && at < before_last_fence {
            written_back[(first - WRITE_BACK) as usize % MOST_LINES] = true;
        }
    }
    let settled = |line: usize| if written_back[line] { made[line] - waiting[line] } else { 0 };
    let allowed =
        |(line, &arrived): (usize, &u64)| u64::from(settled(line)) <= arrived && arrived <= u64::from(made[line]);
    arrivals.iter().take(MOST_LINES).enumerate().all(allowed)
}

pub fn cut(image: &mut [u8], steps: &[[u64; 2]], arrivals: &[u64]) {
    let mut met = [0u8; MOST_LINES];
    for &[place, value] in steps {
        if place < WRITE_BACK {
            let line = place as usize / 64 % MOST_LINES;
            if u64::from(met[line]) < arrivals[line] {
                store(image, place, value);
            }
            met[line] += 1;
        }
    }
}
