//! Prints the step lists of document 01's cases P1 to P5 and P7, by the reference, for checking by hand.
use stringhut::reference::leaf::{Leaf, SLOTS};
use stringhut::reference::{del_steps, memory, put_steps, steps, steps::Step};

fn show(title: &str, image: &mut [u8], list: &[Step]) {
    let counts = steps::counts(list);
    println!(
        "{title}: {} steps, {} line writes, {} word writes",
        counts.steps, counts.line_writes.0, counts.word_writes.0
    );
    for (at, step) in list.iter().enumerate() {
        let [first, second] = step.words();
        let kind = match *step {
            Step::Store { place, value } => {
                format!("store       block {} byte {:3}  value {value:#018x} = {value}", place / 256, place % 256)
            }
            Step::WriteBack { line } => format!("write back  block {} line {}", line / 4, line % 4),
            Step::Fence => "fence".to_string(),
        };
        println!("  {at:2}  words {first} {second}   {kind}");
    }
    memory::run(image, list);
}

fn show_block(image: &[u8], block: usize) {
    let leaf = Leaf::read(image, block);
    println!(
        "  block {block}: word 0 {:#018x} = {}, word 1 {:#018x} = {}",
        leaf.words[0], leaf.words[0], leaf.words[1], leaf.words[1]
    );
    println!("           siblings {} {}, alt {}", leaf.words[30], leaf.words[31], leaf.alt());
    for slot in (0..SLOTS).filter(|&slot| leaf.occupied(slot)) {
        println!(
            "           slot {slot:2}: key {} value {} fingerprint {}",
            leaf.key(slot),
            leaf.value(slot),
            leaf.fingerprint(slot)
        );
    }
}

fn put(image: &mut [u8], key: u64) {
    let list = put_steps(image, key, 100 * key).expect("accepted");
    show(&format!("put {key} {}", 100 * key), image, &list);
}

fn del(image: &mut [u8], key: u64) {
    let list = del_steps(image, key).expect("accepted");
    show(&format!("del {key}"), image, &list);
}

fn main() {
    let mut image = vec![0; 4 * 256];
    println!("== P1, P2, P3: blank image of 4 blocks, keys 1 to 14 put in order, each with value 100 times its key");
    for key in 1..=14 {
        put(&mut image, key);
        show_block(&image, 0);
    }
    let full = image.clone();
    println!("\n== P4: then put 15");
    put(&mut image, 15);
    show_block(&image, 0);
    show_block(&image, 1);
    println!("\n== P5: put 0 in place of 15");
    let mut other = full;
    put(&mut other, 0);
    show_block(&other, 0);
    show_block(&other, 1);
    println!("\n== P7: after P4, del 8 to 15 in order; the last one frees block 1");
    for key in 8..=15 {
        del(&mut image, key);
    }
    show_block(&image, 0);
    println!("\n== P7 again: put 8 to 15 once more (block 0 splits a second time), then del 8 to 15");
    for key in 8..=15 {
        put(&mut image, key);
    }
    show_block(&image, 0);
    show_block(&image, 1);
    for key in 8..=15 {
        del(&mut image, key);
    }
    show_block(&image, 0);
}
