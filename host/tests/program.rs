//! The proved bench program (crates/bench/out/bench, or what STRINGHUT_BENCH names) beside the reference's, byte for byte.
use std::io::Write;
use std::path::PathBuf;
use std::process::{Command, Stdio};
use stringhut::random::Random;
use stringhut::reference::program;
use stringhut::trial::{self, settings::Settings};

fn proved(input: &[u8]) -> String {
    let built = PathBuf::from(env!("CARGO_MANIFEST_DIR")).join("../crates/bench/out/bench");
    let mut child = Command::new(std::env::var_os("STRINGHUT_BENCH").map_or(built, PathBuf::from))
        .stdin(Stdio::piped())
        .stdout(Stdio::piped())
        .spawn()
        .expect("make program builds the bench program");
    let (mut to, input) = (child.stdin.take().expect("piped"), input.to_vec());
    // A program that refuses a long input may close its end before all of it is written.
    let writer = std::thread::spawn(move || drop(to.write_all(&input)));
    let output = child.wait_with_output().expect("it ends");
    writer.join().expect("the input is handed over");
    assert!(output.status.success(), "{}", output.status);
    String::from_utf8(output.stdout).expect("digits, tabs and line ends")
}

/// What both programs print.
fn agreed(input: &[u8]) -> String {
    let (ours, theirs) = (proved(input), program::output(input));
    assert!(ours == theirs, "input {:?}:\n{ours}instead of\n{theirs}", String::from_utf8_lossy(input));
    ours
}

#[test]
fn example() {
    trial::program::example(&agreed);
}

#[test]
fn malformed_lines() {
    trial::program::malformed_lines(&agreed);
}

#[test]
fn input_bounds() {
    trial::program::input_bounds(&agreed);
}

/// Puts in random order until 4 blocks hold 14 entries each, and a list of all of them with long numbers.
#[test]
fn list_of_56_entries() {
    let mut random = Settings::of("list_of_56_entries").random(0);
    let puts: String = (0..1200).map(|_| format!("put\t{}\t{}\n", random.word(), random.word())).collect();
    let output = agreed(format!("{puts}list\n").as_bytes());
    assert_eq!(output.lines().count(), 1200 + 56);
    assert_eq!(output.lines().filter(|line| line.starts_with("6\t")).count(), 1200 - 56);
}

fn any_line(random: &mut Random) -> String {
    let (key, value) = (random.below(80), random.word() >> random.below(64));
    match random.below(12) {
        0..5 => format!("put\t{key}\t{value}\n"),
        5..8 => format!("del\t{key}\n"),
        8 => format!("set\t{key}\t{value}\n"),
        9 => format!("get\t{key}\n"),
        10 => "list\n".to_string(),
        _ => format!("put\t{}\t{value}\n", random.pick(&[0, u64::MAX])),
    }
}

/// Long runs over few keys, some with a byte spoiled here and there.
#[test]
fn random_inputs() {
    let settings = Settings::of("random_inputs");
    for part in 0..settings.times(60) {
        let mut random = settings.random(part);
        let mut input: Vec<u8> = (0..600).flat_map(|_| any_line(&mut random).into_bytes()).collect();
        for _ in 0..part % 4 * 20 {
            let at = random.index(input.len());
            input[at] = random.below(256) as u8;
        }
        agreed(&input);
    }
}
