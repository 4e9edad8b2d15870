//! All trials on the reference and the proved library, compared call by call; the binding's results; the library from C.
use std::path::{Path, PathBuf};
use std::process::{Command, Output};
use stringhut::board::{self, Board};
use stringhut::reference::Reference;
use stringhut::trial::both::Both;
use stringhut::{Counts, LIST_WORDS, LineWrites, Refusal, Tree, WordWrites};

stringhut::trials!(Both::new(Reference, Board));

/// The binding's own results: document 01's numbers as an enum, counts as told.
#[test]
fn results_of_the_binding() {
    let mut image = [0; 4 * 256];
    let mut list = [0; LIST_WORDS];
    let (mut keys, mut values) = ([0; 4], [0; 4]);
    let counts = Counts { steps: 5, line_writes: LineWrites(1), word_writes: WordWrites(3) };
    assert_eq!(board::put(&image, &mut list, 10, 100), Ok(counts));
    assert_eq!(board::run(&mut image, &list, 5), Ok(()));
    assert_eq!(board::put(&image, &mut list, 10, 7), Err(Refusal::KeyPresent));
    assert_eq!(board::find(&image, 10), Ok(100));
    assert_eq!(board::find(&image, 11), Err(Refusal::KeyAbsent));
    assert_eq!(board::listing(&image, 0, &mut keys, &mut values), Ok(1));
    assert_eq!(board::recovery(&image, &mut keys, &mut values), Ok(Tree { leaves: 1, entries: 1 }));
    assert_eq!(board::recovery(&image, &mut keys, &mut values[..3]), Err(Refusal::BufferRoom));
    assert_eq!(board::set(&image, &mut list[..111], 10, 1), Err(Refusal::ListRoom));
    assert_eq!(board::run(&mut image, &list, 57), Err(Refusal::BadSteps));
    assert_eq!(board::cut(&mut image, &list, 0, &[]), Err(Refusal::BadArrivals));
    image[1] |= 1 << 6;
    assert_eq!(board::del(&image, &mut list, 10), Err(Refusal::NotSound));
    assert_eq!(board::find(&image[..255], 10), Err(Refusal::ImageLength));
}

/// Compiles a C file against the header and the library, with warnings as errors, and runs it. The program is this process's own:
/// runs with other seeds may go on beside it.
fn compile_and_run(source: &str, program: &str) -> Output {
    let package = Path::new(env!("CARGO_MANIFEST_DIR"));
    let library = std::env::var_os("STRINGHUT_LIBRARY_DIR").map_or(package.join("../target/staticlib"), PathBuf::from);
    let program = Path::new(env!("CARGO_TARGET_TMPDIR")).join(format!("{program}-{}", std::process::id()));
    let mut compiler = Command::new("cc");
    compiler.args(["-std=c11", "-Wall", "-Wextra", "-Werror", "-I"]).arg(package.join("../include"));
    compiler.arg(package.join(source)).arg(library.join("libboard.a")).arg("-o").arg(&program);
    let compiled = compiler.output().expect("a C compiler");
    assert!(compiled.status.success(), "{}", String::from_utf8_lossy(&compiled.stderr));
    let output = Command::new(&program).output().expect("the program starts");
    std::fs::remove_file(program).expect("the program is there");
    output
}

#[test]
fn c_example() {
    let output = compile_and_run("../examples/link.c", "link");
    assert!(output.status.success(), "{}", String::from_utf8_lossy(&output.stderr));
    let printed = String::from_utf8_lossy(&output.stdout);
    assert!(printed.ends_with("after the cut: 1 leaf, 1 entry\n10 100\n20 200\n"), "{printed}");
}

#[test]
fn c_edges() {
    let output = compile_and_run("tests/c/edges.c", "edges");
    assert!(output.status.success(), "line {:?} of edges.c", output.status.code());
}

/// The header's HUT_STACK_BYTES holds: each call on a painted stack, over images filled, split, thinned out and damaged.
#[test]
fn c_stack() {
    let output = compile_and_run("tests/c/stack.c", "stack");
    assert!(output.status.success(), "{}", String::from_utf8_lossy(&output.stdout));
}
