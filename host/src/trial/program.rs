//! Document 01's bench program, as a function from its whole input to its whole output: the example, what is malformed, and
//! the bounds of the input.

/// The whole output for this input.
pub type Program<'a> = &'a dyn Fn(&[u8]) -> String;

const MALFORMED: &str = "9\t0\t0\t0\n";
const MOST_INPUT: usize = 65_536;

/// Document 01's example, spaces for its tabs.
const EXAMPLE_INPUT: &str = "put 10 100\nput 10 7\nget 10\ndel 11\nset 10 101\nlist\ndel 10\nlist\npot 1";
const EXAMPLE_OUTPUT: &str = "0 5 1 3\n4 0 0 0\n0 100\n5 0 0 0\n0 3 1 1\n10 101\n0 3 1 1\n9 0 0 0\n";

/// "Anything else, an empty line or a number above 2^64 - 1 included, is malformed."
const MALFORMED_LINES: [&[u8]; 33] = [
    b"",
    b" ",
    b"\t",
    b"put",
    b"put\t1",
    b"put\t1\t",
    b"put\t\t1",
    b"put\t1\t2\t",
    b"put\t1\t2\t3",
    b"put\t01\t2",
    b"put\t+1\t2",
    b"put\t1\t18446744073709551616",
    b"get\t99999999999999999999",
    b"get\t100000000000000000000",
    b"list\t",
    b"lis",
    b"listt",
    b"list\t0",
    b"del",
    b"del\t",
    b"del\t1\r",
    b"get\t1\r",
    b"\tget\t1",
    b"PUT\t1\t1",
    b"get\t 1",
    b"get\t1 ",
    b"get\t-0",
    b"get\t00",
    b"set\t1",
    b"put 1 2",
    b"get\t1\0",
    b"ge\0\t1",
    b"\xff\xfe",
];

pub fn example(program: Program) {
    let output = program(EXAMPLE_INPUT.replace(' ', "\t").as_bytes());
    assert_eq!(output, EXAMPLE_OUTPUT.replace(' ', "\t"), "document 01's example");
}

/// Each malformed line alone, and among others: it changes nothing, and the next is read.
pub fn malformed_lines(program: Program) {
    for line in MALFORMED_LINES {
        let shown = line.escape_ascii();
        assert_eq!(program(&[line, b"\n"].concat()), MALFORMED, "'{shown}' alone");
        let among = [b"put\t1\t2\n", line, b"\nget\t1\nlist\n"].concat();
        assert_eq!(program(&among), format!("0\t5\t1\t3\n{MALFORMED}0\t2\n1\t2\n"), "'{shown}' among others");
    }
}

/// Empty, without a last line end, the largest numbers, and as many bytes as are read and one more.
pub fn input_bounds(program: Program) {
    assert_eq!(program(b""), "");
    assert_eq!(program(b"\n"), MALFORMED);
    assert_eq!(program(b"get\t0"), "5\t0\n", "no last line end");
    assert_eq!(program(b"put\t18446744073709551615\t18446744073709551615"), "0\t5\t1\t3\n");
    assert_eq!(program(&[b'\n'; MOST_INPUT]), MALFORMED.repeat(MOST_INPUT));
    assert_eq!(program(&[b'\n'; MOST_INPUT + 1]), MALFORMED, "one byte too many");
    assert_eq!(program(&[b'0'; MOST_INPUT]), MALFORMED);
}
