// Writes the list of keys for crates/inty_keys and the answer of Rust's standard library to each.
//
//     rustc -O -o target/keys vectors/keys.rs && target/keys crates/inty_keys/stdin crates/inty_keys/stdout
//
// The answer is that of keyrange.rs: `key.trim_start_matches(['k', 'K']).parse::<u128>()`, in decimal, or `-` where it is an error.
// Bytes that are not UTF-8 have no Rust string: `-`, since any other byte string does not read.
// A line of more than 1,024 bytes, which the program does not keep, is answered `-` too.
use std::io::Write;

fn answer(key: &[u8]) -> String {
    if key.len() > 1024 {
        return "-".to_string();
    }
    match std::str::from_utf8(key) {
        Ok(s) => match s.trim_start_matches(['k', 'K']).parse::<u128>() {
            Ok(n) => n.to_string(),
            Err(_) => "-".to_string(),
        },
        Err(_) => "-".to_string(),
    }
}

// Every string of up to n bytes over the alphabet, shorter ones first.
fn all(alphabet: &[u8], n: usize, keys: &mut Vec<Vec<u8>>) {
    let mut last: Vec<Vec<u8>> = vec![vec![]];
    for _ in 0..n {
        keys.extend(last.iter().cloned());
        last = last
            .iter()
            .flat_map(|s| alphabet.iter().map(move |c| [s.as_slice(), &[*c]].concat()))
            .collect();
    }
    keys.extend(last);
}

fn main() {
    let mut keys: Vec<Vec<u8>> = vec![];
    all(b"kK+-019 ", 5, &mut keys);

    // one less, equal and one more than 2^64, 2^128 and what a word of ten times and a digit can hold; tens and one less; after each prefix
    let mut numbers: Vec<String> = [
        "18446744073709551615", "18446744073709551616", "18446744073709551617",
        "18446744073709551599", "18446744073709551600", "18446744073709551609", "18446744073709551610", "18446744073709551619",
        "340282366920938463463374607431768211454", "340282366920938463463374607431768211455",
        "340282366920938463463374607431768211456", "340282366920938463463374607431768211457",
        "340282366920938463463374607431768211460", "340282366920938463463374607431768211465",
        "340282366920938463463374607431768211399", "340282366920938463463374607431768212000",
        "340282366920938463444927863358058659840", "340282366920938463444927863358058659839",
        "3402823669209384634633746074317682114550", "999999999999999999999999999999999999999",
        "34028236692093846346337460743176821145", "34028236692093846346337460743176821146",
    ].iter().map(|s| s.to_string()).collect();
    let mut ten = "1".to_string();
    for _ in 0..40 {
        numbers.push(ten.clone());
        numbers.push("9".repeat(ten.len()));
        ten.push('0');
    }
    for b in 0..128 {
        numbers.push((1u128 << b).to_string());
    }
    for n in &numbers {
        for p in ["", "k", "K", "kK", "k+", "+", "-", "k ", "+k", "++"] {
            keys.push(format!("{p}{n}").into_bytes());
        }
    }
    // leading zeros and prefixes up to 48 bytes, and one of 49
    for n in &numbers[..22] {
        for len in [41, 47, 48, 49] {
            keys.push(format!("{n:0>len$}").into_bytes());
            for p in ["k", "K", "kK", "k+"] {
                keys.push(format!("{p}{:0>1$}", n, len - p.len()).into_bytes());
            }
            keys.push(format!("{n:k>len$}").into_bytes());
        }
    }

    // P1 to P7 of document 01
    for s in ["", "kK007", "k+7", "+k7", "k-0", "340282366920938463463374607431768211455", "340282366920938463463374607431768211456"] {
        keys.push(s.as_bytes().to_vec());
    }

    // each byte alone, before, after and between digits, and after a prefix; a newline ends a line and is left out
    for c in (0..=255u8).filter(|c| *c != b'\n') {
        for (a, z) in [("", ""), ("", "1"), ("1", ""), ("1", "2"), ("k", "1"), ("k+", "1"), ("k1", "")] {
            keys.push([a.as_bytes(), &[c], z.as_bytes()].concat());
        }
    }
    // digits that are not ASCII, signs and spaces beyond ASCII, a broken sequence
    for s in ["٣", "１", "k١٢", "²", "1²", "−1", "＋1", "\u{a0}1", "1\u{2003}", "k\u{feff}1", "é", "k1é", "K\u{212a}1", "1_000", "0x10", "1e3", "1.0", "١1"] {
        keys.push(s.as_bytes().to_vec());
    }
    for s in [&b"\xc3"[..], b"\xc3k1", b"1\x80", b"k\xff1", b"\xf0\x9f\x98", b"k1\r", b"\tk1", b"k\t1", b"k1\t", b"k1\0", b"\0"] {
        keys.push(s.to_vec());
    }
    // the program's own limit
    for (len, last) in [(1023, "7"), (1024, "7"), (1025, "7"), (3000, "7"), (1024, "x")] {
        keys.push([&vec![b'k'; len - 1][..], last.as_bytes()].concat());
        keys.push([&vec![b'0'; len - 1][..], last.as_bytes()].concat());
    }
    // a line that is longer than a piece of 64 KB, and a key after it
    keys.push([&vec![b'0'; 70000][..], b"7"].concat());
    keys.push(b"k1204".to_vec());
    // the last line has no newline
    keys.push(b"k42".to_vec());

    let args: Vec<String> = std::env::args().collect();
    let mut list = std::fs::File::create(&args[1]).unwrap();
    let mut answers = std::fs::File::create(&args[2]).unwrap();
    list.write_all(&keys.join(&b'\n')).unwrap();
    let lines: Vec<String> = keys.iter().map(|k| answer(k) + "\n").collect();
    answers.write_all(lines.concat().as_bytes()).unwrap();
    println!("{} keys", keys.len());
}
