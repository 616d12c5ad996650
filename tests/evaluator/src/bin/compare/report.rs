//! Printing a case that differs.

use crate::case::{Case, Outcome};

/// Differing bytes that are printed for a buffer.
const BYTES_SHOWN: usize = 32;

pub fn print(case: &Case, expected: &Outcome, got: &Outcome) {
    println!("call {}", case.call.name());
    for (kind, file) in case.call.files().iter().zip(&case.files) {
        println!("  {kind:?}, {} bytes: {}", file.len(), hex(file));
    }
    for (name, bytes) in case.call.buffers().iter().zip(&case.lent) {
        println!("  {name} before, {} bytes: {}", bytes.len(), hex(bytes));
    }
    println!("  number: expected {}, got {}", expected.number, got.number);
    println!("  count: expected {}, got {}", expected.count, got.count);
    for (step, (expected, got)) in expected
        .announced
        .iter()
        .zip(got.announced.iter())
        .enumerate()
    {
        for (kind, (expected, got)) in expected.iter().zip(got).enumerate() {
            if expected != got {
                println!("  step {step}, from kind {kind}: expected {expected:05x}, got {got:05x}");
            }
        }
    }
    let buffers = expected.lent.iter().zip(&got.lent);
    for (name, (expected, got)) in case.call.buffers().iter().zip(buffers) {
        print_buffer(name, expected, got);
    }
    if got.strayed {
        println!("  bytes beside a lent buffer were changed");
    }
}

fn print_buffer(name: &str, expected: &[u8], got: &[u8]) {
    let differing: Vec<usize> = (0..expected.len())
        .filter(|&at| expected[at] != got[at])
        .collect();
    println!("  {name} after: {} bytes differ", differing.len());
    for &at in differing.iter().take(BYTES_SHOWN) {
        println!(
            "    byte {at}: expected {:02x}, got {:02x}",
            expected[at], got[at]
        );
    }
}

fn hex(bytes: &[u8]) -> String {
    match bytes {
        [first, rest @ ..] if rest.len() > 16 && rest.iter().all(|byte| byte == first) => {
            format!("all {first:02x}")
        }
        _ => bytes.iter().map(|byte| format!("{byte:02x} ")).collect(),
    }
}
