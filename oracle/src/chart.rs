//! Writes the chart of kernels as source of the crate `kernel_chart`, by a run of the published Rust: chart specs|code

mod heights;

use heights::{kernel, HEIGHTS};
use std::process::exit;

/// The most taps that a line of a definition has.
const ON_A_LINE: usize = 40;

fn main() {
    match std::env::args().nth(1).as_deref() {
        Some("specs") => specs(),
        Some("code") => code(),
        _ => {
            eprintln!("usage: chart specs|code");
            exit(2)
        }
    }
}

/// The rows as a definition.
fn specs() {
    println!(
        "-- SCOPE, \"The chart of kernels\": its rows, each a height and the taps of its kernel. \
         A run of the Rust printed them; tools/chart writes this file. Definitions only."
    );
    println!("use Rattle.std.specs.Prelude.{{List, [], ◌∷◌, ℕ}}\n");
    println!("-- a height beside its kernel's taps");
    println!("abbrev pub Row : Type 0");
    println!("Row = ℕ × List ℕ\n");
    println!("-- in the order of the heights");
    println!("unfoldable pub chart : List Row");
    println!("chart =");
    println!("    {}", HEIGHTS.map(row).join("\n    ∷ "));
    println!("    ∷ []");
}

/// Many taps are broken after the middle one: rt fmt breaks no line that is too long.
fn row(height: usize) -> String {
    let taps = words(&kernel(height));
    if taps.len() <= ON_A_LINE {
        return format!("({}, {} ∷ [])", height, taps.join(" ∷ "));
    }
    let [left, right] = [&taps[..=taps.len() / 2], &taps[taps.len() / 2 + 1..]].map(|half| half.join(" ∷ "));
    format!("(\n      {},\n      {}\n          ∷ {} ∷ [],\n    )", height, left, right)
}

/// The rows as the code has them.
fn code() {
    println!(
        "// SCOPE, \"The chart of kernels\": its rows. \
         A run of the Rust printed the numbers; tools/chart writes this file."
    );
    println!("\n// A height beside its kernel's taps.");
    println!("pub struct Row {{\n    pub height: usize,\n    pub taps: &'static [u16],\n}}");
    println!("\n// In the order of the heights.");
    println!("pub const ROWS: [Row; {}] = [", HEIGHTS.len());
    for height in HEIGHTS {
        println!(
            "    Row {{\n        height: {},\n        taps: &[{}],\n    }},",
            height,
            words(&kernel(height)).join(", ")
        );
    }
    println!("];");
}

fn words<T: ToString>(numbers: &[T]) -> Vec<String> {
    numbers.iter().map(T::to_string).collect()
}
