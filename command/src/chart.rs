//! `fuavelino kernel`: a kernel of the library's chart.

use crate::format::{Chroma, Format};
use crate::output::Output;
use crate::stop::{Fault, Stop};
use fuavelino::{Kernel, Refusal};

/// Prints the taps of the kernel for planes of this height.
pub fn write(height: usize) -> Result<(), Stop> {
    let kernel = Kernel::charted(height).map_err(|refusal| unlisted(height, refusal))?;
    let mut out = Output::standard()?;
    out.write(|to| writeln!(to, "{}", joined(kernel.taps(), " ")))?;
    out.close()
}

/// The refusal, and which heights there are.
fn unlisted(height: usize, refusal: Refusal) -> Fault {
    let refused = Fault::refused(&format!("height {}", height), refusal);
    let heights: Vec<usize> = heights().filter(|height| Kernel::charted(*height).is_ok()).collect();
    Fault { message: format!("{}; it has {}", refused.message, joined(&heights, ", ")), ..refused }
}

/// The heights that a plane can have, by the library's own limit.
fn heights() -> impl Iterator<Item = usize> {
    let taken = |height: &usize| Format { width: 1, height: *height, depth: 8, chroma: Chroma::Cs400 }.judge().is_ok();
    (1..).take_while(taken)
}

fn joined<T: ToString>(list: &[T], between: &str) -> String {
    list.iter().map(T::to_string).collect::<Vec<String>>().join(between)
}
