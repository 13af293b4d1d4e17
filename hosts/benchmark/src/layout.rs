//! Where things lie in the program. The same code is up to a tenth faster or slower by where the linker puts it, so this program is built
//! in several layouts and each of them is measured. BENCHMARK_LAYOUT chooses one (build.rs).

include!(concat!(env!("OUT_DIR"), "/made.rs"));

/// Which layout this program has.
pub const NUMBER: &str = env!("BENCHMARK_LAYOUT");

/// Moves what the linker puts behind it: where functions are sorted by name, all of them.
#[link_section = ".text.0padding"]
static BEFORE: [u8; PADDING] = [0; PADDING];

/// How the layout is made, and where things lie in their pages. The padding's address keeps it in the program.
pub fn described() -> String {
    let in_page = |address: *const ()| address as usize % 4096;
    let padding = in_page(BEFORE.as_ptr().cast());
    let order = if SORTED { "sorted by name" } else { "as they come" };
    let ours = in_page(qhobuziya::raw::qhobuziya_run as *const ());
    let rust = in_page(reference::run as *const ());
    format!(
        "{} bytes of padding at {:#05x} of their page, functions {}; our run at {:#05x}, the Rust interpreter's at {:#05x}",
        PADDING, padding, order, ours, rust
    )
}
