//! Times the proved library beside the Rust that it rewrites, both compiled for release, in one run, on the same inputs and
//! with the answers held against each other. Prints the table of docs/PERFORMANCE.md.
//!
//! `bench [PART...]`: scripts, networks, clusters or whole; all of them without an argument. `bench --plots FOLDER` writes the plots of
//! growth instead.

mod clusters;
mod networks;
mod plots;
mod scripts;
mod timing;
mod whole;

use std::env;
use std::panic;
use std::path::Path;

fn main() {
    panic::set_hook(Box::new(|info| {
        // Nights that pass a limit are left by a panic that is no fault.
        if info.payload().is::<&str>() || info.payload().is::<String>() {
            eprintln!("{info}");
        }
    }));
    let parts: Vec<String> = env::args().skip(1).collect();
    if let [option, folder] = &parts[..] {
        if option == "--plots" {
            let written = plots::write(Path::new(folder)).expect("the plots can be written");
            println!("{}", written.join("\n"));
            return;
        }
    }
    let asked = |part: &str| parts.is_empty() || parts.iter().any(|asked| asked == part);
    println!("{}", timing::HEADING);
    for (part, rows) in [
        ("scripts", scripts::rows as fn() -> Vec<timing::Row>),
        ("networks", networks::rows),
        ("clusters", clusters::rows),
    ] {
        if asked(part) {
            rows().iter().for_each(|row| println!("{row}"));
        }
    }
    if asked("whole") {
        let (rows, told) = whole::rows();
        rows.iter().for_each(|row| println!("{row}"));
        println!("\n{told}");
    }
    println!(
        "\nThe timer takes {:.0} ns, which is taken off.",
        timing::timer_cost()
    );
}
