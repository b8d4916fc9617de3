//! Times each call of the proved library beside the same call of an older one, whose tables are of literals, and prints a table.
//!
//! The older library is named to the build, as a static library: see build.rs. `against tree settle` times just these calls.

#[cfg(old_library)]
mod calls;
#[cfg(old_library)]
mod old;

#[cfg(old_library)]
fn main() {
    calls::print();
}

#[cfg(not(old_library))]
fn main() -> std::process::ExitCode {
    eprintln!(
        "against: there is no older library: build with OLD_LIBRARY=.../libreducer.a, its tables being of literals"
    );
    std::process::ExitCode::from(2)
}
