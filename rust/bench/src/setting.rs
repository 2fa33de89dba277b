//! What is measured with what: compilers, processor and clock.
use crate::archive;
use crate::timing::ROUNDS;
use std::fs;
use std::process::Command;

/// The list, a line for each.
pub fn all() -> String {
    let (kit, compiler, baseline, processor) = (kit(), env!("BENCH_COMPILER"), baseline(), processor());
    format!(
        "- The library: compiled by the kit, {kit}.\n\
         - The reference, the crate `mealplan` and the benchmark: `{compiler}`, release profile.\n\
         - The baseline: {baseline}.\n\
         - The processor: {processor}.\n\
         - The time: Rust's `Instant`, read before and after a round of calls, by the number of calls in it; the cursor is \
         set before. Library and reference, or library and baseline, take rounds by turns; a figure is the best of {ROUNDS} rounds each, where \
         nothing else is said.\n"
    )
}

/// What `rt version` says of the kit that is installed.
fn kit() -> String {
    let output = Command::new("rt").arg("version").output().ok().filter(|output| output.status.success());
    output.map_or("which is not installed here".to_string(), |output| {
        format!("`{}` (`rt version`)", String::from_utf8_lossy(&output.stdout).trim())
    })
}

/// The baseline's name, and the compilers that its objects name.
fn baseline() -> String {
    let Some(baseline) = archive::baseline() else { return "none was given".to_string() };
    let compilers = archive::COMPILERS.filter(|compilers| !compilers.is_empty());
    let compilers = compilers.map_or(String::new(), |compilers| format!(" (compiler named in it: `{compilers}`)"));
    format!("{}{compilers}", baseline.name())
}

/// The processor's name, where the system tells it.
fn processor() -> String {
    let told = fs::read_to_string("/proc/cpuinfo").unwrap_or_default();
    let name = told.lines().find_map(|line| line.strip_prefix("model name")?.split_once(": "));
    name.map_or("unknown".to_string(), |(_, name)| name.to_string())
}
