//! The machine: its description for the report, and the core that the run stays on.

extern "C" {
    fn sched_getcpu() -> i32;
    fn sched_setaffinity(process: i32, size: usize, mask: *const u64) -> i32;
}

/// Stays on the core that it is on, so that no move to another is timed. Where that is refused, it runs all the same.
pub fn pin() {
    // SAFETY: the first takes nothing, the second reads as many bytes as it is told.
    unsafe {
        let core = sched_getcpu().max(0) as usize;
        let mut mask = [0u64; 16];
        mask[core / 64 % 16] = 1 << (core % 64);
        sched_setaffinity(0, std::mem::size_of_val(&mask), mask.as_ptr());
    }
}

/// The processor's model, as the kernel names it.
pub fn processor() -> String {
    let told = std::fs::read_to_string("/proc/cpuinfo").unwrap_or_default();
    let model = told.lines().find(|line| line.starts_with("model name")).and_then(|line| line.split(": ").nth(1));
    model.unwrap_or("an unnamed processor").to_string()
}

pub fn cores() -> usize {
    let told = std::fs::read_to_string("/proc/cpuinfo").unwrap_or_default();
    told.lines().filter(|line| line.starts_with("processor")).count()
}

pub fn compiler() -> &'static str {
    env!("BENCH_RUSTC")
}
