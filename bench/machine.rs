//! The machine and the compilers that the figures belong to.
use crate::calls::Flusher;
use std::fs;

/// A field of the first processor in /proc/cpuinfo.
fn processor(field: &str) -> String {
    let info = fs::read_to_string("/proc/cpuinfo").unwrap_or_default();
    let line = info.lines().find(|l| l.split(':').next().map(str::trim) == Some(field));
    line.and_then(|l| l.split_once(':')).map_or("unknown".to_string(), |(_, value)| value.trim().to_string())
}

fn cache(index: usize) -> String {
    let read = |what: &str| fs::read_to_string(format!("/sys/devices/system/cpu/cpu0/cache/index{index}/{what}")).unwrap_or_default().trim().to_string();
    format!("L{} {} {}", read("level"), read("type").to_lowercase(), read("size"))
}

/// bench/run hands the compilers' versions over when it builds.
pub fn lines() -> Vec<String> {
    let caches: Vec<String> = (0..4).map(cache).filter(|c| !c.starts_with("L ")).collect();
    let hypervisor = if processor("flags").split(' ').any(|f| f == "hypervisor") { ", a virtual machine" } else { "" };
    let kernel = fs::read_to_string("/proc/sys/kernel/osrelease").unwrap_or_default();
    let load = fs::read_to_string("/proc/loadavg").unwrap_or_default();
    let cores = std::thread::available_parallelism().map_or(0, |n| n.get());
    let part = |field| format!("{field} {}", processor(field));
    vec![
        format!("Processor: {} ({}, {}, {}, {} MHz{hypervisor})", processor("model name"), part("cpu family"), part("model"), part("stepping"), processor("cpu MHz")),
        format!("Caches: {}", caches.join(", ")),
        format!("Kernel: Linux {}; lines written back with {}", kernel.trim(), Flusher::best().name()),
        format!("Processors: {cores}; load in the minute before the end: {}, of which the benchmark is 1", load.split(' ').next().unwrap_or("unknown")),
        format!("Compilers: {}; {}; {}", env!("BENCH_GCC"), env!("BENCH_GXX"), env!("BENCH_RUSTC")),
    ]
}
