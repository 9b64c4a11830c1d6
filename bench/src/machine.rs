//! The kind of the processor, which a ratio is worth nothing without.

use std::fs;

/// As `aarch64 Neoverse-N1`, or `x86-64` and the model's name.
pub fn kind() -> String {
    let told = fs::read_to_string("/proc/cpuinfo").unwrap_or_default();
    let model = match value(&told, "model name") {
        Some(name) => name.to_string(),
        None => arm_core(value(&told, "CPU implementer"), value(&told, "CPU part")),
    };
    format!("{} {model}", std::env::consts::ARCH.replace('_', "-"))
}

fn value<'a>(told: &'a str, key: &str) -> Option<&'a str> {
    let mut pairs = told.lines().filter_map(|line| line.split_once(':'));
    pairs.find(|(k, _)| k.trim() == key).map(|(_, v)| v.trim())
}

/// An Arm processor tells its maker and part by number.
fn arm_core(maker: Option<&str>, part: Option<&str>) -> String {
    let name = match (maker.unwrap_or("unknown"), part.unwrap_or("unknown")) {
        ("0x41", "0xd03") => "Cortex-A53",
        ("0x41", "0xd07") => "Cortex-A57",
        ("0x41", "0xd08") => "Cortex-A72",
        ("0x41", "0xd0b") => "Cortex-A76",
        ("0x41", "0xd0c") => "Neoverse-N1",
        ("0x41", "0xd40") => "Neoverse-V1",
        ("0x41", "0xd49") => "Neoverse-N2",
        ("0x41", "0xd4f") => "Neoverse-V2",
        ("0x41", "0xd83") => "Neoverse-V3AE",
        ("0x41", "0xd84") => "Neoverse-V3",
        ("0x41", "0xd8e") => "Neoverse-N3",
        (maker, part) => return format!("maker {maker} part {part}"),
    };
    name.to_string()
}
