//! What the processor says of itself: name, model, clock and caches.

use std::fs;
use std::path::Path;

/// The value of a field in the text of /proc/cpuinfo.
fn field<'a>(text: &'a str, name: &str) -> Option<&'a str> {
    text.lines()
        .filter_map(|line| line.split_once(':'))
        .find(|(found, _)| found.trim() == name)
        .map(|(_, value)| value.trim())
}

/// One line of a file.
fn line(file: &Path) -> Option<String> {
    let text = fs::read_to_string(file).ok()?;
    Some(text.trim().to_string())
}

/// The highest clock where the system tells it, else the one it runs at.
fn clock(text: &str) -> Option<String> {
    let highest = Path::new("/sys/devices/system/cpu/cpu0/cpufreq/cpuinfo_max_freq");
    let highest = line(highest).and_then(|kilohertz| kilohertz.parse::<f64>().ok());
    if let Some(kilohertz) = highest {
        return Some(format!("at most {:.2} GHz", kilohertz / 1e6));
    }
    let megahertz: f64 = field(text, "cpu MHz")?.parse().ok()?;
    Some(format!("{:.2} GHz", megahertz / 1e3))
}

/// A cache as `L1 data 48 KB`.
fn cache(place: &Path) -> Option<String> {
    let level = line(&place.join("level"))?;
    let kilobytes = line(&place.join("size"))?;
    let kilobytes: u64 = kilobytes.strip_suffix('K')?.parse().ok()?;
    let size = match kilobytes % 1024 {
        0 => format!("{} MB", kilobytes / 1024),
        _ => format!("{kilobytes} KB"),
    };
    let kind = match line(&place.join("type"))?.as_str() {
        "Data" => " data",
        "Instruction" => " code",
        _ => "",
    };
    Some(format!("L{level}{kind} {size}"))
}

fn caches() -> Vec<String> {
    let all = Path::new("/sys/devices/system/cpu/cpu0/cache");
    (0..8)
        .filter_map(|place| cache(&all.join(format!("index{place}"))))
        .collect()
}

pub fn processor() -> String {
    let text = fs::read_to_string("/proc/cpuinfo").unwrap_or_default();
    let said = |name| field(&text, name).unwrap_or("not told");
    let mut words = vec![
        said("model name").to_string(),
        format!(
            "{} family {} model {} stepping {}",
            said("vendor_id"),
            said("cpu family"),
            said("model"),
            said("stepping")
        ),
    ];
    words.extend(clock(&text));
    words.extend(caches());
    let guest = said("flags").split(' ').any(|flag| flag == "hypervisor");
    if guest {
        words.push("in a virtual machine".to_string());
    }
    words.join(", ")
}
