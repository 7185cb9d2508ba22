//! How much memory there is for studies.

use std::fs;
use std::path::{Path, PathBuf};

/// What a thread takes of a limited address space beside its study: its stack, and what the system's allocator sets aside for it.
const THREAD: u64 = 80 << 20;

/// What a program may still take here, in bytes.
#[derive(Debug, Clone, Copy, PartialEq, Eq)]
pub struct Room {
    /// Of memory: what the system has to give, or what a control group leaves.
    pub memory: u64,
    /// Of addresses, as `ulimit -v` sets it.
    pub addresses: u64,
}

impl Room {
    /// As far as the system tells; what it does not tell has no limit.
    pub fn here() -> Self {
        let read = |path: &str| fs::read_to_string(path).unwrap_or_default();
        let free = in_kilobytes(&read("/proc/meminfo"), "MemAvailable:").unwrap_or(u64::MAX);
        let used = in_kilobytes(&read("/proc/self/status"), "VmSize:").unwrap_or(0);
        let groups = groups(&read("/proc/self/cgroup")).into_iter().filter_map(|folder| left_in(&folder));
        Self {
            memory: groups.fold(free, u64::min),
            addresses: most_addresses(&read("/proc/self/limits")).map_or(u64::MAX, |most| most.saturating_sub(used)),
        }
    }

    /// How many of the studies asked for fit at a time, a tenth of the memory left alone; none where not one does.
    pub fn fits(&self, asked: usize, each: u64) -> usize {
        let by_memory = (self.memory / 10).saturating_mul(9) / each.max(1);
        let by_addresses = self.addresses / each.saturating_add(THREAD);
        by_memory.min(by_addresses).min(asked as u64) as usize
    }

    /// Whether there is room for one at all.
    pub fn holds(&self, each: u64) -> bool {
        each <= self.memory && each.saturating_add(THREAD) <= self.addresses
    }

    /// What there is, at the most.
    pub fn least(&self) -> u64 {
        self.memory.min(self.addresses)
    }
}

/// A line of a file below /proc, as `MemAvailable:   12345 kB`, in bytes.
fn in_kilobytes(text: &str, name: &str) -> Option<u64> {
    let rest = text.lines().find_map(|line| line.strip_prefix(name))?;
    rest.trim().strip_suffix("kB")?.trim().parse::<u64>().ok()?.checked_mul(1024)
}

/// The soft limit of the line `Max address space`; none where it is `unlimited`.
fn most_addresses(limits: &str) -> Option<u64> {
    let rest = limits.lines().find_map(|line| line.strip_prefix("Max address space"))?;
    rest.split_whitespace().next()?.parse().ok()
}

/// The folders of the control groups that this program is in, by the lines of /proc/self/cgroup: of the newer kind `0::PATH`, of the older `N:memory:PATH`. What is
/// around a group limits it too.
fn groups(text: &str) -> Vec<PathBuf> {
    let folder = |line: &str| {
        let (_, rest) = line.split_once(':')?;
        let (kind, path) = rest.split_once(':')?;
        let top = match kind {
            "" => "/sys/fs/cgroup",
            kind if kind.split(',').any(|part| part == "memory") => "/sys/fs/cgroup/memory",
            _ => return None,
        };
        Some(around(Path::new(top), path))
    };
    text.lines().filter_map(folder).flatten().collect()
}

fn around(top: &Path, path: &str) -> Vec<PathBuf> {
    let parts: Vec<&str> = path.split('/').filter(|part| !part.is_empty()).collect();
    (0..=parts.len()).map(|count| parts.iter().take(count).fold(top.to_path_buf(), |folder, part| folder.join(part))).collect()
}

/// What a control group leaves: its limit less what is in use, files that can be dropped not counted.
fn left_in(folder: &Path) -> Option<u64> {
    let number = |names: [&str; 2]| {
        let read = |name: &str| fs::read_to_string(folder.join(name)).ok()?.trim().parse::<u64>().ok();
        names.into_iter().find_map(read)
    };
    let most = number(["memory.max", "memory.limit_in_bytes"])?;
    let used = number(["memory.current", "memory.usage_in_bytes"])?;
    let stat = fs::read_to_string(folder.join("memory.stat")).unwrap_or_default();
    let files = stat.lines().find_map(|line| line.strip_prefix("inactive_file ")?.trim().parse::<u64>().ok());
    Some(most.saturating_sub(used.saturating_sub(files.unwrap_or(0))))
}

/// Bytes for a reader, in units of a thousand.
pub fn in_bytes(bytes: u64) -> String {
    let units = [(1e9, "GB"), (1e6, "MB"), (1e3, "kB")];
    let (size, unit) = units.into_iter().find(|(size, _)| bytes as f64 >= *size).unwrap_or((1.0, "bytes"));
    let number = bytes as f64 / size;
    let places = if size == 1.0 || number >= 10.0 { 0 } else { 1 };
    format!("{number:.places$} {unit}")
}

#[cfg(test)]
mod tests {
    use super::*;

    #[test]
    fn no_more_than_fit() {
        let room = |memory, addresses| Room { memory, addresses };
        assert_eq!(room(1000, u64::MAX).fits(8, 100), 8);
        assert_eq!(room(1000, u64::MAX).fits(16, 100), 9);
        assert_eq!(room(1000, u64::MAX).fits(16, 1000), 0);
        assert_eq!(room(u64::MAX, u64::MAX).fits(16, 1 << 40), 16);
        assert_eq!(room(u64::MAX, 3 * (THREAD + 100)).fits(16, 100), 3);
        assert_eq!(room(0, 0).fits(16, 0), 0);
        assert_eq!(room(5, 7).least(), 5);
        assert!(room(1000, u64::MAX).holds(1000) && !room(999, u64::MAX).holds(1000) && !room(u64::MAX, THREAD).holds(1));
    }

    #[test]
    fn the_systems_files_are_understood() {
        let text = "MemTotal:       24684036 kB\nMemAvailable:    2000 kB\n";
        assert_eq!(in_kilobytes(text, "MemAvailable:"), Some(2_048_000));
        assert_eq!(in_kilobytes("MemAvailable: x kB\n", "MemAvailable:"), None);
        let limits =
            |most: &str| format!("Max cpu time   unlimited  unlimited  seconds\nMax address space   {most}   unlimited  bytes\n");
        assert_eq!((most_addresses(&limits("921600000")), most_addresses(&limits("unlimited"))), (Some(921_600_000), None));
        let folders = groups("5:cpu,memory:/job_7/step\n3:cpu:/x\n0::/a/b\n");
        let expected = ["memory", "memory/job_7", "memory/job_7/step", "", "a", "a/b"];
        assert_eq!(folders, expected.map(|name| Path::new("/sys/fs/cgroup").join(name)));
        assert_eq!(groups("nothing"), [PathBuf::new(); 0]);
    }

    #[test]
    fn bytes_are_for_a_reader() {
        let told = [999, 4321, 99_900, 2_500_000, 193_000_000, 24_000_000_000].map(in_bytes);
        assert_eq!(told, ["999 bytes", "4.3 kB", "100 kB", "2.5 MB", "193 MB", "24 GB"]);
    }

    #[test]
    fn a_group_leaves_what_it_does_not_use() {
        let place = tempfile::tempdir().unwrap();
        let put = |name: &str, text: &str| std::fs::write(place.path().join(name), text).unwrap();
        assert_eq!(left_in(place.path()), None);
        put("memory.max", "max\n");
        put("memory.current", "400\n");
        assert_eq!(left_in(place.path()), None);
        put("memory.max", "1000\n");
        assert_eq!(left_in(place.path()), Some(600));
        put("memory.stat", "anon 100\ninactive_file 150\n");
        assert_eq!(left_in(place.path()), Some(750));
        put("memory.current", "4000\n");
        assert_eq!(left_in(place.path()), Some(0));
    }
}
