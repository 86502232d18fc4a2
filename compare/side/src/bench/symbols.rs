//! Which function of this program an address is in, and what the system says of an address.
use std::fs;

/// The functions of the running program: address, length, name.
pub struct Symbols(Vec<(usize, usize, String)>);

const SYMBOL_TABLE: u64 = 2;
const FUNCTION: u64 = 2;
/// A program that lies at the addresses of its file.
const FIXED: usize = 2;

/// A little-endian number in an ELF file.
fn number(file: &[u8], at: usize, length: usize) -> Option<u64> {
    let bytes = file.get(at..at + length)?;
    Some(bytes.iter().rev().fold(0, |number, byte| number << 8 | *byte as u64))
}

fn text(file: &[u8], at: usize) -> Option<String> {
    let rest = file.get(at..)?;
    let end = rest.iter().position(|byte| *byte == 0)?;
    Some(String::from_utf8_lossy(&rest[..end]).into_owned())
}

impl Symbols {
    pub fn of_this_program() -> Option<Self> {
        // The file that runs, also where another one has its name by now.
        let (file, path) = (fs::read("/proc/self/exe").ok()?, fs::read_link("/proc/self/exe").ok()?);
        let word = |at: usize| number(&file, at, 8).map(|word| word as usize);
        let half = |at: usize| number(&file, at, 2).map(|half| half as usize);
        let base = if half(16)? == FIXED { 0 } else { first_address(path.to_str()?)? };
        let (sections, length, count) = (word(40)?, half(58)?, half(60)?);
        let section = |index: usize| sections + index * length;
        let table = (0..count).map(section).find(|at| number(&file, at + 4, 4) == Some(SYMBOL_TABLE))?;
        let names = word(section(number(&file, table + 40, 4)? as usize) + 24)?;
        let (start, end) = (word(table + 24)?, word(table + 24)? + word(table + 32)?);
        let symbol = |at: usize| {
            let function = number(&file, at + 4, 1)? & 15 == FUNCTION;
            let name = text(&file, names + number(&file, at, 4)? as usize)?;
            function.then_some((base + word(at + 8)?, word(at + 16)?, name))
        };
        let mut symbols: Vec<_> = (start..end).step_by(24).filter_map(symbol).collect();
        symbols.sort();
        Some(Symbols(symbols))
    }

    /// None for an address outside this program, as C's memset is.
    pub fn name_of(&self, address: usize) -> Option<&str> {
        let behind = self.0.partition_point(|symbol| symbol.0 <= address);
        let (start, length, name) = self.0.get(behind.checked_sub(1)?)?;
        (address < start + length).then_some(name)
    }
}

/// Where a file is mapped first.
fn first_address(file: &str) -> Option<usize> {
    let maps = fs::read_to_string("/proc/self/maps").ok()?;
    maps.lines().find(|line| line.ends_with(file)).and_then(range).map(|range| range.0)
}

/// The addresses at the start of a line of maps or smaps.
fn range(line: &str) -> Option<(usize, usize)> {
    let (from, to) = line.split(' ').next()?.split_once('-')?;
    Some((usize::from_str_radix(from, 16).ok()?, usize::from_str_radix(to, 16).ok()?))
}

/// The bytes of the mapping with that address, and those of them on huge pages.
pub fn on_huge_pages(address: usize) -> Option<(u64, u64)> {
    let smaps = fs::read_to_string("/proc/self/smaps").ok()?;
    let mut lines = smaps.lines();
    let (from, to) = lines.by_ref().filter_map(range).find(|(from, to)| (*from..*to).contains(&address))?;
    let kilobytes = lines.find_map(|line| line.strip_prefix("AnonHugePages:"))?.trim().strip_suffix(" kB")?;
    Some(((to - from) as u64, kilobytes.parse::<u64>().ok()? * 1024))
}
