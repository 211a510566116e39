//! Tries the structs of Rust on the rows of `rows/structs.tsv`, and says how many stood. What was
//! read is made anew from what it shows, and written, as it is and with the unknown fields of its
//! bytes: into room of just its size, and of a byte less.
mod report_sample;
mod station;
// (the same for each schema, whatever its library has)
#[allow(dead_code)]
mod structs;

use report_sample::ReportSample;
use station::{Samples, Station, StationLists, StationPower, Tags};
use std::process::ExitCode;
use structs::{Limits, NoRoom, NotWritten, Refusal, Text};

fn hex(bytes: &[u8]) -> String {
    if bytes.is_empty() {
        return "-".to_string();
    }
    bytes.iter().map(|byte| format!("{byte:02x}")).collect()
}

fn or_absent(value: Option<String>) -> String {
    value.unwrap_or_else(|| "absent".to_string())
}

fn say_sample(it: &ReportSample<'_>) -> String {
    format!(
        "name {}, value {:016x}, count {}",
        hex(it.name().as_bytes()),
        it.value().to_bits(),
        or_absent(it.count().map(|count| count.to_string())),
    )
}

fn say_power(power: Option<StationPower<'_>>) -> String {
    match power {
        Some(StationPower::Volts(volts)) => format!("8 {:08x}", volts.to_bits()),
        Some(StationPower::Grid(grid)) => format!("9 {}", hex(grid.as_bytes())),
        Some(StationPower::Backup(backup)) => format!("10 {{{}}}", say_sample(&backup)),
        None => "none".to_string(),
    }
}

fn say_station(it: &Station<'_>) -> String {
    format!(
        "name {}, level {}, height {}, note {}, last {}, key {}, staffed {}, power {}, tags {}, \
         samples {}",
        hex(it.name().as_bytes()),
        it.level(),
        or_absent(it.height().map(|height| height.to_string())),
        or_absent(it.note().map(|note| hex(note.as_bytes()))),
        or_absent(it.last().map(|last| format!("{{{}}}", say_sample(&last)))),
        hex(it.key()),
        u32::from(it.staffed()),
        say_power(it.power()),
        it.tags_count(),
        it.samples_count(),
    )
}

fn say_tags(bytes: &[u8]) -> String {
    let tags: Vec<String> = Tags::new(bytes).map(|tag| hex(tag.as_bytes())).collect();
    if tags.is_empty() { String::new() } else { format!(" tags {}", tags.join(" ")) }
}

fn say_samples(bytes: &[u8]) -> String {
    let said = |sample: ReportSample<'_>| format!("{{{}}}", say_sample(&sample));
    let samples: Vec<String> = Samples::new(bytes)
        .map(|sample| sample.map_or_else(|refusal| refusal.to_string(), said))
        .collect();
    if samples.is_empty() { String::new() } else { format!(" samples {}", samples.join(" ")) }
}

fn say_lists(bytes: &[u8]) -> String {
    say_tags(bytes) + &say_samples(bytes)
}

fn sample_again<'a>(it: &ReportSample<'a>) -> ReportSample<'a> {
    ReportSample::new(it.name(), it.value(), it.count())
}

fn station_again<'a>(it: &Station<'a>) -> Station<'a> {
    let mut again = Station::new();
    again.set_name(it.name());
    again.set_level(it.level());
    again.set_height(it.height());
    again.set_note(it.note());
    again.set_last(it.last().as_ref().map(sample_again));
    again.set_key(it.key());
    again.set_staffed(it.staffed());
    again.set_power(it.power());
    again
}

// What is written into room of so many bytes, in hexadecimal digits.
fn said_written(
    size: Result<usize, Refusal>,
    write: impl Fn(&mut [u8]) -> Result<usize, NotWritten>,
) -> String {
    let size = match size {
        Ok(size) => size,
        Err(refusal) => return refusal.to_string(),
    };
    let mut room = vec![0; size];
    if write(&mut room) != Ok(size) {
        return "not written".to_string();
    }
    let no_room = NotWritten::NoRoom(NoRoom(size));
    if size > 0 && write(&mut vec![0; size - 1]) != Err(no_room) {
        return "written into less room".to_string();
    }
    hex(&room).to_uppercase()
}

// What is written as it is, and with the unknown fields of the bytes.
fn say_sample_written(it: &ReportSample<'_>, bytes: &[u8]) -> [String; 2] {
    let again = sample_again(it);
    [
        said_written(Ok(again.size()), |room| again.write(room).map_err(NotWritten::NoRoom)),
        said_written(again.size_keeping(bytes), |room| again.write_keeping(bytes, room)),
    ]
}

fn say_station_written(it: &Station<'_>, bytes: &[u8]) -> [String; 2] {
    let again = station_again(it);
    let tags: Vec<Text<'_>> = Tags::new(bytes).map(Text::new).collect();
    let samples: Vec<ReportSample<'_>> = Samples::new(bytes).filter_map(Result::ok).collect();
    let lists = StationLists::new(&tags, &samples);
    let size = again.size_keeping(&lists, bytes);
    [
        said_written(Ok(again.size(&lists)), |room| {
            again.write(&lists, room).map_err(NotWritten::NoRoom)
        }),
        said_written(size, |room| again.write_keeping(&lists, bytes, room)),
    ]
}

fn bytes_of(digits: &str) -> Vec<u8> {
    let at = |i: usize| u8::from_str_radix(&digits[i..i + 2], 16).expect("hexadecimal digits");
    (0..digits.len() - 1).step_by(2).map(at).collect()
}

fn limits_of(words: &str) -> Option<Limits> {
    let numbers: Vec<u64> = words.split(' ').map_while(|word| word.parse().ok()).collect();
    match numbers[..] {
        [depth, records, payload_bytes] => Some(Limits {
            records: records as usize,
            payload_bytes: payload_bytes as usize,
            depth: depth as u32,
        }),
        _ => None,
    }
}

// What a message shows and what is written of it, or the status.
fn found(message: &str, bytes: &[u8], limits: Option<Limits>) -> (String, [String; 2]) {
    let station = |it: Station<'_>| {
        (say_station(&it) + &say_lists(bytes), say_station_written(&it, bytes))
    };
    let sample = |it: ReportSample<'_>| (say_sample(&it), say_sample_written(&it, bytes));
    let said = match (message, &limits) {
        ("station", None) => Station::read(bytes).map(station),
        ("station", Some(limits)) => Station::read_within(bytes, limits).map(station),
        (_, None) => ReportSample::read(bytes).map(sample),
        (_, Some(limits)) => ReportSample::read_within(bytes, limits).map(sample),
    };
    said.unwrap_or_else(|refusal| (refusal.to_string(), [String::new(), String::new()]))
}

fn main() -> ExitCode {
    let path = std::env::args().nth(1).expect("structs.tsv");
    let rows = std::fs::read_to_string(path).expect("the rows");
    let (mut tried, mut astray) = (0, 0);
    for line in rows.lines().filter(|line| !line.starts_with('#')) {
        let parts: Vec<&str> = line.split('\t').collect();
        let bytes = bytes_of(parts[2]);
        let (shown, [written, kept]) = found(parts[1], &bytes, limits_of(parts[3]));
        let encoding = *parts.get(5).unwrap_or(&"");
        let keeping = *parts.get(6).unwrap_or(&encoding);
        for (wanted, said) in [(parts[4], shown), (encoding, written), (keeping, kept)] {
            if said != wanted {
                println!("{}: wanted {wanted}, found {said}", parts[0]);
                astray += 1;
            }
        }
        tried += 1;
    }
    println!("{tried} rows, {astray} astray");
    ExitCode::from(u8::from(astray != 0))
}
