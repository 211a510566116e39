// What programs have in common that tell what the messages of a schema show, as answers.h says it.
// What is of the schema is written by rust_program_of, in front of which this stands: a `Show` of
// each message, and the function `answer`.
use std::io::{self, BufRead, Write};

// No narrower than the default limits.
const WIDE: Limits = Limits { records: usize::MAX, payload_bytes: usize::MAX, depth: 100 };

// How a value is told.
trait Show {
    fn show(&self) -> String;
}

macro_rules! show_numbers {
    ($($number:ty)*) => {
        $(impl Show for $number {
            fn show(&self) -> String {
                self.to_string()
            }
        })*
    };
}

show_numbers!(i32 i64 u32 u64);

impl Show for bool {
    fn show(&self) -> String {
        u8::from(*self).to_string()
    }
}

impl Show for f32 {
    fn show(&self) -> String {
        format!("{:08x}", self.to_bits())
    }
}

impl Show for f64 {
    fn show(&self) -> String {
        format!("{:016x}", self.to_bits())
    }
}

impl Show for &[u8] {
    fn show(&self) -> String {
        hex(self)
    }
}

impl Show for &str {
    fn show(&self) -> String {
        hex(self.as_bytes())
    }
}

impl Show for Text<'_> {
    fn show(&self) -> String {
        self.get().show()
    }
}

impl Show for Bytes<'_> {
    fn show(&self) -> String {
        self.get().show()
    }
}

impl<T: Show> Show for Option<T> {
    fn show(&self) -> String {
        self.as_ref().map_or("-".to_string(), T::show)
    }
}

fn hex(bytes: &[u8]) -> String {
    bytes.iter().map(|byte| format!("{byte:02x}")).collect()
}

fn list(elements: impl Iterator<Item = String>) -> String {
    let shown: String = elements.map(|it| format!(" {it}")).collect();
    format!("[{shown} ]")
}

// A field, a field of a oneof, and the elements of a list, which are as many as is told: a sign
// stands before each that is no message.
macro_rules! field {
    ($name:literal, $value:expr) => {
        format!(" {}={}", $name, $value.show())
    };
}

macro_rules! one {
    ($name:literal, $oneof:expr, $field:path) => {{
        let value = match $oneof {
            Some($field(value)) => Some(value),
            _ => None,
        };
        format!(" {}={}", $name, value.show())
    }};
}

macro_rules! elements {
    ($name:literal, $count:expr, $sign:literal, $elements:expr) => {{
        let shown = list($elements.iter().map(|it| format!("{}{}", $sign, it.show())));
        let astray = if $count == $elements.len() as u64 { "" } else { " astray" };
        format!(" {}={shown}{astray}", $name)
    }};
}

// A message that was read, written: into room that has just its bytes, into one that lacks one, and
// with its unknown fields; and these as they came. The same message, each field set anew, is
// written as it is.
macro_rules! written {
    ($message:ident, $it:expr, $again:expr, $bytes:expr $(, $lists:expr)?) => {{
        let written = $it.to_vec($($lists)?);
        let mut room = vec![0xAA; written.len()];
        let wrote = $it.write($($lists,)? &mut room);
        let mut is_astray = wrote != Ok(written.len()) || room != written;
        if let Some(less) = written.len().checked_sub(1) {
            let mut room = vec![0xAA; less];
            is_astray |= $it.write($($lists,)? &mut room).map_err(|it| it.0) != Err(written.len());
            is_astray |= room.iter().any(|it| *it != 0xAA);
        }
        let wanted = $it.size_keeping($($lists,)? $bytes).unwrap_or(0);
        let mut kept = vec![0xAA; wanted];
        is_astray |= $it.write_keeping($($lists,)? $bytes, &mut kept) != Ok(wanted);
        is_astray |= $it.to_vec_keeping($($lists,)? $bytes).as_ref() != Ok(&kept);
        is_astray |= $again.to_vec($($lists)?) != written;
        is_astray |= $message::read_within($bytes, &WIDE).is_err();
        let astray = if is_astray { " astray" } else { "" };
        let unknown = list($message::unknown_records($bytes).map(|it| format!("={}", hex(it))));
        let limits = limits!($message, $bytes);
        format!("{astray} written={} kept={} unknown={unknown}{limits}", hex(&written), hex(&kept))
    }};
}

// The least limits within which a message is read, of every eighth length.
macro_rules! limits {
    ($message:ident, $bytes:expr) => {{
        let is_within = |records, payload_bytes, depth| {
            $message::read_within($bytes, &Limits { records, payload_bytes, depth }).is_ok()
        };
        let len = $bytes.len();
        if len % 8 == 0 {
            let records = least(len, |it| is_within(it, len, 100));
            let payload_bytes = least(len, |it| is_within(records, it, 100));
            let depth = least(100, |it| is_within(records, payload_bytes, it as u32));
            format!(" limits={records},{payload_bytes},{depth}")
        } else {
            String::new()
        }
    }};
}

// The least number that suffices, as the greatest does.
fn least(most: usize, suffices: impl Fn(usize) -> bool) -> usize {
    let (mut low, mut high) = (0, most);
    while low < high {
        let middle = (low + high) / 2;
        if suffices(middle) {
            high = middle;
        } else {
            low = middle + 1;
        }
    }
    low
}

fn main() -> io::Result<()> {
    let mut out = io::stdout().lock();
    for line in io::stdin().lock().lines() {
        let line = line?;
        let (message, hex) = line.split_once(' ').unwrap_or((&line, ""));
        let bytes: Vec<u8> = (0..hex.len() / 2)
            .filter_map(|at| u8::from_str_radix(&hex[2 * at..2 * at + 2], 16).ok())
            .collect();
        match answer(message, &bytes) {
            Ok(shown) => writeln!(out, "0{shown}")?,
            Err(refusal) => {
                let place = refusal.place().map_or("-".to_string(), |it| it.to_string());
                writeln!(out, "{} at {place}", refusal.status())?;
            }
        }
    }
    Ok(())
}
