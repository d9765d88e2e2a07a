//! A plain reader of the sequence image: field by field, the first fault
//! leaves. Written as one would in Rust, with no thought of proofs.

/// How many records each section has.
pub type Counts = [u64; 8];

#[derive(Debug, Clone, Copy, PartialEq, Eq)]
pub struct Refusal {
    pub number: u64,
    pub offset: u64,
}

type Read<T> = Result<T, Refusal>;

pub fn read_image(bytes: &[u8]) -> Read<Counts> {
    let mut reader = Reader { bytes, at: 0 };
    reader.code(1, 1)?;
    let mode = reader.code(0, 2)?;
    reader.code(0, 1)?;
    let entered = reader.code(0, 1)? == 1;
    reader.used_number(entered)?;

    let instructions = reader.count(true, 512, None)?;
    let mut sum = 0;
    for _ in 0..instructions {
        sum += reader.instruction()?;
    }
    let cases = reader.count(true, 512, Some(sum))?;
    for _ in 0..cases {
        reader.word()?;
        reader.number()?;
    }

    let sources = reader.count(mode == 2, 512, None)?;
    let (mut sum, mut last) = (0, None);
    for _ in 0..sources {
        let at = reader.at;
        let address = reader.number()?;
        if last.is_some_and(|last| last >= address) {
            return bad_form(at);
        }
        last = Some(address);
        sum += u64::from(reader.word()?);
    }
    let edges = reader.count(mode == 2, 512, Some(sum))?;
    for _ in 0..edges {
        reader.number()?;
        reader.code(0, 7)?;
        reader.word()?;
    }

    let handlers = reader.count(true, 32, None)?;
    for _ in 0..handlers {
        reader.number()?;
        reader.number()?;
        reader.number()?;
        let kind = reader.code(0, 4)?;
        reader.used_word(kind == 4)?;
    }

    let routes = reader.count(mode != 0, 32, None)?;
    let mut sum = 0;
    for _ in 0..routes {
        reader.number()?;
        reader.number()?;
        sum += u64::from(reader.word()?);
    }
    let paths = reader.count(mode != 0, 128, Some(sum))?;
    let mut sum = 0;
    for _ in 0..paths {
        let end = reader.code(0, 2)?;
        reader.used_number(end == 0)?;
        sum += u64::from(reader.word()?);
    }
    let steps = reader.count(mode != 0, 512, Some(sum))?;
    for _ in 0..steps {
        let code = reader.code(0, 1)?;
        let at = reader.at;
        let value = reader.number()?;
        if code == 1 && value > u64::from(u32::MAX) {
            return bad_form(at);
        }
    }
    if reader.at < bytes.len() {
        return bad_form(reader.at);
    }
    Ok([instructions, cases, sources, edges, handlers, routes, paths, steps])
}

fn bad_form<T>(offset: usize) -> Read<T> {
    Err(Refusal { number: 1, offset: offset as u64 })
}

struct Reader<'a> {
    bytes: &'a [u8],
    at: usize,
}

impl Reader<'_> {
    fn field<const N: usize>(&mut self) -> Read<[u8; N]> {
        let Some(field) = self.bytes[self.at..].first_chunk() else {
            return bad_form(self.bytes.len());
        };
        self.at += N;
        Ok(*field)
    }

    fn word(&mut self) -> Read<u32> {
        self.field().map(u32::from_le_bytes)
    }

    fn number(&mut self) -> Read<u64> {
        self.field().map(u64::from_le_bytes)
    }

    fn code(&mut self, least: u8, most: u8) -> Read<u8> {
        let at = self.at;
        let [code] = self.field()?;
        if least <= code && code <= most {
            Ok(code)
        } else {
            bad_form(at)
        }
    }

    /// A number that is 0 where it is not used; likewise a word.
    fn used_number(&mut self, used: bool) -> Read<()> {
        let at = self.at;
        if self.number()? != 0 && !used {
            return bad_form(at);
        }
        Ok(())
    }

    fn used_word(&mut self, used: bool) -> Read<u32> {
        let at = self.at;
        let word = self.word()?;
        if word != 0 && !used {
            return bad_form(at);
        }
        Ok(word)
    }

    fn count(&mut self, used: bool, limit: u32, sum: Option<u64>) -> Read<u64> {
        let at = self.at;
        let count = self.used_word(used)?;
        if count > limit {
            return Err(Refusal { number: 2, offset: at as u64 });
        }
        let count = u64::from(count);
        if sum.is_some_and(|sum| sum != count) {
            return bad_form(at);
        }
        Ok(count)
    }

    /// An instruction, and how many cases it has.
    fn instruction(&mut self) -> Read<u64> {
        self.number()?;
        let at = self.at;
        let end = self.number()?;
        let has_end = self.code(0, 1)? == 1;
        if end != 0 && !has_end {
            return bad_form(at);
        }
        self.code(0, 1)?;
        let flow = self.code(0, 12)?;
        self.used_number(matches!(flow, 6..=9 | 12))?;
        Ok(u64::from(self.used_word(flow == 12)?))
    }
}
