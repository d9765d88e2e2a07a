//! Reading an image field by field, in file order, so that the first fault met
//! is the one reported.

use super::{
    flow, kind, limit, Case, End, GivenEdge, GivenSource, Handler, Image, Instruction, Path,
    Refusal, Route, Step, FILTER,
};

type Read<T> = Result<T, Refusal>;

/// Reads a sequence image, or says the first refusal 1 or 2.
pub fn read_image(bytes: &[u8]) -> Read<Image> {
    let mut reader = Reader { bytes, at: 0 };
    reader.code(1..=1)?;
    let mode = reader.code(0..=2)?;
    let calls = reader.code(0..=1)?;
    let entry_flag = reader.flag()?;
    let entry = reader.used_number(entry_flag)?;

    let mut image = Image { mode, calls, entry: entry_flag.then_some(entry), ..Image::default() };
    let mut case_counts = Vec::new();
    for _ in 0..reader.count(true, limit::INSTRUCTIONS, None)? {
        let (instruction, cases) = reader.instruction()?;
        image.instructions.push(instruction);
        case_counts.push(cases);
    }
    let mut cases = Vec::new();
    for _ in 0..reader.count(true, limit::CASES, Some(&case_counts))? {
        cases.push(Case { key: reader.word()?, target: reader.number()? });
    }
    let mut cases = cases.into_iter();
    for (instruction, count) in image.instructions.iter_mut().zip(case_counts) {
        instruction.cases = deal(&mut cases, count);
    }

    let has_given = mode == 2;
    let mut edge_counts = Vec::new();
    for _ in 0..reader.count(has_given, limit::GIVEN_SOURCES, None)? {
        let at = reader.at;
        let address = reader.number()?;
        if image.given.last().is_some_and(|last| last.address >= address) {
            return Err(bad_form(at));
        }
        edge_counts.push(reader.word()?);
        image.given.push(GivenSource { address, edges: Vec::new() });
    }
    let mut edges = Vec::new();
    for _ in 0..reader.count(has_given, limit::GIVEN_EDGES, Some(&edge_counts))? {
        edges.push(GivenEdge {
            target: reader.number()?,
            kind: reader.code(0..=kind::COUNT - 1)?,
            payload: reader.word()?,
        });
    }
    let mut edges = edges.into_iter();
    for (source, count) in image.given.iter_mut().zip(edge_counts) {
        source.edges = deal(&mut edges, count);
    }

    for _ in 0..reader.count(true, limit::HANDLERS, None)? {
        image.handlers.push(reader.handler()?);
    }
    image.routes = reader.routes(mode != 0)?;
    reader.finish()?;
    Ok(image)
}

/// Reads a route image: the last three sections alone.
pub fn read_routes(bytes: &[u8]) -> Read<Vec<Route>> {
    let mut reader = Reader { bytes, at: 0 };
    let routes = reader.routes(true)?;
    reader.finish()?;
    Ok(routes)
}

fn bad_form(offset: usize) -> Refusal {
    Refusal::new(1, offset as u64, 0)
}

/// The next `count` children. The sum of all counts is the number of children.
fn deal<T>(children: &mut impl Iterator<Item = T>, count: u32) -> Vec<T> {
    children.take(count as usize).collect()
}

struct Reader<'a> {
    bytes: &'a [u8],
    at: usize,
}

impl Reader<'_> {
    fn field<const N: usize>(&mut self) -> Read<[u8; N]> {
        let rest = &self.bytes[self.at..];
        let Some(field) = rest.first_chunk::<N>() else {
            return Err(bad_form(self.bytes.len()));
        };
        self.at += N;
        Ok(*field)
    }

    fn word(&mut self) -> Read<u32> {
        self.field().map(u32::from_le_bytes)
    }

    fn number(&mut self) -> Read<u64> {
        self.field().map(u64::from_le_bytes)
    }

    fn code(&mut self, set: std::ops::RangeInclusive<u8>) -> Read<u8> {
        let at = self.at;
        let [code] = self.field()?;
        if set.contains(&code) {
            Ok(code)
        } else {
            Err(bad_form(at))
        }
    }

    fn flag(&mut self) -> Read<bool> {
        Ok(self.code(0..=1)? == 1)
    }

    /// A number that is 0 where it is not used.
    fn used_number(&mut self, used: bool) -> Read<u64> {
        let at = self.at;
        let number = self.number()?;
        if used || number == 0 {
            Ok(number)
        } else {
            Err(bad_form(at))
        }
    }

    /// A word that is 0 where it is not used.
    fn used_word(&mut self, used: bool) -> Read<u32> {
        let at = self.at;
        let word = self.word()?;
        if used || word == 0 {
            Ok(word)
        } else {
            Err(bad_form(at))
        }
    }

    /// A section's count: an unused section, then the limit, then the sum of
    /// its parents' counts.
    fn count(&mut self, used: bool, limit: usize, parents: Option<&[u32]>) -> Read<usize> {
        let at = self.at;
        let count = self.used_word(used)? as usize;
        if count > limit {
            return Err(Refusal::new(2, at as u64, 0));
        }
        if let Some(parents) = parents {
            let sum: u64 = parents.iter().map(|&count| u64::from(count)).sum();
            if sum != count as u64 {
                return Err(bad_form(at));
            }
        }
        Ok(count)
    }

    /// One instruction without its cases, and how many it has.
    fn instruction(&mut self) -> Read<(Instruction, u32)> {
        let address = self.number()?;
        let end_at = self.at;
        let end = self.number()?;
        let end_flag = self.flag()?;
        if !end_flag && end != 0 {
            return Err(bad_form(end_at));
        }
        let keeps = self.flag()?;
        let flow = self.code(0..=flow::SWITCH)?;
        let target = self.used_number(flow::has_target(flow))?;
        let cases = self.used_word(flow == flow::SWITCH)?;
        let instruction = Instruction {
            address,
            end: end_flag.then_some(end),
            keeps,
            flow,
            target,
            cases: Vec::new(),
        };
        Ok((instruction, cases))
    }

    fn handler(&mut self) -> Read<Handler> {
        let start = self.number()?;
        let end = self.number()?;
        let entry = self.number()?;
        let kind = self.code(0..=FILTER)?;
        let filter = self.used_word(kind == FILTER)?;
        Ok(Handler { start, end, entry, kind, filter })
    }

    fn routes(&mut self, used: bool) -> Read<Vec<Route>> {
        let mut routes = Vec::new();
        let mut path_counts = Vec::new();
        for _ in 0..self.count(used, limit::ROUTES, None)? {
            let (start, end) = (self.number()?, self.number()?);
            routes.push(Route { start, end, paths: Vec::new() });
            path_counts.push(self.word()?);
        }
        let mut paths = Vec::new();
        let mut step_counts = Vec::new();
        for _ in 0..self.count(used, limit::PATHS, Some(&path_counts))? {
            paths.push(Path { end: self.end()?, steps: Vec::new() });
            step_counts.push(self.word()?);
        }
        let mut steps = Vec::new();
        for _ in 0..self.count(used, limit::STEPS, Some(&step_counts))? {
            steps.push(self.step()?);
        }
        let mut steps = steps.into_iter();
        for (path, count) in paths.iter_mut().zip(step_counts) {
            path.steps = deal(&mut steps, count);
        }
        let mut paths = paths.into_iter();
        for (route, count) in routes.iter_mut().zip(path_counts) {
            route.paths = deal(&mut paths, count);
        }
        Ok(routes)
    }

    fn end(&mut self) -> Read<End> {
        let code = self.code(0..=2)?;
        let address = self.used_number(code == 0)?;
        Ok(match code {
            0 => End::Handler(address),
            1 => End::Propagate,
            _ => End::Resume,
        })
    }

    fn step(&mut self) -> Read<Step> {
        let code = self.code(0..=1)?;
        let at = self.at;
        let value = self.number()?;
        if code == 0 {
            return Ok(Step::Funclet(value));
        }
        match u32::try_from(value) {
            Ok(tag) => Ok(Step::Call(tag)),
            Err(_) => Err(bad_form(at)),
        }
    }

    fn finish(&self) -> Read<()> {
        if self.at == self.bytes.len() {
            Ok(())
        } else {
            Err(bad_form(self.at))
        }
    }
}
