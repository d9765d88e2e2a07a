//! Writing an image: the inverse of reading. It checks nothing, so that faulty
//! images can be written too.

use super::{End, Image, Route, Step};

impl Image {
    pub fn write(&self) -> Vec<u8> {
        let mut out = vec![1, self.mode, self.calls, u8::from(self.entry.is_some())];
        number(&mut out, self.entry.unwrap_or(0));

        count(&mut out, self.instructions.len());
        for instruction in &self.instructions {
            number(&mut out, instruction.address);
            number(&mut out, instruction.end.unwrap_or(0));
            out.push(u8::from(instruction.end.is_some()));
            out.push(u8::from(instruction.keeps));
            out.push(instruction.flow);
            number(&mut out, instruction.target);
            count(&mut out, instruction.cases.len());
        }
        count(&mut out, self.instructions.iter().map(|one| one.cases.len()).sum());
        for case in self.instructions.iter().flat_map(|one| &one.cases) {
            word(&mut out, case.key);
            number(&mut out, case.target);
        }

        count(&mut out, self.given.len());
        for source in &self.given {
            number(&mut out, source.address);
            count(&mut out, source.edges.len());
        }
        count(&mut out, self.given.iter().map(|one| one.edges.len()).sum());
        for edge in self.given.iter().flat_map(|one| &one.edges) {
            number(&mut out, edge.target);
            out.push(edge.kind);
            word(&mut out, edge.payload);
        }

        count(&mut out, self.handlers.len());
        for handler in &self.handlers {
            number(&mut out, handler.start);
            number(&mut out, handler.end);
            number(&mut out, handler.entry);
            out.push(handler.kind);
            word(&mut out, handler.filter);
        }
        out.extend(write_routes(&self.routes));
        out
    }
}

/// The route image of `routes`.
pub fn write_routes(routes: &[Route]) -> Vec<u8> {
    let mut out = Vec::new();
    count(&mut out, routes.len());
    for route in routes {
        number(&mut out, route.start);
        number(&mut out, route.end);
        count(&mut out, route.paths.len());
    }
    let paths: Vec<_> = routes.iter().flat_map(|route| &route.paths).collect();
    count(&mut out, paths.len());
    for path in &paths {
        let (code, address) = match path.end {
            End::Handler(address) => (0, address),
            End::Propagate => (1, 0),
            End::Resume => (2, 0),
        };
        out.push(code);
        number(&mut out, address);
        count(&mut out, path.steps.len());
    }
    count(&mut out, paths.iter().map(|path| path.steps.len()).sum());
    for step in paths.iter().flat_map(|path| &path.steps) {
        let (code, value) = match *step {
            Step::Funclet(address) => (0, address),
            Step::Call(tag) => (1, u64::from(tag)),
        };
        out.push(code);
        number(&mut out, value);
    }
    out
}

fn count(out: &mut Vec<u8>, count: usize) {
    word(out, u32::try_from(count).expect("a count of four bytes"));
}

fn word(out: &mut Vec<u8>, word: u32) {
    out.extend(word.to_le_bytes());
}

fn number(out: &mut Vec<u8>, number: u64) {
    out.extend(number.to_le_bytes());
}
