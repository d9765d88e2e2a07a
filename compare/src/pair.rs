//! One graph on both sides: the published Rust's, and the proved code's in
//! words that are lent to it.

use oracle::chart;
use oracle::image::{read_image, read_routes, write_routes, Image, Refusal};
use oracle::session::Session;

use crate::hops::{self, HOP_WORDS};
use crate::words::{self, WORDS};
use crate::{noise, proved, rule};

/// What words that hold no graph get.
const NO_GRAPH: Refusal = Refusal::new(21, 0, 0);

pub struct Pair<'l> {
    words: &'l mut [u64; WORDS],
    hops: &'l mut [u64; HOP_WORDS],
    /// What the words should be, and what the hops' words were.
    wanted: Box<[u64; WORDS]>,
    before: Box<[u64; HOP_WORDS]>,
    /// Words that hold no graph.
    nothing: Box<[u64; WORDS]>,
    /// None where the words hold no graph.
    session: Option<Session>,
    /// Whether the words were changed since the last build.
    changed: bool,
    /// Whether what the readers say and the lines of the chart are compared too.
    texts: bool,
}

/// What the Rust answers, and whether the proved code does the same to the
/// last word.
pub struct Compared<T> {
    pub answer: Result<T, Refusal>,
    pub agrees: bool,
}

impl<'l> Pair<'l> {
    /// Fills the lent words by a seed.
    pub fn new(seed: u64, words: &'l mut [u64; WORDS], hops: &'l mut [u64; HOP_WORDS]) -> Self {
        let nothing: Box<[u64; WORDS]> = noise::fill(seed);
        let before = noise::fill(seed + 1);
        words.copy_from_slice(&nothing[..]);
        hops.copy_from_slice(&before[..]);
        let (wanted, session) = (nothing.clone(), None);
        Self { words, hops, wanted, before, nothing, session, changed: false, texts: false }
    }

    /// The same, and compares what the readers say and the lines of the chart too.
    pub fn with_texts(
        seed: u64,
        words: &'l mut [u64; WORDS],
        hops: &'l mut [u64; HOP_WORDS],
    ) -> Self {
        Self { texts: true, ..Self::new(seed, words, hops) }
    }

    /// Begins anew, with words that hold no graph.
    pub fn clear(&mut self) {
        self.words.copy_from_slice(&self.nothing[..]);
        self.wanted.copy_from_slice(&self.nothing[..]);
        self.session = None;
        self.changed = false;
    }

    /// Begins anew with any words, as the change leaves those that are there.
    pub fn change(&mut self, change: impl FnOnce(&mut [u64; WORDS])) {
        change(self.words);
        self.changed = true;
        self.wanted.copy_from_slice(&self.words[..]);
        self.session = rule::is_graph(self.words).then(|| Session::of(&words::read(self.words)));
    }

    /// Builds an image. Refused, the words must be as they were; else they must
    /// hold the Rust's graph, and every other word must be as it was.
    pub fn build(&mut self, bytes: &[u8]) -> Compared<Image> {
        let theirs = read_image(bytes).and_then(|image| Ok((Session::build(&image)?, image)));
        let ours = proved::build(bytes, self.words);
        let answer = theirs.map(|(session, image)| {
            words::write(&mut self.wanted[..], &session.contents());
            self.session = Some(session);
            self.changed = false;
            image
        });
        let agrees = same(&ours, &answer) && self.words_agree();
        let agrees =
            agrees && (!self.texts || same(&proved::read_image(bytes), &read_image(bytes)));
        Compared { answer, agrees }
    }

    /// Adds a route image, in the same way; the hops must be the Rust's.
    pub fn add(&mut self, bytes: &[u8]) -> Compared<()> {
        let theirs = self.session.as_mut().ok_or(NO_GRAPH).and_then(|session| {
            let routes = read_routes(bytes)?;
            Ok((session.add(&routes)?, session.contents(), routes))
        });
        let ours = proved::add_routes(self.words, bytes, self.hops);
        let mut agrees = same(&ours, &theirs);
        let answer = theirs.map(|(hops, contents, routes)| {
            words::write_flow(&mut self.wanted[..], &contents);
            agrees &= !self.texts
                || proved::hop_lines(self.hops, hops.len(), bytes) == chart::hops(&hops);
            agrees &= hops::read(self.hops, &routes) == Some(hops)
                && hops::others_kept(self.hops, &self.before[..]);
        });
        agrees &= !self.texts || same(&proved::read_routes(bytes), &read_routes(bytes));
        agrees &= answer.is_ok() || *self.hops == *self.before;
        agrees &= self.words_agree();
        self.hops.copy_from_slice(&self.before[..]);
        Compared { answer, agrees }
    }

    /// Builds an image and adds its own routes, by the one call.
    pub fn sequence(&mut self, bytes: &[u8]) -> Compared<()> {
        let ours = proved::sequence(bytes, self.words, self.hops);
        let theirs = read_image(bytes).and_then(|image| Ok((Session::build(&image)?, image)));
        let built = theirs.is_ok();
        let mut agrees = true;
        let answer = theirs.and_then(|(mut session, image)| {
            words::write(&mut self.wanted[..], &session.contents());
            let hops = match image.mode {
                0 => Ok(Vec::new()),
                _ => session.add(&image.routes),
            };
            words::write_flow(&mut self.wanted[..], &session.contents());
            self.session = Some(session);
            self.changed = false;
            let hops = hops?;
            agrees &= proved::own_routes(bytes) == write_routes(&image.routes)
                && hops::read(self.hops, &image.routes) == Some(hops)
                && hops::others_kept(self.hops, &self.before[..]);
            Ok(())
        });
        agrees &= ours.err() == answer.as_ref().err().map(|&refusal| (built, refusal));
        agrees &= answer.is_ok() || *self.hops == *self.before;
        agrees &= self.words_agree();
        self.hops.copy_from_slice(&self.before[..]);
        Compared { answer, agrees }
    }

    /// Whether the words are as they should be, as many blocks reached, and the
    /// lines the same. A session of changed words has no regions and calls to tell.
    fn words_agree(&self) -> bool {
        let contents = self.session.as_ref().map(Session::contents).ok_or(NO_GRAPH);
        let contents = contents.as_ref().map_err(|&refusal| refusal);
        *self.words == *self.wanted
            && proved::reached(self.words) == contents.map(|contents| contents.reached().len())
            && (!self.texts
                || self.changed
                || proved::lines(self.words) == contents.map(chart::graph))
    }
}

fn same<T>(ours: &Result<(), Refusal>, theirs: &Result<T, Refusal>) -> bool {
    ours.as_ref().err() == theirs.as_ref().err()
}
