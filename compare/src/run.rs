//! Groups of cases, and one case after another.

use compare::broken::break_one;
use compare::noise::{loosen, scatter};
use compare::pair::{Compared, Pair};
use compare::{rule, words};
use oracle::generate::{self, damage, Family, Random};
use oracle::image::{write_routes, Route};
use oracle::stream::hex;

use crate::tally::Tally;

#[derive(Clone, Copy)]
pub enum Group {
    Images(&'static Family),
    /// Scripts of any kind, and over funclets that stand apart.
    Scripts,
    Apart,
    /// Graphs that no build made: good ones, with a phrase of 21 broken, and
    /// with words changed by chance.
    Graphs,
    Broken,
    Scattered,
}

pub fn groups() -> impl Iterator<Item = Group> {
    let images = generate::FAMILIES.iter().map(Group::Images);
    images.chain([Group::Scripts, Group::Apart, Group::Graphs, Group::Broken, Group::Scattered])
}

impl Group {
    pub fn name(self) -> &'static str {
        match self {
            Self::Images(family) => family.name,
            Self::Scripts => "scripts",
            Self::Apart => "apart",
            Self::Graphs => "graphs",
            Self::Broken => "broken",
            Self::Scattered => "scattered",
        }
    }
}

/// The cases of one group, under one seed.
pub struct Run<'l> {
    pub group: Group,
    pub seed: u64,
    pub pair: Pair<'l>,
    pub tally: Tally,
}

impl Run<'_> {
    /// The `index`th case.
    pub fn one(&mut self, index: u64) {
        self.pair.clear();
        match self.group {
            Group::Images(family) => self.image(family, index),
            Group::Scripts => {
                let strings = generate::script(self.seed, index);
                self.script(index, &strings[0], &strings[1..]);
            }
            Group::Apart => {
                let (image, lists) = generate::script_apart(self.seed, index);
                let lists: Vec<_> = lists.iter().map(|list| write_routes(list)).collect();
                self.script(index, &image.write(), &lists);
            }
            Group::Graphs | Group::Broken | Group::Scattered => self.graph(index),
        }
    }

    /// An image, and its own routes, by one call and by two.
    fn image(&mut self, family: &Family, index: u64) {
        let bytes = generate::image(family, self.seed, index);
        let compared = self.pair.sequence(&bytes);
        self.tally.sequences += 1;
        self.judge(index, &compared, &bytes);
        self.pair.clear();
        let compared = self.pair.build(&bytes);
        self.tally.builds.take(&compared.answer);
        self.judge(index, &compared, &bytes);
        if let Ok(image) = compared.answer {
            if image.mode != 0 {
                self.add(index, &write_routes(&image.routes));
            }
        }
    }

    /// An image, and route images one after another.
    fn script(&mut self, index: u64, image: &[u8], lists: &[Vec<u8>]) {
        let compared = self.pair.build(image);
        self.tally.builds.take(&compared.answer);
        self.judge(index, &compared, image);
        lists.iter().for_each(|list| self.add(index, list));
    }

    /// A graph that no build made, changed as the group says, and route images.
    fn graph(&mut self, index: u64) {
        let (contents, lists) = generate::graph(self.seed, index);
        let random = &mut Random::new(self.seed + 1, index);
        let (group, tally) = (self.group, &mut self.tally);
        self.pair.change(|words| {
            words::write(&mut words[..], &contents);
            loosen(random, &mut words[..]);
            match group {
                Group::Broken => {
                    let phrase = break_one(random, words);
                    let broken = rule::broken(&words[..]);
                    assert!(broken.contains(&phrase), "graph {index}: {phrase}, {broken:?}");
                    *tally.phrases.entry(phrase).or_default() += u64::from(broken.len() == 1);
                }
                Group::Scattered => scatter(random, words),
                _ => assert!(rule::is_graph(&words[..]), "graph {index}"),
            }
        });
        for list in &lists {
            self.add(index, &bytes(random, list));
        }
    }

    fn add(&mut self, index: u64, routes: &[u8]) {
        let compared = self.pair.add(routes);
        self.tally.additions.take(&compared.answer);
        self.judge(index, &compared, routes);
    }

    fn judge<T>(&mut self, index: u64, compared: &Compared<T>, bytes: &[u8]) {
        if compared.agrees {
            self.tally.passed += 1;
        } else {
            self.tally.failed += 1;
            println!("{} {index}: {}", self.group.name(), hex(bytes));
        }
    }
}

/// A route image, now and then a damaged one.
fn bytes(random: &mut Random, routes: &[Route]) -> Vec<u8> {
    let mut bytes = write_routes(routes);
    if random.percent(6) {
        damage(random, &mut bytes);
    }
    bytes
}
