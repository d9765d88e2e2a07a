//! One graph of the published Rust: built from an image or taken as it is,
//! then added to.

use std::collections::BTreeMap;

use cfglib::block::BlockId;
use cfglib::builder::address::{
    build_address_cfg, build_address_cfg_from_given_edges, build_address_cfg_with_routes,
    AddressBuildError, AddressCfgOptions, AddressGraph, AddressHandler, GivenEdges, HopEnd,
    UnwindHop, UnwindRoute,
};
use cfglib::cfg::Cfg;

use crate::contents::{
    Block, Call, Contents, Edge, Hop, Payload, Reference, Region, RegionHandler, Row, Unresolved,
};
use crate::image::{Handler, Image, Instruction, Refusal, Route};
use crate::published::{self, Operation};

/// The limits of a graph after an addition (18 to 20) and a build (19).
pub mod limit {
    pub const BLOCKS: usize = 1024;
    pub const EDGES: usize = 4096;
    pub const HOPS: usize = 2048;
    pub const CALL_LISTS: usize = 4096;
}

/// A graph of the published Rust.
pub type Built = AddressGraph<Operation, Payload>;

/// A graph of the published Rust with what of the image it leaves out: the
/// table and the handlers' ranges.
pub struct Session {
    graph: Built,
    instructions: Vec<Instruction>,
    handlers: Vec<Handler>,
}

/// What the published build takes, made from an image that was read.
#[derive(Clone)]
pub struct Inputs {
    mode: u8,
    operations: Vec<Operation>,
    given: GivenEdges<u64, Payload>,
    handlers: Vec<AddressHandler<u64>>,
    routes: Vec<UnwindRoute<u64>>,
    options: AddressCfgOptions<u64>,
}

impl Inputs {
    pub fn of(image: &Image) -> Self {
        Self {
            mode: image.mode,
            operations: published::operations(&image.instructions),
            given: published::given(image),
            handlers: published::handlers(image),
            routes: published::routes(&image.routes),
            options: published::options(image),
        }
    }

    /// The published build of the image's mode.
    pub fn build(self) -> Result<Built, AddressBuildError<u64>> {
        let Self { mode, operations, given, handlers, routes, options } = self;
        let payload = published::payload;
        match mode {
            0 => build_address_cfg(operations, &handlers, options, payload),
            1 => build_address_cfg_with_routes(operations, &handlers, &routes, options, payload),
            _ => build_address_cfg_from_given_edges(
                operations, given, &handlers, &routes, options, payload,
            ),
        }
    }
}

impl Session {
    /// The build alone, without the addition of the image's routes: refusals 3
    /// to 16, and 19.
    pub fn build(image: &Image) -> Result<Self, Refusal> {
        let graph = Inputs::of(image).build().map_err(published::refusal)?;
        if graph.cfg.edge_count() > limit::EDGES {
            return Err(Refusal::new(19, 0, 0));
        }
        Ok(Self {
            graph,
            instructions: image.instructions.clone(),
            handlers: image.handlers.clone(),
        })
    }

    /// A graph that was not built here, one that 21 lets pass: its table, entry,
    /// blocks and edges. No addition looks at the rest, which is left out.
    pub fn of(contents: &Contents) -> Self {
        let instructions: Vec<Instruction> = contents.table.iter().map(instruction).collect();
        let operations = published::operations(&instructions);
        let mut cfg = Cfg::with_edge_payload();
        for _ in 1..contents.blocks.len() {
            cfg.new_block();
        }
        let ids: Vec<BlockId> = cfg.block_ids().collect();
        let built = contents.built_blocks();
        let mut instruction_blocks = BTreeMap::new();
        for (number, (block, &id)) in contents.blocks.iter().zip(&ids).enumerate() {
            let run = &operations[block.first..block.first + block.count];
            cfg.block_mut(id).instructions_mut().extend_from_slice(run);
            if number < built {
                instruction_blocks.extend(run.iter().map(|operation| (operation.address, id)));
            }
        }
        for edge in &contents.edges {
            let (source, target) = (ids[edge.source], ids[edge.target]);
            cfg.add_edge_with_payload(source, target, published::kind(edge.kind), edge.payload);
        }
        cfg.set_entry(ids[contents.entry]);
        let graph = AddressGraph {
            cfg,
            instruction_blocks,
            handler_refs: Vec::new(),
            unresolved_transfers: Vec::new(),
            calls: Vec::new(),
        };
        Self { graph, instructions, handlers: Vec::new() }
    }

    /// Adds routes: refusals 10 to 12, 14, 15, 17, then 18 to 20 on the whole
    /// result. A refused addition leaves the graph as it was.
    pub fn add(&mut self, routes: &[Route]) -> Result<Vec<Hop>, Refusal> {
        let before = self.graph.cfg.clone();
        let routes = published::routes(routes);
        let hops = self
            .graph
            .add_unwind_routes(&routes, published::payload)
            .map_err(published::refusal)?;
        if let Some(number) = excess(&self.graph.cfg, &hops) {
            self.graph.cfg = before;
            return Err(Refusal::new(number, 0, 0));
        }
        Ok(hops.into_iter().map(hop).collect())
    }

    /// All that the graph holds.
    pub fn contents(&self) -> Contents {
        let cfg = &self.graph.cfg;
        Contents {
            table: self.instructions.iter().map(row).collect(),
            entry: cfg.entry().index(),
            blocks: cfg.blocks().map(|block| run(block.instructions())).collect(),
            edges: cfg
                .edges()
                .map(|edge| Edge {
                    source: edge.source().index(),
                    target: edge.target().index(),
                    kind: published::kind_number(edge.data().kind()),
                    payload: *edge.data().payload(),
                })
                .collect(),
            regions: self.regions(),
            references: self.references(),
            unresolved: self
                .graph
                .unresolved_transfers
                .iter()
                .map(|record| {
                    let (role, case) = published::unresolved_role(record.role);
                    Unresolved { source: record.source, target: record.target, role, case }
                })
                .collect(),
            calls: self
                .graph
                .calls
                .iter()
                .map(|call| Call { source: call.source, target: call.target })
                .collect(),
        }
    }

    fn references(&self) -> Vec<Reference> {
        let references = self.graph.handler_refs.iter();
        references
            .map(|one| Reference { region: one.region().index(), place: one.index() })
            .collect()
    }

    /// The regions. The published Rust keeps no range of a region: it is that
    /// of any of its handlers.
    fn regions(&self) -> Vec<Region> {
        let ranges = self.references().into_iter().zip(&self.handlers);
        let mut ranges: Vec<_> =
            ranges.map(|(one, handler)| (one.region, handler.start, handler.end)).collect();
        ranges.sort_unstable();
        ranges.dedup();
        let regions = self.graph.cfg.regions().iter().zip(ranges);
        regions
            .map(|(region, (_, start, end))| Region {
                parent: region.parent.map(|parent| parent.index()),
                start,
                end,
                protected: region.protected_blocks.iter().map(|block| block.index()).collect(),
                handlers: region.handlers.iter().map(region_handler).collect(),
            })
            .collect()
    }
}

/// The first of 18 to 20 that the result of an addition calls for.
fn excess(cfg: &Cfg<Operation, Payload>, hops: &[UnwindHop]) -> Option<u8> {
    let lists: usize = hops.iter().map(|hop| hop.calls.len()).sum();
    if cfg.block_count() > limit::BLOCKS {
        Some(18)
    } else if cfg.edge_count() > limit::EDGES {
        Some(19)
    } else if hops.len() > limit::HOPS || lists > limit::CALL_LISTS {
        Some(20)
    } else {
        None
    }
}

fn hop(hop: UnwindHop) -> Hop {
    Hop {
        source: hop.source.index(),
        end: match hop.end {
            HopEnd::Block(block) => Some(block.index()),
            HopEnd::Leave => None,
        },
        lists: hop.calls,
    }
}

/// An instruction of a table, whose targets no graph keeps.
fn instruction(row: &Row) -> Instruction {
    Instruction {
        address: row.address,
        end: Some(row.end),
        keeps: row.keeps,
        flow: row.flow,
        ..Instruction::default()
    }
}

fn row(instruction: &Instruction) -> Row {
    Row {
        address: instruction.address,
        end: instruction.end.expect("a built table has every end"),
        keeps: instruction.keeps,
        flow: instruction.flow,
    }
}

fn run(operations: &[Operation]) -> Block {
    Block { first: operations.first().map_or(0, |first| first.position), count: operations.len() }
}

fn region_handler(handler: &cfglib::region::Handler) -> RegionHandler {
    let (kind, filter) = published::handler_kind(handler.kind);
    RegionHandler { entry: handler.entry.index(), kind, filter }
}
