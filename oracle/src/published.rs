//! Between the image's records and the published Rust's types, both ways.

use cfglib::block::BlockId;
use cfglib::builder::address::{
    AddressBuildError, AddressCfgOptions, AddressEdgeInfo, AddressHandler, AddressInstruction,
    CallPolicy, GivenEdge, GivenEdges, UnwindEnd, UnwindPath, UnwindRoute, UnwindStep,
};
use cfglib::edge::EdgeKind;
use cfglib::flow::{EdgeRole, Flow, UnresolvedRole};
use cfglib::region::HandlerKind;

use crate::contents::Payload;
use crate::image::{self, flow, End, Image, Instruction, Refusal, Route, Step};

/// The role of a given edge, after those of `EdgeRole`.
pub const GIVEN_ROLE: u8 = 11;

/// An instruction as the published builder takes it.
#[derive(Debug, Clone, PartialEq, Eq)]
pub struct Operation {
    pub position: usize,
    pub address: u64,
    pub end: Option<u64>,
    pub keeps: bool,
    pub flow: Flow<u64, u32>,
}

impl AddressInstruction for Operation {
    type Address = u64;
    type CaseKey = u32;

    fn address(&self) -> u64 {
        self.address
    }

    fn end_address(&self) -> Option<u64> {
        self.end
    }

    fn flow(&self) -> Flow<u64, u32> {
        self.flow.clone()
    }

    fn retains_exception_edge(&self) -> bool {
        self.keeps
    }
}

pub fn operations(instructions: &[Instruction]) -> Vec<Operation> {
    let numbered = instructions.iter().enumerate();
    numbered
        .map(|(position, instruction)| Operation {
            position,
            address: instruction.address,
            end: instruction.end,
            keeps: instruction.keeps,
            flow: flow_of(instruction),
        })
        .collect()
}

fn flow_of(instruction: &Instruction) -> Flow<u64, u32> {
    let target = instruction.target;
    match instruction.flow {
        flow::NEXT => Flow::Next,
        flow::RETURN => Flow::Return,
        flow::THROW => Flow::Throw,
        flow::INDIRECT => Flow::Indirect,
        flow::CONDITIONAL_INDIRECT => Flow::ConditionalIndirect,
        flow::INDIRECT_CALL => Flow::IndirectCall,
        flow::JUMP => Flow::Jump { target },
        flow::CONDITIONAL => Flow::Conditional { target },
        flow::CALL => Flow::Call { target },
        flow::EXCEPTIONAL => Flow::Exceptional { target },
        flow::TRAP => Flow::Trap,
        flow::CONDITIONAL_TRAP => Flow::ConditionalTrap,
        flow::SWITCH => Flow::Switch {
            default: target,
            cases: instruction.cases.iter().map(|case| (case.key, case.target)).collect(),
        },
        code => unreachable!("flow {code} was refused by the reader"),
    }
}

pub fn options(image: &Image) -> AddressCfgOptions<u64> {
    let calls = if image.calls == 0 { CallPolicy::Edges } else { CallPolicy::Flatten };
    AddressCfgOptions { entry: image.entry, calls }
}

pub fn given(image: &Image) -> GivenEdges<u64, Payload> {
    let edge = |edge: &image::GivenEdge| GivenEdge {
        target: edge.target,
        kind: kind(edge.kind),
        payload: Payload {
            role: GIVEN_ROLE,
            number: u64::from(edge.payload),
            ..Payload::default()
        },
    };
    let sources = image.given.iter();
    sources.map(|source| (source.address, source.edges.iter().map(edge).collect())).collect()
}

pub fn handlers(image: &Image) -> Vec<AddressHandler<u64>> {
    let handlers = image.handlers.iter();
    handlers
        .map(|handler| AddressHandler {
            protected: handler.start..handler.end,
            entry: handler.entry,
            kind: match handler.kind {
                0 => HandlerKind::Catch,
                1 => HandlerKind::CatchAll,
                2 => HandlerKind::Finally,
                3 => HandlerKind::Fault,
                _ => HandlerKind::Filter { filter_block: BlockId::from_raw(handler.filter) },
            },
        })
        .collect()
}

/// A handler kind's number, and its filter block.
pub fn handler_kind(kind: HandlerKind) -> (u8, Option<u32>) {
    match kind {
        HandlerKind::Catch => (0, None),
        HandlerKind::CatchAll => (1, None),
        HandlerKind::Finally => (2, None),
        HandlerKind::Fault => (3, None),
        HandlerKind::Filter { filter_block } => (4, Some(filter_block.index() as u32)),
    }
}

pub fn routes(routes: &[Route]) -> Vec<UnwindRoute<u64>> {
    let step = |step: &Step| match *step {
        Step::Funclet(address) => UnwindStep::Funclet(address),
        Step::Call(tag) => UnwindStep::Call(tag),
    };
    let path = |path: &image::Path| UnwindPath {
        steps: path.steps.iter().map(step).collect(),
        end: match path.end {
            End::Handler(address) => UnwindEnd::Handler(address),
            End::Propagate => UnwindEnd::Propagate,
            End::Resume => UnwindEnd::Resume,
        },
    };
    routes
        .iter()
        .map(|route| UnwindRoute {
            protected: route.start..route.end,
            paths: route.paths.iter().map(path).collect(),
        })
        .collect()
}

/// The kinds as document 01 counts them.
const KINDS: [EdgeKind; 8] = [
    EdgeKind::Fallthrough,
    EdgeKind::ConditionalTrue,
    EdgeKind::ConditionalFalse,
    EdgeKind::Jump,
    EdgeKind::SwitchCase,
    EdgeKind::Call,
    EdgeKind::CallReturn,
    EdgeKind::ExceptionUnwind,
];

/// The kind of a number below 8.
pub fn kind(number: u8) -> EdgeKind {
    KINDS[usize::from(number)]
}

pub fn kind_number(kind: EdgeKind) -> u8 {
    KINDS.iter().position(|&one| one == kind).expect("one of the eight") as u8
}

/// What the graph keeps of an edge's description.
pub fn payload(info: AddressEdgeInfo<'_, u64, u32>) -> Payload {
    let (role, number, case_key) = match info.role {
        EdgeRole::Sequential => (0, 0, 0),
        EdgeRole::ConditionalTaken => (1, 0, 0),
        EdgeRole::ConditionalFallThrough => (2, 0, 0),
        EdgeRole::Jump => (3, 0, 0),
        EdgeRole::SwitchDefault => (4, 0, 0),
        EdgeRole::SwitchCase { index, key } => (5, index as u64, u64::from(*key)),
        EdgeRole::Call => (6, 0, 0),
        EdgeRole::CallContinuation { call_site } => (7, call_site, 0),
        EdgeRole::Exceptional => (8, 0, 0),
        EdgeRole::Unwind { handler } => (9, handler as u64, 0),
        EdgeRole::Route { route } => (10, route as u64, 0),
    };
    Payload { role, number, case_key, source_address: info.source, target_address: info.target }
}

/// An unresolved role's number, and its case index.
pub fn unresolved_role(role: UnresolvedRole) -> (u8, Option<usize>) {
    match role {
        UnresolvedRole::Indirect => (0, None),
        UnresolvedRole::IndirectCall => (1, None),
        UnresolvedRole::ConditionalTaken => (2, None),
        UnresolvedRole::ConditionalIndirect => (3, None),
        UnresolvedRole::Jump => (4, None),
        UnresolvedRole::SwitchDefault => (5, None),
        UnresolvedRole::SwitchCase { index } => (6, Some(index)),
        UnresolvedRole::Call => (7, None),
        UnresolvedRole::Exceptional => (8, None),
        UnresolvedRole::Trap => (9, None),
    }
}

/// Document 01's number and values of an error of the published Rust.
pub fn refusal(error: AddressBuildError<u64>) -> Refusal {
    use AddressBuildError as Error;
    match error {
        Error::AddressOverflow { address } => Refusal::new(3, address, 0),
        Error::ZeroSizeInstruction { address } => Refusal::new(4, address, 0),
        Error::UnorderedInstruction { previous, address } => Refusal::new(5, previous, address),
        Error::MissingEntry { address } => Refusal::new(6, address, 0),
        Error::MissingGivenSource { address } => Refusal::new(7, address, 0),
        Error::MissingGivenTarget { source, target } => Refusal::new(8, source, target),
        Error::TransferWithoutGivenEdges { address } => Refusal::new(9, address, 0),
        Error::EmptyProtectedRange { start, end } => Refusal::new(10, start, end),
        Error::MissingRangeStart { address } => Refusal::new(11, address, 0),
        Error::MissingRangeEnd { address } => Refusal::new(12, address, 0),
        Error::MissingHandlerEntry { address } => Refusal::new(13, address, 0),
        Error::MissingRouteEntry { address } => Refusal::new(14, address, 0),
        Error::ResumeAfterFunclet { route } => Refusal::new(15, route as u64, 0),
        Error::MissingContinuation { source, target } => Refusal::new(16, source, target),
        Error::RouteAddressNotBlockStart { address } => Refusal::new(17, address, 0),
    }
}
