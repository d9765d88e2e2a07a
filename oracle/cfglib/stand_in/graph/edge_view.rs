//! Stand-in for the borrowed edge: its number, its ends and what it carries.

#[derive(Debug)]
pub struct EdgeRef<'g, N, M, D> {
    id: M,
    source: N,
    target: N,
    data: &'g D,
}

impl<'g, N: Copy, M: Copy, D> EdgeRef<'g, N, M, D> {
    pub const fn new(id: M, source: N, target: N, data: &'g D) -> Self {
        Self { id, source, target, data }
    }

    pub fn id(&self) -> M {
        self.id
    }

    pub fn source(&self) -> N {
        self.source
    }

    pub fn target(&self) -> N {
        self.target
    }

    pub fn data(&self) -> &'g D {
        self.data
    }
}
