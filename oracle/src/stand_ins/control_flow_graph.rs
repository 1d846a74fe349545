//! Stand-in for the control-flow graph: the listing's own blocks, order and numbers.

use crate::file_format::CodeOffset;
use std::{cell::Cell, collections::BTreeMap};

pub type BlockId = CodeOffset;

/// What absint.rs asks of a graph.
pub trait ControlFlowGraph {
    fn block_end(&self, block_id: BlockId) -> CodeOffset;
    fn successors(&self, block_id: BlockId) -> &Vec<BlockId>;
    fn next_block(&self, block_id: BlockId) -> Option<BlockId>;
    fn instr_indexes(&self, block_id: BlockId) -> Box<dyn Iterator<Item = CodeOffset>>;
    fn entry_block_id(&self) -> BlockId;
    fn is_back_edge(&self, cur: BlockId, next: BlockId) -> bool;
}

pub struct BasicBlock {
    pub exit: CodeOffset,
    pub successors: Vec<BlockId>,
    /// The block listed after this one.
    pub next: Option<BlockId>,
}

#[derive(Default)]
pub struct VMControlFlowGraph {
    pub blocks: BTreeMap<BlockId, BasicBlock>,
    pub visits: Cell<u32>,
}

impl ControlFlowGraph for VMControlFlowGraph {
    fn block_end(&self, block_id: BlockId) -> CodeOffset {
        self.blocks[&block_id].exit
    }

    fn successors(&self, block_id: BlockId) -> &Vec<BlockId> {
        &self.blocks[&block_id].successors
    }

    /// Asked once after each run of a block, a failed one too, so this is where a visit ends.
    fn next_block(&self, block_id: BlockId) -> Option<BlockId> {
        #[cfg(feature = "watched")]
        crate::graph::pass_up();
        self.blocks[&block_id].next
    }

    /// `execute_block` asks for these once in each run of a block, so this is where visits are counted.
    fn instr_indexes(&self, block_id: BlockId) -> Box<dyn Iterator<Item = CodeOffset>> {
        self.visits.set(self.visits.get() + 1);
        Box::new(block_id..=self.block_end(block_id))
    }

    /// The first listed block has entry 0.
    fn entry_block_id(&self) -> BlockId {
        0
    }

    /// Asked only of edges that there are.
    fn is_back_edge(&self, cur: BlockId, next: BlockId) -> bool {
        next <= cur
    }
}
