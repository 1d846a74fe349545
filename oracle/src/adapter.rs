//! Hands a routine to the Rust: one or a few bytecodes for each instruction record, and the tables they look up.

use crate::{
    binary_views::{BinaryIndexedView, FunctionView, Tables},
    control_flow_graph::{BasicBlock, VMControlFlowGraph},
    errors::PartialVMResult,
    file_format::*,
    listing::{Instruction, Routine},
    reference_safety,
};
use std::collections::HashMap;

pub struct Adapted {
    pub tables: Tables,
    pub name_def_map: HashMap<IdentifierIndex, FunctionDefinitionIndex>,
    pub unit: CodeUnit,
    pub parameters: Signature,
    pub return_: Signature,
    pub locals: Signature,
    pub cfg: VMControlFlowGraph,
    /// The instruction record that each bytecode stands for.
    pub records: Vec<u16>,
}

fn token(token: u8) -> SignatureToken {
    match token {
        0 => SignatureToken::U64,
        1 => SignatureToken::Reference(Box::new(SignatureToken::U64)),
        _ => SignatureToken::MutableReference(Box::new(SignatureToken::U64)),
    }
}

fn signature(tokens: &[u8]) -> Signature {
    Signature(tokens.iter().map(|t| token(*t)).collect())
}

/// The signature of one such token, as vector element types are looked up.
fn one(token: u8) -> SignatureIndex {
    SignatureIndex(token as u16)
}

/// A load of one such token.
fn load(token: u8) -> Bytecode {
    match token {
        0 => Bytecode::LdU64(0),
        _ => Bytecode::LdConst(ConstantPoolIndex(token as u16)),
    }
}

/// Takes one value and drops it.
const TAKE: Bytecode = Bytecode::BrTrue(0);

impl Adapted {
    pub fn new(routine: &Routine) -> Self {
        let mut adapted = Adapted {
            tables: Tables::default(),
            name_def_map: HashMap::new(),
            unit: CodeUnit { code: Instructions::default() },
            parameters: signature(&routine.parameters),
            return_: signature(&routine.returns),
            // AbstractState counts parameters and locals; it reads no type of a local.
            locals: signature(&vec![0; routine.locals as usize - routine.parameters.len()]),
            cfg: VMControlFlowGraph::default(),
            records: vec![],
        };
        for t in 0..3 {
            adapted.tables.signatures.push(signature(&[t]));
            adapted.tables.constants.push(Constant { type_: token(t) });
        }
        let mut starts = Vec::with_capacity(routine.code.len() + 1);
        for (at, instruction) in routine.code.iter().enumerate() {
            starts.push(adapted.unit.code.all.len() as u16);
            adapted.add(instruction);
            adapted.records.resize(adapted.unit.code.all.len(), at as u16);
        }
        starts.push(adapted.unit.code.all.len() as u16);
        for (at, block) in routine.blocks.iter().enumerate() {
            let start = |entry: u16| starts[entry as usize];
            let basic = BasicBlock {
                exit: start(block.exit + 1) - 1,
                successors: block.successors.iter().map(|s| start(*s)).collect(),
                next: routine.blocks.get(at + 1).map(|b| start(b.entry)),
            };
            adapted.cfg.blocks.insert(start(block.entry), basic);
        }
        adapted
    }

    fn add(&mut self, instruction: &Instruction) {
        match instruction {
            Instruction::Call { parameters, acquired, returns } => {
                let call = self.function(*parameters, acquired, returns);
                self.unit.code.all.push(Bytecode::Call(call))
            }
            // Only its kind of effect matters, not which load, arithmetic or branch it is. Casts, Not and Exists
            // leave the Rust's stack alone; the record takes a value and pushes one.
            Instruction::Values { takes, pushes, token } => self.values(*takes, *pushes, *token),
            Instruction::Vector { takes, mutable, pushes, token } => {
                self.vector(*takes, *mutable, *pushes, *token)
            }
            other => self.unit.code.all.push(single(other)),
        }
    }

    /// Each call has its own function, defined in this module, so that its acquired resources count.
    fn function(&mut self, parameters: u8, acquired: &[u16], returns: &[u8]) -> FunctionHandleIndex {
        let number = self.tables.function_handles.len() as u16;
        let first = self.tables.signatures.len() as u16;
        self.tables.signatures.push(signature(&vec![0; parameters as usize]));
        self.tables.signatures.push(signature(returns));
        self.tables.function_handles.push(FunctionHandle {
            name: IdentifierIndex(number),
            parameters: SignatureIndex(first),
            return_: SignatureIndex(first + 1),
        });
        self.tables.function_defs.push(FunctionDefinition {
            function: FunctionHandleIndex(number),
            acquires_global_resources: acquired.iter().map(|a| StructDefinitionIndex(*a)).collect(),
        });
        self.name_def_map.insert(IdentifierIndex(number), FunctionDefinitionIndex(number));
        FunctionHandleIndex(number)
    }

    fn values(&mut self, takes: u16, pushes: u16, token: u8) {
        let code = &mut self.unit.code.all;
        // 17 pushes are beyond the limit of 16 operands wherever they start.
        let unpack = Bytecode::VecUnpack(one(token), pushes.min(17) as u64);
        match (takes, pushes, token) {
            (0, 0, _) => code.push(Bytecode::Nop),
            (1, 0, _) => code.push(TAKE),
            (0, 1, _) => code.push(load(token)),
            (2, 1, 0) => code.push(Bytecode::Add),
            (_, 1, 0) => code.push(Bytecode::VecPack(one(0), takes as u64)),
            (1, _, _) => code.push(unpack),
            _ => code.extend([Bytecode::VecPack(one(0), takes as u64), unpack]),
        }
    }

    /// VecLen, PushBack, PopBack and Swap are one bytecode each; the other records of this kind are put together.
    fn vector(&mut self, takes: u8, mutable: bool, pushes: u8, token: u8) {
        let code = &mut self.unit.code.all;
        let element = one(token);
        if !mutable {
            code.extend((0..takes).map(|_| TAKE));
            code.push(Bytecode::VecLen(element));
            match (pushes, token) {
                (0, _) => code.push(TAKE),
                (_, 0) => (),
                _ => code.extend([TAKE, load(token)]),
            }
            return;
        }
        match (takes, pushes) {
            (0, 0) => code.extend([Bytecode::VecPopBack(one(0)), TAKE]),
            (0, _) => code.push(Bytecode::VecPopBack(element)),
            (1, _) => code.push(Bytecode::VecPushBack(element)),
            _ => code.push(Bytecode::VecSwap(element)),
        }
        if takes > 0 && pushes > 0 {
            code.push(load(token))
        }
    }

    pub fn view(&self) -> FunctionView<'_> {
        FunctionView {
            code: &self.unit,
            parameters: &self.parameters,
            return_: &self.return_,
            locals: &self.locals,
            cfg: &self.cfg,
        }
    }

    /// The Rust's `verify`.
    pub fn verify(&self) -> PartialVMResult<()> {
        reference_safety::verify(&BinaryIndexedView(&self.tables), &self.view(), &self.name_def_map)
    }
}

fn single(instruction: &Instruction) -> Bytecode {
    use Instruction::*;
    match *instruction {
        Pop => Bytecode::Pop,
        CopyLoc(local) => Bytecode::CopyLoc(local),
        MoveLoc(local) => Bytecode::MoveLoc(local),
        StLoc(local) => Bytecode::StLoc(local),
        FreezeRef => Bytecode::FreezeRef,
        Eq => Bytecode::Eq,
        ReadRef => Bytecode::ReadRef,
        WriteRef => Bytecode::WriteRef,
        BorrowLoc { local, mutable: true } => Bytecode::MutBorrowLoc(local),
        BorrowLoc { local, mutable: false } => Bytecode::ImmBorrowLoc(local),
        BorrowField { number, mutable: true } => Bytecode::MutBorrowField(FieldHandleIndex(number)),
        BorrowField { number, mutable: false } => Bytecode::ImmBorrowField(FieldHandleIndex(number)),
        BorrowGlobal { number, mutable: true } => Bytecode::MutBorrowGlobal(StructDefinitionIndex(number)),
        BorrowGlobal { number, mutable: false } => Bytecode::ImmBorrowGlobal(StructDefinitionIndex(number)),
        MoveFrom(number) => Bytecode::MoveFrom(StructDefinitionIndex(number)),
        Ret => Bytecode::Ret,
        MoveTo => Bytecode::MoveTo(StructDefinitionIndex(0)),
        Element { mutable: true } => Bytecode::VecMutBorrow(one(0)),
        Element { mutable: false } => Bytecode::VecImmBorrow(one(0)),
        Call { .. } | Values { .. } | Vector { .. } => unreachable!("these have their own functions"),
    }
}
