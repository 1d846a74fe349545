//! Stand-in for the types of the file format that the pass reads, each cut to the fields that it reads.

use std::{cell::Cell, fmt, ops::Index};

pub type LocalIndex = u8;
pub type CodeOffset = u16;

macro_rules! define_index {
    ($($name:ident)*) => { $(
        #[derive(Clone, Copy, Debug, Eq, Hash, Ord, PartialEq, PartialOrd)]
        pub struct $name(pub u16);

        impl fmt::Display for $name {
            fn fmt(&self, f: &mut fmt::Formatter) -> fmt::Result {
                write!(f, "{}", self.0)
            }
        }
    )* };
}

define_index! {
    ConstantPoolIndex
    FieldHandleIndex
    FieldInstantiationIndex
    FunctionDefinitionIndex
    FunctionHandleIndex
    FunctionInstantiationIndex
    IdentifierIndex
    SignatureIndex
    StructDefInstantiationIndex
    StructDefinitionIndex
}

#[derive(Clone, Debug)]
pub enum SignatureToken {
    Bool,
    U8,
    U64,
    U128,
    Vector(Box<SignatureToken>),
    Reference(Box<SignatureToken>),
    MutableReference(Box<SignatureToken>),
}

impl SignatureToken {
    pub fn is_reference(&self) -> bool {
        matches!(self, SignatureToken::Reference(_) | SignatureToken::MutableReference(_))
    }

    pub fn is_mutable_reference(&self) -> bool {
        matches!(self, SignatureToken::MutableReference(_))
    }
}

#[derive(Clone, Debug)]
pub struct Signature(pub Vec<SignatureToken>);

impl Signature {
    pub fn len(&self) -> usize {
        self.0.len()
    }

    pub fn is_empty(&self) -> bool {
        self.0.is_empty()
    }
}

#[derive(Clone, Debug, Eq, PartialEq)]
pub struct FunctionHandle {
    pub name: IdentifierIndex,
    pub parameters: SignatureIndex,
    pub return_: SignatureIndex,
}

pub struct FunctionDefinition {
    pub function: FunctionHandleIndex,
    pub acquires_global_resources: Vec<StructDefinitionIndex>,
}

pub struct FunctionInstantiation {
    pub handle: FunctionHandleIndex,
}

pub struct FieldInstantiation {
    pub handle: FieldHandleIndex,
}

pub struct StructDefInstantiation {
    pub def: StructDefinitionIndex,
}

pub enum StructFieldInformation {
    Native,
    Declared(Vec<SignatureToken>),
}

pub struct StructDefinition {
    pub field_information: StructFieldInformation,
}

pub struct Constant {
    pub type_: SignatureToken,
}

/// The instructions, with the index of the one read last: where a run that panics stood.
#[derive(Default)]
pub struct Instructions {
    pub all: Vec<Bytecode>,
    pub last: Cell<usize>,
}

impl Index<usize> for Instructions {
    type Output = Bytecode;

    fn index(&self, at: usize) -> &Bytecode {
        self.last.set(at);
        &self.all[at]
    }
}

pub struct CodeUnit {
    pub code: Instructions,
}

/// The variants that mod.rs tells apart.
#[derive(Clone, Debug)]
pub enum Bytecode {
    Pop,
    Ret,
    BrTrue(CodeOffset),
    BrFalse(CodeOffset),
    Branch(CodeOffset),
    LdU8(u8),
    LdU64(u64),
    LdU128(u128),
    CastU8,
    CastU64,
    CastU128,
    LdConst(ConstantPoolIndex),
    LdTrue,
    LdFalse,
    CopyLoc(LocalIndex),
    MoveLoc(LocalIndex),
    StLoc(LocalIndex),
    Call(FunctionHandleIndex),
    CallGeneric(FunctionInstantiationIndex),
    Pack(StructDefinitionIndex),
    PackGeneric(StructDefInstantiationIndex),
    Unpack(StructDefinitionIndex),
    UnpackGeneric(StructDefInstantiationIndex),
    ReadRef,
    WriteRef,
    FreezeRef,
    MutBorrowLoc(LocalIndex),
    ImmBorrowLoc(LocalIndex),
    MutBorrowField(FieldHandleIndex),
    MutBorrowFieldGeneric(FieldInstantiationIndex),
    ImmBorrowField(FieldHandleIndex),
    ImmBorrowFieldGeneric(FieldInstantiationIndex),
    MutBorrowGlobal(StructDefinitionIndex),
    MutBorrowGlobalGeneric(StructDefInstantiationIndex),
    ImmBorrowGlobal(StructDefinitionIndex),
    ImmBorrowGlobalGeneric(StructDefInstantiationIndex),
    Add,
    Sub,
    Mul,
    Mod,
    Div,
    BitOr,
    BitAnd,
    Xor,
    Or,
    And,
    Not,
    Eq,
    Neq,
    Lt,
    Gt,
    Le,
    Ge,
    Abort,
    Nop,
    Exists(StructDefinitionIndex),
    ExistsGeneric(StructDefInstantiationIndex),
    MoveFrom(StructDefinitionIndex),
    MoveFromGeneric(StructDefInstantiationIndex),
    MoveTo(StructDefinitionIndex),
    MoveToGeneric(StructDefInstantiationIndex),
    Shl,
    Shr,
    VecPack(SignatureIndex, u64),
    VecLen(SignatureIndex),
    VecImmBorrow(SignatureIndex),
    VecMutBorrow(SignatureIndex),
    VecPushBack(SignatureIndex),
    VecPopBack(SignatureIndex),
    VecUnpack(SignatureIndex, u64),
    VecSwap(SignatureIndex),
}
