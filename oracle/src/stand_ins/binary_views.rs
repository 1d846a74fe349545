//! Stand-ins for the resolver and the view of one function. The resolver answers what the records say.

use crate::{control_flow_graph::VMControlFlowGraph, errors::PartialVMResult, file_format::*};

/// The tables of one listing. Records name no generic instantiation and no struct definition, so those
/// look-ups have no table; they are never reached.
#[derive(Default)]
pub struct Tables {
    pub signatures: Vec<Signature>,
    pub constants: Vec<Constant>,
    pub function_handles: Vec<FunctionHandle>,
    pub function_defs: Vec<FunctionDefinition>,
}

pub struct BinaryIndexedView<'a>(pub &'a Tables);

impl<'a> BinaryIndexedView<'a> {
    pub fn signature_at(&self, at: SignatureIndex) -> &Signature {
        &self.0.signatures[at.0 as usize]
    }

    pub fn constant_at(&self, at: ConstantPoolIndex) -> &Constant {
        &self.0.constants[at.0 as usize]
    }

    pub fn function_handle_at(&self, at: FunctionHandleIndex) -> &FunctionHandle {
        &self.0.function_handles[at.0 as usize]
    }

    pub fn function_def_at(&self, at: FunctionDefinitionIndex) -> PartialVMResult<&FunctionDefinition> {
        Ok(&self.0.function_defs[at.0 as usize])
    }

    pub fn function_instantiation_at(&self, _: FunctionInstantiationIndex) -> &FunctionInstantiation {
        unreachable!()
    }

    pub fn field_instantiation_at(&self, _: FieldInstantiationIndex) -> PartialVMResult<&FieldInstantiation> {
        unreachable!()
    }

    pub fn struct_instantiation_at(
        &self,
        _: StructDefInstantiationIndex,
    ) -> PartialVMResult<&StructDefInstantiation> {
        unreachable!()
    }

    pub fn struct_def_at(&self, _: StructDefinitionIndex) -> PartialVMResult<&StructDefinition> {
        unreachable!()
    }
}

pub struct FunctionView<'a> {
    pub code: &'a CodeUnit,
    pub parameters: &'a Signature,
    pub return_: &'a Signature,
    pub locals: &'a Signature,
    pub cfg: &'a VMControlFlowGraph,
}

impl<'a> FunctionView<'a> {
    pub fn index(&self) -> Option<FunctionDefinitionIndex> {
        None
    }

    pub fn code(&self) -> &CodeUnit {
        self.code
    }

    pub fn parameters(&self) -> &Signature {
        self.parameters
    }

    pub fn return_(&self) -> &Signature {
        self.return_
    }

    pub fn locals(&self) -> &Signature {
        self.locals
    }

    pub fn cfg(&self) -> &VMControlFlowGraph {
        self.cfg
    }
}
