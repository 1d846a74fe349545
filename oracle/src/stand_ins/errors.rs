//! Stand-in for the errors: a status, the offset it was found at and, from a watched run, where what it fails on was
//! borrowed.

use crate::{
    file_format::{CodeOffset, FunctionDefinitionIndex},
    vm_status::StatusCode,
};

pub type PartialVMResult<T> = Result<T, PartialVMError>;

#[derive(Clone, Debug)]
pub struct PartialVMError {
    pub status: StatusCode,
    pub offset: Option<CodeOffset>,
    /// By record: the lowest and the highest offset of the edges that would each alone fail the failed test.
    pub borrowed: Option<(CodeOffset, CodeOffset)>,
}

impl PartialVMError {
    pub fn new(status: StatusCode) -> Self {
        PartialVMError { status, offset: None, borrowed: None }
    }

    pub fn at_code_offset(self, _function: FunctionDefinitionIndex, offset: CodeOffset) -> Self {
        PartialVMError { offset: Some(offset), ..self }
    }
}
