//! A filter node, as the handle check takes it apart.
use crate::Handle;

#[derive(Clone, Copy, Debug)]
pub struct DiagnosticFilterNode {
    pub inner: u32,
    pub parent: Option<Handle<DiagnosticFilterNode>>,
}
