
/// Added while building: a way to what is private above.
pub mod reach {
    use dt_tools_parser::ast;

    use crate::{diag::Diag, mir::MirPhandleTarget};

    pub use super::dt_property::reach::{bits_size, bytestring, cells};

    pub fn build_path(parent: &str, name: &str) -> String {
        super::dt_node::build_path(parent, name)
    }

    pub fn lower_phandle(diag: &mut Diag<'_>, phandle: &ast::DtPhandle) -> Result<MirPhandleTarget, ()> {
        super::lower_phandle(diag, phandle)
    }
}
