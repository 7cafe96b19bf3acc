
/// Added while building: a way to what is private above.
pub(crate) mod reach {
    use dt_tools_parser::{ast, cst::RedToken};

    use crate::{diag::Diag, mir::MirCellList};

    pub fn bytestring(diag: &mut Diag<'_>, tok: &RedToken) -> Result<Vec<u8>, ()> {
        super::lower_bytestring(diag, tok)
    }

    /// The bits of a cell, by the number behind `/bits/`.
    pub fn bits_size(tok: Option<&RedToken>, diag: &mut Diag<'_>) -> Result<u8, ()> {
        Ok(match super::BitsSize::from_token(tok, diag)? {
            super::BitsSize::Bits8 => 8,
            super::BitsSize::Bits16 => 16,
            super::BitsSize::Bits32 => 32,
            super::BitsSize::Bits64 => 64,
        })
    }

    /// A whole cell list, its width included.
    pub fn cells(diag: &mut Diag<'_>, list: &ast::DtCellList) -> Result<MirCellList, ()> {
        let size = super::BitsSize::from_token(list.bits_number().as_ref(), diag)?;
        Ok(super::lower_cell_list(diag, list, size))
    }
}
