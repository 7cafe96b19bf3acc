//! The kinds of tokens that docs/src names, and a few more directives.

#[derive(Debug, Clone, Copy, PartialEq, Eq, Hash)]
pub enum TokenKind {
    Name,
    Ident,
    Number,
    Char,
    String,
    DtBytestring,

    Slash,
    LCurly,
    Plus,
    Minus,
    Asterisk,
    Modulo,
    Ampersand,
    BitwiseNot,
    BitwiseOr,
    BitwiseXor,
    BitwiseShl,
    BitwiseShr,
    LogicalNot,
    LogicalAnd,
    LogicalOr,
    LAngle,
    RAngle,
    RelationalLtEq,
    RelationalGtEq,
    RelationalEq,
    RelationalNeq,
    QuestionMark,
    Colon,

    V1Directive,
    PluginDirective,
    DtIncludeDirective,
    DeleteNodeDirective,
    DeletePropertyDirective,
    OmitIfNoRefDirective,
    BitsDirective,
    MemreserveDirective,

    PreprocessorDirective,
    Whitespace,
}

impl TokenKind {
    #[must_use]
    pub fn is_dts_directive(self) -> bool {
        matches!(
            self,
            Self::V1Directive
                | Self::PluginDirective
                | Self::DtIncludeDirective
                | Self::DeleteNodeDirective
                | Self::DeletePropertyDirective
                | Self::OmitIfNoRefDirective
                | Self::BitsDirective
                | Self::MemreserveDirective
        )
    }

    #[must_use]
    pub fn is_preprocessor_directive(self) -> bool {
        self == Self::PreprocessorDirective
    }

    #[must_use]
    pub fn is_trivia(self) -> bool {
        self == Self::Whitespace
    }
}
