//! A description as a tree: each record of 01's input with what hangs below it.

pub const NODE: u32 = 1;
pub const PROPERTY: u32 = 2;
pub const DIRECTIVE: u32 = 3;
pub const PREPROCESSOR: u32 = 4;
pub const NAME: u32 = 5;
pub const UNIT_ADDRESS: u32 = 6;
pub const LABEL: u32 = 7;
pub const REFERENCE: u32 = 8;
pub const MACRO: u32 = 9;
pub const SLASH: u32 = 10;
pub const OMIT: u32 = 11;
pub const STRING: u32 = 12;
pub const CELL_LIST: u32 = 13;
pub const BYTESTRING: u32 = 14;
pub const NUMBER: u32 = 15;
pub const CHARACTER: u32 = 16;
pub const EXPRESSION: u32 = 17;
pub const PREFIX: u32 = 18;
pub const PARENTHESIS: u32 = 19;
pub const INFIX: u32 = 20;

pub type Span = (u32, u32);

/// A record. `more` is what W leads to: a node's items, a property's values.
#[derive(Debug, Clone, Default, PartialEq, Eq)]
pub struct Rec {
    pub kind: u32,
    pub text: Vec<u8>,
    pub w: u32,
    pub span: Span,
    pub child: Vec<Rec>,
    pub more: Vec<Rec>,
}

impl Rec {
    pub fn first(&self, kind: u32) -> Option<&Rec> {
        self.child.iter().find(|part| part.kind == kind)
    }

    /// Where the record lies, which tells it from all others of its description.
    pub fn address(&self) -> usize {
        std::ptr::from_ref(self).addr()
    }

    /// How many records this is.
    pub fn count(&self) -> usize {
        1 + count(&self.child) + count(&self.more)
    }
}

pub fn count(recs: &[Rec]) -> usize {
    recs.iter().map(Rec::count).sum()
}

/// The place of a record in a tree.
#[derive(Debug, Clone, Copy, PartialEq, Eq)]
pub enum Place {
    TopItem,
    Item,
    NodePart,
    PropertyPart,
    DirectivePart,
    UnitAddressPart,
    LabelPart,
    ReferencePart,
    Value,
    Cell,
    Expression,
}

impl Place {
    pub const ALL: [Self; 11] = [
        Self::TopItem,
        Self::Item,
        Self::NodePart,
        Self::PropertyPart,
        Self::DirectivePart,
        Self::UnitAddressPart,
        Self::LabelPart,
        Self::ReferencePart,
        Self::Value,
        Self::Cell,
        Self::Expression,
    ];

    /// The kinds that 01 allows in a place.
    pub fn kinds(self) -> &'static [u32] {
        match self {
            Self::TopItem | Self::Item => &[1, 2, 3, 4],
            Self::NodePart => &[5, 6, 7, 8, 9, 10, 11],
            Self::PropertyPart => &[5, 6, 9],
            Self::DirectivePart => &[5, 6, 8, 9],
            Self::UnitAddressPart | Self::LabelPart => &[5, 9],
            Self::ReferencePart => &[9],
            Self::Value => &[3, 4, 8, 9, 12, 13, 14],
            Self::Cell => &[3, 4, 8, 9, 15, 16, 17],
            Self::Expression => &[9, 15, 16, 18, 19, 20],
        }
    }

    /// The place of what hangs below a record of this kind by its child link.
    pub fn of_children(kind: u32) -> Option<Self> {
        Some(match kind {
            NODE => Self::NodePart,
            PROPERTY => Self::PropertyPart,
            DIRECTIVE => Self::DirectivePart,
            UNIT_ADDRESS => Self::UnitAddressPart,
            LABEL => Self::LabelPart,
            REFERENCE => Self::ReferencePart,
            CELL_LIST => Self::Cell,
            EXPRESSION | PREFIX | PARENTHESIS | INFIX => Self::Expression,
            _ => return None,
        })
    }

    /// The place of what hangs below a record of this kind by W.
    pub fn of_more(kind: u32) -> Option<Self> {
        match kind {
            NODE => Some(Self::Item),
            PROPERTY => Some(Self::Value),
            _ => None,
        }
    }
}

/// Calls `see` on each record with its place and the number of links to it, parts before items.
pub fn walk<'a>(recs: &'a [Rec], place: Place, depth: u32, see: &mut impl FnMut(&'a Rec, Place, u32)) {
    for rec in recs {
        see(rec, place, depth);
        if let Some(place) = Place::of_children(rec.kind) {
            walk(&rec.child, place, depth + 1, see);
        }
        if let Some(place) = Place::of_more(rec.kind) {
            walk(&rec.more, place, depth + 1, see);
        }
    }
}
