//! The kinds of records and their fields, from the tables of docs/FORMAT.md.

/// What an absent handle and an unused word hold.
pub const ABSENT: u32 = u32::MAX;

/// The tables that a handle can name an item of.
#[derive(Clone, Copy, Debug, PartialEq, Eq, Hash)]
pub enum Table {
    Type,
    Constant,
    Override,
    GlobalVariable,
    LocalVariable,
    Expression,
    Function,
    Filter,
}

#[derive(Clone, Copy)]
pub enum Field {
    Mark,
    Number,
    NonZero,
    Handle(Table),
    Optional(Table),
    Flag,
    Cased(&'static Cased),
}

/// A field of one byte and then as many words as the widest case has.
pub struct Cased {
    pub width: usize,
    /// The words of each case, by its byte. Unused words are left out.
    pub cases: &'static [&'static [Field]],
}

const MARK: Field = Field::Mark;
const NUMBER: Field = Field::Number;
const NON_ZERO: Field = Field::NonZero;
const FLAG: Field = Field::Flag;
const TYPE: Field = Field::Handle(Table::Type);
const OPT_TYPE: Field = Field::Optional(Table::Type);
const CONSTANT: Field = Field::Handle(Table::Constant);
const OVERRIDE: Field = Field::Handle(Table::Override);
const GLOBAL_VARIABLE: Field = Field::Handle(Table::GlobalVariable);
const OPT_GLOBAL_VARIABLE: Field = Field::Optional(Table::GlobalVariable);
const LOCAL_VARIABLE: Field = Field::Handle(Table::LocalVariable);
const EXPRESSION: Field = Field::Handle(Table::Expression);
const OPT_EXPRESSION: Field = Field::Optional(Table::Expression);
const FUNCTION: Field = Field::Handle(Table::Function);
const OPT_FILTER: Field = Field::Optional(Table::Filter);

const ARRAY_SIZE: Field = Field::Cased(&Cased {
    width: 1,
    cases: &[&[NON_ZERO], &[OVERRIDE], &[]],
});
const SAMPLE_LEVEL: Field = Field::Cased(&Cased {
    width: 2,
    cases: &[
        &[],
        &[],
        &[EXPRESSION],
        &[EXPRESSION],
        &[EXPRESSION, EXPRESSION],
    ],
});
const IMAGE_QUERY: Field = Field::Cased(&Cased {
    width: 1,
    cases: &[&[OPT_EXPRESSION], &[], &[], &[]],
});
const ATOMIC_FUNCTION: Field = Field::Cased(&Cased {
    width: 1,
    cases: &[&[], &[], &[], &[], &[], &[], &[], &[OPT_EXPRESSION]],
});
const GATHER_MODE: Field = Field::Cased(&Cased {
    width: 1,
    cases: &[
        &[],
        &[EXPRESSION],
        &[EXPRESSION],
        &[EXPRESSION],
        &[EXPRESSION],
        &[EXPRESSION],
        &[EXPRESSION],
        &[MARK],
    ],
});
const RAY_QUERY_FUNCTION: Field = Field::Cased(&Cased {
    width: 2,
    cases: &[
        &[EXPRESSION, EXPRESSION],
        &[EXPRESSION],
        &[EXPRESSION],
        &[],
        &[],
    ],
});
const RAY_PIPELINE_FUNCTION: Field = Field::Cased(&Cased {
    width: 3,
    cases: &[&[EXPRESSION, EXPRESSION, EXPRESSION]],
});
const MESH_INFO: Field = Field::Cased(&Cased {
    width: 8,
    cases: &[
        &[],
        &[
            MARK,
            NUMBER,
            OPT_EXPRESSION,
            NUMBER,
            OPT_EXPRESSION,
            TYPE,
            TYPE,
            GLOBAL_VARIABLE,
        ],
    ],
});

/// The fields of a kind of record, in order, or none for what is no kind.
pub const fn fields(kind: u8) -> Option<&'static [Field]> {
    Some(match kind {
        1 => &[MARK, TYPE, MARK, NUMBER],
        2 => &[EXPRESSION],
        3 => &[MARK, MARK, TYPE, OPT_EXPRESSION],
        4 => &[MARK, TYPE, EXPRESSION],
        5 => &[MARK, MARK, MARK, TYPE, OPT_EXPRESSION, MARK],
        6 => &[OPT_TYPE, OPT_TYPE, OPT_TYPE, OPT_TYPE, OPT_TYPE],
        7 => &[MARK, TYPE],
        8 => &[MARK, OPT_FILTER],
        9 => &[OPT_FILTER],
        11 => &[MARK, OPT_FILTER],
        12 => &[
            MARK,
            MARK,
            MARK,
            MARK,
            OPT_EXPRESSION,
            OPT_EXPRESSION,
            OPT_EXPRESSION,
            OPT_FILTER,
            MESH_INFO,
            OPT_GLOBAL_VARIABLE,
            OPT_GLOBAL_VARIABLE,
        ],
        13 => &[MARK, TYPE, MARK],
        14 => &[TYPE, MARK],
        15 => &[MARK, TYPE, OPT_EXPRESSION],
        16 => &[MARK, MARK],
        17 => &[MARK, MARK, MARK],
        18 => &[MARK, MARK, MARK, MARK],
        19 => &[MARK, MARK, MARK, MARK, MARK],
        20 => &[MARK, MARK],
        21 => &[MARK, TYPE, MARK],
        22 => &[MARK, MARK, MARK, MARK],
        23 => &[MARK, TYPE, ARRAY_SIZE, NUMBER],
        24 => &[MARK, NUMBER],
        25 => &[MARK, MARK, FLAG, MARK],
        26 => &[MARK, FLAG],
        27 => &[MARK, FLAG],
        28 => &[MARK, FLAG],
        29 => &[MARK, TYPE, ARRAY_SIZE],
        30 => &[EXPRESSION, MARK],
        31 => &[],
        64 => &[MARK],
        65 => &[CONSTANT],
        66 => &[OVERRIDE],
        67 => &[TYPE],
        68 => &[TYPE],
        69 => &[EXPRESSION, EXPRESSION],
        70 => &[EXPRESSION, NUMBER],
        71 => &[MARK, EXPRESSION],
        72 => &[MARK, EXPRESSION, MARK],
        73 => &[NUMBER],
        74 => &[GLOBAL_VARIABLE],
        75 => &[LOCAL_VARIABLE],
        76 => &[EXPRESSION],
        77 => &[
            EXPRESSION,
            EXPRESSION,
            MARK,
            EXPRESSION,
            OPT_EXPRESSION,
            OPT_EXPRESSION,
            SAMPLE_LEVEL,
            OPT_EXPRESSION,
            FLAG,
        ],
        78 => &[
            EXPRESSION,
            EXPRESSION,
            OPT_EXPRESSION,
            OPT_EXPRESSION,
            OPT_EXPRESSION,
        ],
        79 => &[EXPRESSION, IMAGE_QUERY],
        80 => &[MARK, EXPRESSION],
        81 => &[MARK, EXPRESSION, EXPRESSION],
        82 => &[EXPRESSION, EXPRESSION, EXPRESSION],
        83 => &[MARK, MARK, EXPRESSION],
        84 => &[MARK, EXPRESSION],
        85 => &[
            MARK,
            EXPRESSION,
            OPT_EXPRESSION,
            OPT_EXPRESSION,
            OPT_EXPRESSION,
        ],
        86 => &[EXPRESSION, MARK, MARK],
        87 => &[FUNCTION],
        88 => &[TYPE, FLAG],
        89 => &[TYPE],
        90 => &[EXPRESSION],
        91 => &[EXPRESSION, FLAG],
        92 => &[],
        93 => &[EXPRESSION, FLAG],
        94 => &[],
        95 => &[TYPE],
        96 => &[MARK, MARK, MARK, EXPRESSION, EXPRESSION, FLAG],
        97 => &[EXPRESSION, EXPRESSION, EXPRESSION],
        128 => &[NUMBER, NUMBER],
        129 => &[],
        130 => &[EXPRESSION],
        131 => &[EXPRESSION],
        132 => &[],
        133 => &[],
        134 => &[],
        135 => &[OPT_EXPRESSION],
        136 => &[],
        137 => &[MARK],
        138 => &[MARK],
        139 => &[EXPRESSION, EXPRESSION],
        140 => &[EXPRESSION, EXPRESSION, OPT_EXPRESSION, EXPRESSION],
        141 => &[EXPRESSION, ATOMIC_FUNCTION, EXPRESSION, OPT_EXPRESSION],
        142 => &[
            EXPRESSION,
            EXPRESSION,
            OPT_EXPRESSION,
            ATOMIC_FUNCTION,
            EXPRESSION,
        ],
        143 => &[EXPRESSION, EXPRESSION],
        144 => &[FUNCTION, OPT_EXPRESSION],
        145 => &[EXPRESSION, RAY_QUERY_FUNCTION],
        146 => &[RAY_PIPELINE_FUNCTION],
        147 => &[EXPRESSION, OPT_EXPRESSION],
        148 => &[GATHER_MODE, EXPRESSION, EXPRESSION],
        149 => &[MARK, MARK, EXPRESSION, EXPRESSION],
        150 => &[EXPRESSION, EXPRESSION, EXPRESSION, FLAG],
        151 => &[],
        152 => &[OPT_EXPRESSION],
        153 => &[MARK, FLAG],
        154 => &[],
        _ => return None,
    })
}

/// How many bytes a record of each kind has, with its kind byte; 0 for what is no kind.
pub const LENGTHS: [u8; 256] = {
    let mut lengths = [0; 256];
    let mut kind = 0;
    while kind < 256 {
        if let Some(fields) = fields(kind as u8) {
            lengths[kind] = 1 + width(fields) as u8;
        }
        kind += 1;
    }
    lengths
};

const fn width(fields: &[Field]) -> usize {
    let mut sum = 0;
    let mut at = 0;
    while at < fields.len() {
        sum += match fields[at] {
            Field::Flag => 1,
            Field::Cased(cased) => 1 + 4 * cased.width,
            _ => 4,
        };
        at += 1;
    }
    sum
}

/// How many bytes a record of this kind has, or none for what is no kind.
pub fn length(kind: u8) -> Option<usize> {
    match LENGTHS[kind as usize] {
        0 => None,
        length => Some(length.into()),
    }
}

/// All kinds, in order.
pub fn kinds() -> impl Iterator<Item = u8> {
    (0..=u8::MAX).filter(|&kind| length(kind).is_some())
}
