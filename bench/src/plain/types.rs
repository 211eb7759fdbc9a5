//! The two message types: their fields by place.

/// Two digits and the capital behind them, 0 where there is none.
pub type Tag = [u8; 3];

/// One place of a type: the tag that fills it, twice, or the two that may.
pub struct Place {
    pub tags: [Tag; 2],
    pub mandatory: bool,
}

/// No type has more places, so no message that walks well has more fields.
pub const MOST_FIELDS: usize = 14;

/// The places of a type in order, if there is such a type.
pub fn places(kind: u32) -> Option<&'static [Place]> {
    match kind {
        103 => Some(&MT103),
        202 => Some(&MT202),
        _ => None,
    }
}

static MT103: [Place; 14] = [
    must([*b"20\0"; 2]),
    must([*b"23B"; 2]),
    may([*b"26T"; 2]),
    must([*b"32A"; 2]),
    must([*b"50K"; 2]),
    may([*b"52A"; 2]),
    must([*b"53B"; 2]),
    may([*b"56A", *b"56D"]),
    may([*b"57A", *b"57D"]),
    must([*b"59\0"; 2]),
    must([*b"70\0"; 2]),
    must([*b"71A"; 2]),
    may([*b"72\0"; 2]),
    may([*b"77B"; 2]),
];

static MT202: [Place; 9] = [
    must([*b"20\0"; 2]),
    must([*b"21\0"; 2]),
    must([*b"32A"; 2]),
    may([*b"52A"; 2]),
    must([*b"53B"; 2]),
    may([*b"56A", *b"56D"]),
    may([*b"57A", *b"57D"]),
    must([*b"58A", *b"58D"]),
    must([*b"72\0"; 2]),
];

const fn must(tags: [Tag; 2]) -> Place {
    Place {
        tags,
        mandatory: true,
    }
}

const fn may(tags: [Tag; 2]) -> Place {
    Place {
        tags,
        mandatory: false,
    }
}
