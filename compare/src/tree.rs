//! The values of leaves as the crate's tree shows them.
use unchecked::{Name, Operator, StorageClass, Type};

use crate::enums;
use crate::product::Answer;
use crate::reference::{self, ParseResult, Reading};

/// A symbol with a leaf in it, the product's answer for the leaf, and what the crate reads.
pub struct Seen<'a> {
    pub symbol: &'a [u8],
    pub at: usize,
    pub answer: Answer,
    pub reading: &'a Reading<'a>,
}

impl<'a> Seen<'a> {
    pub fn tree(&self) -> Option<&'a ParseResult<'a>> {
        self.reading.as_ref().ok()
    }

    pub fn symbol_type(&self) -> Option<&'a Type<'a>> {
        Some(&self.tree()?.symbol_type)
    }

    pub fn name(&self) -> Option<&'a Name<'a>> {
        Some(&self.tree()?.symbol.name)
    }

    pub fn scope_name(&self, place: usize) -> Option<&'a Name<'a>> {
        self.tree()?.symbol.scope.names.get(place)
    }

    /// The symbol within the symbol.
    pub fn nested(&self) -> Option<&'a ParseResult<'a>> {
        match self.scope_name(0)? {
            Name::ParsedName(nested) => Some(nested),
            _ => None,
        }
    }

    /// The type of an RTTI type descriptor.
    pub fn described_type(&self) -> Option<&'a Type<'a>> {
        match self.name()? {
            Name::Operator(Operator::RTTITypeDescriptor(_, described)) => Some(described),
            _ => None,
        }
    }

    pub fn template_types(&self) -> Option<&'a [Type<'a>]> {
        match self.name()? {
            Name::Template(_, parameters) => Some(&parameters.types),
            _ => None,
        }
    }
}

/// The ten types that `table::STORED_TYPES` stores, and the type after them.
fn after_stored<'a>(seen: &Seen<'a>) -> Option<(&'a [Type<'a>], &'a Type<'a>)> {
    let types = seen.template_types()?;
    Some((types.get(..10)?, types.get(10)?))
}

/// Which stored type is referred to.
pub fn stored_type(seen: &Seen) -> Option<u64> {
    let (stored, last) = after_stored(seen)?;
    stored.iter().position(|entry| entry == last).map(|place| place as u64)
}

/// The byte that begins a string: of a wrong one the crate tells in its message.
pub fn first_byte(seen: &Seen) -> Option<u64> {
    const WRONG: &str = "unknown escaped encoded string character ";
    match seen.reading {
        Ok(_) => match string_bytes(seen.symbol_type()?)?.first()? {
            b',' => Some(u64::from(b'?')),
            byte => Some(u64::from(*byte)),
        },
        Err(error) => Some(u64::from(*error.to_string().strip_prefix(WRONG)?.as_bytes().first()?)),
    }
}

pub fn string_bytes<'a>(string: &'a Type) -> Option<&'a [u8]> {
    match string {
        Type::ConstantString(bytes) => Some(bytes),
        _ => None,
    }
}

/// The declared length of an encoded string. The tree has only the bytes, so the crate reads the
/// two numbers before them once more, as numbers of an RTTI base class descriptor.
pub fn declared_length(seen: &Seen, width: usize) -> Option<u64> {
    let numbers = &seen.symbol[seen.at..seen.at + seen.answer.start];
    let descriptor = [b"??_R1", numbers, b"00@"].concat();
    let Name::Operator(Operator::RTTIBaseClassDescriptor(length, _, 1, 1)) =
        reference::parse(&descriptor).ok()?.symbol.name
    else {
        return None;
    };
    let kept = usize::try_from(length).unwrap_or(0).min(32 * width);
    let bytes = string_bytes(&seen.nested()?.symbol_type)?;
    (bytes.len() == kept).then_some(bits(length))
}

pub fn bits(number: i32) -> u64 {
    u64::from(number as u32)
}

/// Which of the type prefixes the type after them, of the tail that suits it, shows.
pub fn type_prefix(seen: &Seen) -> Option<u64> {
    Some(match seen.described_type()? {
        Type::Enum(..) => 0,
        Type::Ref(function, _) if matches!(**function, Type::NonMemberFunction(..)) => 1,
        Type::Ptr(function, _) if matches!(**function, Type::NonMemberFunction(..)) => 2,
        Type::MemberFunctionPointer(_, class, ..) if class.bits() == 0 => 3,
        Type::Constant(_) => 4,
        Type::TemplateParameterWithIndex(_) => 5,
        Type::Array(..) => 6,
        Type::RValueRef(..) => 7,
        Type::EmptyParameterPack => 8,
        Type::Nullptr => 9,
        Type::NonMemberFunction(_, _, StorageClass::CONST, _) => 11,
        Type::NonMemberFunction(..) => 10,
        Type::Alias(..) => 12,
        Type::Int(StorageClass::CONST) => 13,
        Type::MemberFunctionPointer(..) => 14,
        Type::Double(_) => 15,
        _ => return None,
    })
}

/// Which letter begins the type after the stored ones.
pub fn type_letter(seen: &Seen) -> Option<u64> {
    const CONST_VOLATILE: u32 = StorageClass::CONST.bits() | StorageClass::VOLATILE.bits();
    let (stored, last) = after_stored(seen)?;
    if stored.contains(last) {
        return None;
    }
    Some(match last {
        Type::TemplateParameterWithIndex(_) => 0,
        Type::Union(..) => 2,
        Type::Struct(..) => 3,
        Type::Class(..) => 4,
        Type::Ref(_, StorageClass::VOLATILE) => 6,
        Type::Ref(..) => 5,
        Type::Ptr(_, StorageClass::CONST) => 8,
        Type::Ptr(_, StorageClass::VOLATILE) => 9,
        Type::Ptr(_, class) if class.bits() == CONST_VOLATILE => 10,
        Type::Ptr(..) => 7,
        Type::Array(..) => 11,
        primitive => 32 + enums::primitive_type(primitive)?,
    })
}

/// What the name after the stored ones begins with; a plain one is named `x`.
pub fn nested_name_start(seen: &Seen) -> Option<u64> {
    Some(match seen.scope_name(9)? {
        Name::NonTemplate(b"x") => 7,
        Name::NonTemplate([letter]) => 32 + u64::from(letter - b'a'),
        Name::ParsedName(_) => 1,
        Name::Template(..) => 2,
        Name::AnonymousNamespace(Some(_)) => 3,
        Name::AnonymousNamespace(None) => 4,
        Name::AsInterface(_) => 5,
        Name::Discriminator(_) => 6,
        _ => return None,
    })
}

pub fn symbol_start(seen: &Seen) -> Option<u64> {
    Some(match (seen.name()?, seen.symbol_type()?) {
        (Name::Md5(_), _) => 0,
        (_, Type::ThreadSafeStaticGuard(_)) => 1,
        (Name::Template(..), _) => 2,
        (Name::NonTemplate(_), _) => 3,
        _ => return None,
    })
}

/// The symbol's type letter. `9` and a missing letter give the same tree.
pub fn symbol_type(seen: &Seen) -> Option<u64> {
    Some(match seen.symbol_type()? {
        Type::Var(_, kind, _) => *kind as u64,
        Type::CXXVFTable(..) => 5,
        Type::CXXVBTable(..) => 6,
        Type::RTTIType => 7,
        Type::None if seen.answer.taken == 0 => 13,
        Type::None => 8,
        Type::ConstantString(_) => 9,
        Type::VCallThunk(..) => 10,
        Type::NonMemberFunction(..) => 11,
        Type::MemberFunction(..) => 12,
        _ => return None,
    })
}
