//! Numbers of the crate's operators and built-in types, by the names of its variants: both builds
//! of the crate have them.
use std::fmt::Debug;

/// The name of an enum's variant.
fn variant(value: &impl Debug) -> String {
    format!("{value:?}").chars().take_while(|letter| letter.is_ascii_alphanumeric()).collect()
}

fn place(names: &str, value: &impl Debug) -> Option<u64> {
    let name = variant(value);
    names.split_whitespace().position(|other| other == name).map(|place| place as u64)
}

pub fn operator(operator: &impl Debug) -> Option<u64> {
    place(OPERATORS, operator)
}

pub fn primitive_type(primitive: &impl Debug) -> Option<u64> {
    place(PRIMITIVE_TYPES, primitive)
}

/// The crate's operators in the order of its enum, but for the two with operands, which come last.
const OPERATORS: &str = "
    Ctor Dtor New Delete Equal RShift LShift Bang EqualEqual BangEqual Subscript Conversion Arrow
    Star PlusPlus MinusMinus Minus Plus Amp ArrowStar Slash Percent Less LessEqual Greater
    GreaterEqual Comma Call Tilde Caret Pipe AmpAmp PipePipe StarEqual PlusEqual MinusEqual
    SlashEqual PercentEqual GreaterGreaterEqual LessLessEqual AmpEqual PipeEqual CaretEqual VFTable
    VBTable VCall Typeof LocalStaticGuard String VBaseDtor VectorDeletingDtor DefaultCtorClosure
    ScalarDeletingDtor VectorCtorIterator VectorDtorIterator VectorVBaseCtorIterator
    VirtualDisplacementMap EHVectorCtorIterator EHVectorDtorIterator EHVectorVBaseCtorIterator
    CopyCtorClosure LocalVFTable LocalVFTableCtorClosure ArrayNew ArrayDelete PlacementDeleteClosure
    PlacementArrayDeleteClosure CoroutineAwait LiteralOperatorName RTTIBaseClassArray
    RTTIClassHierarchyDescriptor RTTIClassCompleteObjectLocator DynamicInitializer DynamicAtexitDtor
    LocalStaticThreadGuard RTTITypeDescriptor RTTIBaseClassDescriptor";

/// The crate's built-in types in the order of its enum.
const PRIMITIVE_TYPES: &str = "
    Void Bool Char Schar Uchar Short Ushort Int Uint Long Ulong Int64 Uint64 Int128 Uint128 Wchar
    Char8 Char16 Char32 Float Double Ldouble";
