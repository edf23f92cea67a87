//! The crate's tree of any well-formed table, as `docs/NODES.md` says what a kind holds, and its text:
//! in the types of the build that the module above names.
use super::demangler::{
    self, CallingConv, DemangleFlags, FuncClass, Name, NameSequence, Operator, Params, ParseResult,
    StorageClass, Symbol, Type, VarStorageKind,
};

use crate::enums;
use crate::formed;
use crate::limits::CELLS;

/// The crate's operators by number. It has them from symbols; those of guards need another type.
pub struct Operators(Vec<Operator<'static>>);

impl Operators {
    pub fn new() -> Operators {
        let letters = || ('0'..='9').chain('A'..='Z');
        let codes = ["", "_", "__", "_R"].into_iter().flat_map(|prefix| {
            letters().flat_map(move |letter| {
                ["8", "5"].map(move |kind| format!("??{prefix}{letter}a@@{kind}"))
            })
        });
        let mut numbered: Vec<_> = codes.filter_map(|code| numbered(code.leak())).collect();
        numbered.sort_by_key(|(number, _)| *number);
        numbered.dedup_by_key(|(number, _)| *number);
        assert!(numbered.iter().map(|(number, _)| *number).eq(0..75), "all operators are found");
        Operators(numbered.into_iter().map(|(_, operator)| operator).collect())
    }
}

/// The operator that a symbol is named by. Those with operands are other kinds of nodes.
fn numbered(symbol: &'static str) -> Option<(u64, Operator<'static>)> {
    match demangler::parse(symbol).ok()?.symbol.name {
        Name::Operator(operator) => {
            Some((enums::operator(&operator)?, operator)).filter(|(number, _)| *number < 75)
        }
        _ => None,
    }
}

/// The text of a table's last node, a root; nothing where the table is not one for the writer.
pub fn text(operators: &Operators, symbol: &[u8], table: &[u32], flags: u32) -> Vec<u8> {
    if formed::root_height(table, symbol.len()).is_none() {
        return Vec::new();
    }
    let nodes = formed::nodes(table);
    let tree = Grown { operators, symbol, nodes }.parsed(nodes.len() as u32);
    demangler::serialize(&tree, DemangleFlags::from_bits_retain(flags)).into_bytes()
}

struct Grown<'a> {
    operators: &'a Operators,
    symbol: &'a [u8],
    nodes: &'a [[u32; CELLS]],
}

impl<'a> Grown<'a> {
    fn node(&self, reference: u32) -> &'a [u32; CELLS] {
        &self.nodes[reference as usize - 1]
    }

    fn bytes(&self, node: &[u32; CELLS]) -> &'a [u8] {
        &self.symbol[node[7] as usize..][..node[8] as usize]
    }

    fn parsed(&self, reference: u32) -> ParseResult<'a> {
        let node = self.node(reference);
        let mut symbol = self.symbol(node[4]);
        if let Name::Operator(
            Operator::LocalStaticGuard(index) | Operator::LocalStaticThreadGuard(index),
        ) = &mut symbol.name
        {
            *index = node[7].checked_sub(1);
        }
        ParseResult { symbol, symbol_type: self.a_type(node[5]) }
    }

    fn symbol(&self, reference: u32) -> Symbol<'a> {
        let node = self.node(reference);
        Symbol { name: self.name(node[4]), scope: self.names(node[5]) }
    }

    /// The entries of a list, the first first.
    fn entries(&self, mut last: u32) -> Vec<u32> {
        let mut entries = Vec::new();
        while last != 0 {
            let place = self.node(last);
            entries.push(place[5]);
            last = place[4];
        }
        entries.reverse();
        entries
    }

    fn names(&self, last: u32) -> NameSequence<'a> {
        NameSequence { names: self.entries(last).iter().map(|entry| self.name(*entry)).collect() }
    }

    fn types(&self, last: u32) -> Params<'a> {
        Params { types: self.entries(last).iter().map(|entry| self.a_type(*entry)).collect() }
    }

    fn name(&self, reference: u32) -> Name<'a> {
        let node = self.node(reference);
        let number = |place: usize| node[7 + place] as i32;
        match node[0] {
            6 => Name::Md5(self.bytes(node)),
            7 => Name::Operator(self.operators.0[node[7] as usize].clone()),
            8 => Name::Operator(Operator::RTTITypeDescriptor(class(node), self.boxed(node[4]))),
            9 => Name::Operator(Operator::RTTIBaseClassDescriptor(
                number(0),
                number(1),
                number(2),
                number(3),
            )),
            10 => Name::NonTemplate(self.bytes(node)),
            11 => Name::AsInterface(self.bytes(node)),
            12 => Name::Template(Box::new(self.name(node[4])), self.types(node[5])),
            13 => Name::Discriminator(number(0)),
            14 => Name::ParsedName(Box::new(self.parsed(node[4]))),
            15 => {
                let id = String::from_utf8(self.bytes(node).to_vec()).expect("symbols are ASCII");
                Name::AnonymousNamespace(Some(id))
            }
            16 => Name::AnonymousNamespace(None),
            kind => unreachable!("kind {kind} is not a name"),
        }
    }

    fn boxed(&self, reference: u32) -> Box<Type<'a>> {
        Box::new(self.a_type(reference))
    }

    fn a_type(&self, reference: u32) -> Type<'a> {
        let node = self.node(reference);
        let number = node[7] as i32;
        match node[0] {
            17 => Type::None,
            18..=20 => self.function(node),
            21 => Type::CXXVBTable(self.names(node[4]), class(node)),
            22 => Type::CXXVFTable(self.names(node[4]), class(node)),
            23 => Type::VCallThunk(number, convention(node)),
            24 => Type::TemplateParameterWithIndex(number),
            25 => Type::ThreadSafeStaticGuard(number),
            26 => Type::Constant(number),
            // What a string holds is not written.
            27 => Type::ConstantString(Vec::new()),
            28 => Type::Ptr(self.boxed(node[4]), class(node)),
            29 => Type::Ref(self.boxed(node[4]), class(node)),
            30 => Type::RValueRef(self.boxed(node[4]), class(node)),
            31 => Type::Array(node[8] as i32, self.boxed(node[4]), class(node)),
            32 => Type::Var(self.boxed(node[4]), variable(node), class(node)),
            33 => Type::Alias(self.symbol(node[4]), class(node)),
            34 => Type::Struct(self.symbol(node[4]), class(node)),
            35 => Type::Union(self.symbol(node[4]), class(node)),
            36 => Type::Class(self.symbol(node[4]), class(node)),
            37 => Type::Enum(self.symbol(node[4]), class(node)),
            60 => Type::VarArgs,
            61 => Type::EmptyParameterPack,
            62 => Type::Nullptr,
            63 => Type::RTTIType,
            kind => PRIMITIVE_TYPES[kind as usize - 38](class(node)),
        }
    }

    fn function(&self, node: &[u32; CELLS]) -> Type<'a> {
        let (returned, types, class) = (self.boxed(node[4]), self.types(node[5]), class(node));
        let func_class = FuncClass::from_bits_retain(node[9]);
        let convention = convention(node);
        match node[0] {
            18 => Type::MemberFunction(func_class, convention, types, class, returned),
            19 => Type::MemberFunctionPointer(
                self.symbol(node[6]),
                func_class,
                convention,
                types,
                class,
                returned,
            ),
            _ => Type::NonMemberFunction(convention, types, class, returned),
        }
    }
}

fn class(node: &[u32; CELLS]) -> StorageClass {
    StorageClass::from_bits_retain(node[7])
}

fn convention(node: &[u32; CELLS]) -> CallingConv {
    use CallingConv::*;
    [Cdecl, Pascal, Thiscall, Stdcall, Fastcall][node[8] as usize]
}

fn variable(node: &[u32; CELLS]) -> VarStorageKind {
    use VarStorageKind::*;
    [PrivateStatic, ProtectedStatic, PublicStatic, Global, FunctionLocalStatic][node[8] as usize]
}

/// From kind 38 on.
const PRIMITIVE_TYPES: [fn(StorageClass) -> Type<'static>; 22] = [
    Type::Void,
    Type::Bool,
    Type::Char,
    Type::Schar,
    Type::Uchar,
    Type::Short,
    Type::Ushort,
    Type::Int,
    Type::Uint,
    Type::Long,
    Type::Ulong,
    Type::Int64,
    Type::Uint64,
    Type::Int128,
    Type::Uint128,
    Type::Wchar,
    Type::Char8,
    Type::Char16,
    Type::Char32,
    Type::Float,
    Type::Double,
    Type::Ldouble,
];
