//! Whether the node table is the crate's tree, as `docs/NODES.md` says what a kind holds: kinds,
//! numbers, the places of names in the symbol, heights, lists. A function gives the height of what
//! a reference stands for, or `None` if it is not what the crate has there.
use unchecked::{Name, NameSequence, Operator, Params, ParseResult, StorageClass, Symbol, Type};

use crate::decode::decoded;
use crate::enums;
use crate::limits::CELLS;

type Height = Option<usize>;

const NAME_PLACE: u32 = 1;
const TYPE_PLACE: u32 = 2;
const VOID: u32 = 38;

/// The nodes counted for a symbol.
pub struct Shape<'a> {
    pub symbol: &'a [u8],
    pub nodes: &'a [[u32; CELLS]],
}

/// What a node must hold beside references that are there.
struct Held {
    kind: u32,
    /// The height of what the first, second and third reference stand for; `None` for none.
    below: [Height; 3],
    numbers: [u32; 4],
}

fn leaf(kind: u32, numbers: [u32; 4]) -> Held {
    Held { kind, below: [None; 3], numbers }
}

fn above(kind: u32, below: usize, numbers: [u32; 4]) -> Held {
    Held { kind, below: [Some(below), None, None], numbers }
}

impl<'a> Shape<'a> {
    /// Whether the last node is the crate's result.
    pub fn is(&self, result: &ParseResult) -> bool {
        let last = self.nodes.len() as u32;
        self.parsed(last, result) == self.nodes.last().map(|cells| cells[1] as usize)
    }

    /// Whether the last node leads to all others.
    pub fn has_no_other_node(&self) -> bool {
        let mut reached = vec![false; self.nodes.len() + 1];
        reached[self.nodes.len()] = true;
        for (place, cells) in self.nodes.iter().enumerate().rev() {
            if !reached[place + 1] {
                return false;
            }
            cells[4..7].iter().for_each(|reference| reached[*reference as usize] = true);
        }
        true
    }

    fn cells(&self, reference: u32) -> Option<&[u32; CELLS]> {
        self.nodes.get((reference as usize).checked_sub(1)?)
    }

    /// The height of the node if it holds just that, and refers to earlier nodes.
    fn holds(&self, reference: u32, held: Held) -> Height {
        let cells = self.cells(reference)?;
        let there = |(place, below): (usize, &Height)| match below {
            Some(_) => (1..reference).contains(&cells[4 + place]),
            None => cells[4 + place] == 0,
        };
        let rises = usize::from(![NAME_PLACE, TYPE_PLACE].contains(&held.kind));
        let height = held.below.iter().flatten().max().unwrap_or(&0) + rises;
        let right = [cells[0], cells[1], cells[2], cells[3]] == [held.kind, height as u32, 0, 0]
            && held.below.iter().enumerate().all(there)
            && cells[7..] == [&held.numbers[..], &[0]].concat();
        right.then_some(height)
    }

    /// Where bytes of the crate's tree stand in the symbol, and their number.
    fn range(&self, bytes: &[u8]) -> [u32; 4] {
        let start = bytes.as_ptr() as usize - self.symbol.as_ptr() as usize;
        [start as u32, bytes.len() as u32, 0, 0]
    }

    fn parsed(&self, reference: u32, result: &ParseResult) -> Height {
        let cells = self.cells(reference)?;
        let outer = matches!(
            (&result.symbol.name, &result.symbol_type),
            (Name::Md5(_), _) | (_, Type::ThreadSafeStaticGuard(_))
        );
        let symbol = self.symbol_of_kind(cells[4], &result.symbol, if outer { 5 } else { 4 })?;
        let symbol_type = self.a_type(cells[5], &result.symbol_type)?;
        let index = match result.symbol.name {
            Name::Operator(
                Operator::LocalStaticGuard(Some(index))
                | Operator::LocalStaticThreadGuard(Some(index)),
            ) => index + 1,
            _ => 0,
        };
        let below = [Some(symbol), Some(symbol_type), None];
        self.holds(reference, Held { kind: 3, below, numbers: [index, 0, 0, 0] })
    }

    fn symbol_of_kind(&self, reference: u32, symbol: &Symbol, kind: u32) -> Height {
        let cells = self.cells(reference)?;
        let name = self.name(cells[4], &symbol.name)?;
        let scope = self.names(cells[5], &symbol.scope)?;
        self.holds(reference, Held { kind, below: [Some(name), scope, None], numbers: [0; 4] })
    }

    fn symbol(&self, reference: u32, symbol: &Symbol) -> Height {
        self.symbol_of_kind(reference, symbol, 4)
    }

    /// A list is a reference to its last place, a place the one before it and the entry. Of an
    /// empty list the height is none.
    fn list<T>(
        &self,
        last: u32,
        entries: &[T],
        place: u32,
        entry: impl Fn(u32, &T) -> Height,
    ) -> Option<Height> {
        let mut places = vec![last];
        for _ in entries {
            places.push(self.cells(*places.last()?)?[4]);
        }
        let mut height = None;
        if places.pop() != Some(0) {
            return None;
        }
        for (reference, value) in places.into_iter().rev().zip(entries) {
            let below = [height, Some(entry(self.cells(reference)?[5], value)?), None];
            height = Some(self.holds(reference, Held { kind: place, below, numbers: [0; 4] })?);
        }
        Some(height)
    }

    fn names(&self, last: u32, names: &NameSequence) -> Option<Height> {
        self.list(last, &names.names, NAME_PLACE, |reference, name| self.name(reference, name))
    }

    fn types(&self, last: u32, params: &Params) -> Option<Height> {
        self.list(last, &params.types, TYPE_PLACE, |reference, entry| self.a_type(reference, entry))
    }

    fn name(&self, reference: u32, name: &Name) -> Height {
        let cells = self.cells(reference)?;
        let held = match name {
            Name::Md5(bytes) => leaf(6, self.range(bytes)),
            Name::Operator(operator) => return self.operator(reference, operator),
            Name::NonTemplate(bytes) => leaf(10, self.range(bytes)),
            Name::AsInterface(bytes) => leaf(11, self.range(bytes)),
            Name::Template(name, params) => {
                let name = self.name(cells[4], name)?;
                let params = self.types(cells[5], params)?;
                Held { kind: 12, below: [Some(name), params, None], numbers: [0; 4] }
            }
            Name::Discriminator(number) => leaf(13, [*number as u32, 0, 0, 0]),
            Name::ParsedName(result) => above(14, self.parsed(cells[4], result)?, [0; 4]),
            Name::AnonymousNamespace(Some(id)) => {
                let (start, length) = (cells[7] as usize, id.len());
                if self.symbol.get(start..start + length)? != id.as_bytes() {
                    return None;
                }
                leaf(15, [cells[7], length as u32, 0, 0])
            }
            Name::AnonymousNamespace(None) => leaf(16, [0; 4]),
        };
        self.holds(reference, held)
    }

    fn operator(&self, reference: u32, operator: &Operator) -> Height {
        let held = match operator {
            Operator::RTTITypeDescriptor(class, described) => {
                let described = self.a_type(self.cells(reference)?[4], described)?;
                above(8, described, [class.bits(), 0, 0, 0])
            }
            Operator::RTTIBaseClassDescriptor(nv_offset, vbptr_offset, vbtable_offset, flags) => {
                let numbers = [*nv_offset, *vbptr_offset, *vbtable_offset, *flags];
                leaf(9, numbers.map(|number| number as u32))
            }
            _ => leaf(7, [enums::operator(operator)? as u32, 0, 0, 0]),
        };
        self.holds(reference, held)
    }

    fn a_type(&self, reference: u32, a_type: &Type) -> Height {
        let held = match a_type {
            Type::None => leaf(17, [0; 4]),
            Type::VCallThunk(offset, convention) => {
                leaf(23, [*offset as u32, *convention as u32, 0, 0])
            }
            Type::TemplateParameterWithIndex(number) => leaf(24, [*number as u32, 0, 0, 0]),
            Type::ThreadSafeStaticGuard(number) => leaf(25, [*number as u32, 0, 0, 0]),
            Type::Constant(number) => leaf(26, [*number as u32, 0, 0, 0]),
            Type::ConstantString(bytes) => self.string(reference, bytes)?,
            Type::VarArgs => leaf(60, [0; 4]),
            Type::EmptyParameterPack => leaf(61, [0; 4]),
            Type::Nullptr => leaf(62, [0; 4]),
            Type::RTTIType => leaf(63, [0; 4]),
            _ => return self.type_above(reference, a_type),
        };
        self.holds(reference, held)
    }

    /// The node has where the encoded bytes stand.
    fn string(&self, reference: u32, bytes: &[u8]) -> Option<Held> {
        let cells = self.cells(reference)?;
        let start = cells[7] as usize;
        let encoded = self.symbol.get(start..start + cells[8] as usize)?;
        (decoded(encoded) == bytes).then(|| leaf(27, [cells[7], cells[8], 0, 0]))
    }

    fn type_above(&self, reference: u32, a_type: &Type) -> Height {
        let cells = self.cells(reference)?;
        let class = |class: &StorageClass| [class.bits(), 0, 0, 0];
        let held = match a_type {
            Type::CXXVBTable(names, sc) => {
                let below = [self.names(cells[4], names)?, None, None];
                Held { kind: 21, below, numbers: class(sc) }
            }
            Type::CXXVFTable(names, sc) => {
                let below = [self.names(cells[4], names)?, None, None];
                Held { kind: 22, below, numbers: class(sc) }
            }
            Type::Ptr(inner, sc) => above(28, self.a_type(cells[4], inner)?, class(sc)),
            Type::Ref(inner, sc) => above(29, self.a_type(cells[4], inner)?, class(sc)),
            Type::RValueRef(inner, sc) => above(30, self.a_type(cells[4], inner)?, class(sc)),
            Type::Array(length, inner, sc) => {
                above(31, self.a_type(cells[4], inner)?, [sc.bits(), *length as u32, 0, 0])
            }
            Type::Var(inner, kind, sc) => {
                above(32, self.a_type(cells[4], inner)?, [sc.bits(), *kind as u32, 0, 0])
            }
            Type::Alias(symbol, sc) => above(33, self.symbol(cells[4], symbol)?, class(sc)),
            Type::Struct(symbol, sc) => above(34, self.symbol(cells[4], symbol)?, class(sc)),
            Type::Union(symbol, sc) => above(35, self.symbol(cells[4], symbol)?, class(sc)),
            Type::Class(symbol, sc) => above(36, self.symbol(cells[4], symbol)?, class(sc)),
            Type::Enum(symbol, sc) => above(37, self.symbol(cells[4], symbol)?, class(sc)),
            _ => return self.function_or_basic(reference, a_type),
        };
        self.holds(reference, held)
    }

    fn function_or_basic(&self, reference: u32, a_type: &Type) -> Height {
        let cells = self.cells(reference)?;
        let held = match a_type {
            Type::MemberFunction(func_class, convention, params, sc, returned) => {
                let returned = Some(self.a_type(cells[4], returned)?);
                let below = [returned, self.types(cells[5], params)?, None];
                let numbers = [sc.bits(), *convention as u32, func_class.bits(), 0];
                Held { kind: 18, below, numbers }
            }
            Type::MemberFunctionPointer(symbol, func_class, convention, params, sc, returned) => {
                let returned = Some(self.a_type(cells[4], returned)?);
                let symbol = Some(self.symbol(cells[6], symbol)?);
                let below = [returned, self.types(cells[5], params)?, symbol];
                let numbers = [sc.bits(), *convention as u32, func_class.bits(), 0];
                Held { kind: 19, below, numbers }
            }
            Type::NonMemberFunction(convention, params, sc, returned) => {
                let returned = Some(self.a_type(cells[4], returned)?);
                let below = [returned, self.types(cells[5], params)?, None];
                Held { kind: 20, below, numbers: [sc.bits(), *convention as u32, 0, 0] }
            }
            basic => leaf(VOID + enums::primitive_type(basic)? as u32, [class_of(basic)?, 0, 0, 0]),
        };
        self.holds(reference, held)
    }
}

/// The class of a built-in type.
fn class_of(basic: &Type) -> Option<u32> {
    match basic {
        Type::Void(class)
        | Type::Bool(class)
        | Type::Char(class)
        | Type::Schar(class)
        | Type::Uchar(class)
        | Type::Short(class)
        | Type::Ushort(class)
        | Type::Int(class)
        | Type::Uint(class)
        | Type::Long(class)
        | Type::Ulong(class)
        | Type::Int64(class)
        | Type::Uint64(class)
        | Type::Int128(class)
        | Type::Uint128(class)
        | Type::Wchar(class)
        | Type::Char8(class)
        | Type::Char16(class)
        | Type::Char32(class)
        | Type::Float(class)
        | Type::Double(class)
        | Type::Ldouble(class) => Some(class.bits()),
        _ => None,
    }
}
