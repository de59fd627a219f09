//! The types of a type section. Specification: Types, Recursive types.

use crate::error::{LeadingByte, Malformed};
use crate::from_reader::whole;
use crate::{BinaryReader, Error, FromReader, PackedIndex, Result, SectionLimited, ValType};
use std::cmp;
use std::fmt;
use std::hash::{Hash, Hasher};
use std::vec;

/// The greatest number of types in a recursion group.
const MOST_TYPES: usize = 1_000_000;
/// The greatest number of supertypes.
const MOST_SUPERTYPES: usize = 1;
/// The greatest number of parameters, and of results.
const MOST_VALUES: usize = 1_000;
/// The greatest number of fields.
const MOST_FIELDS: usize = 10_000;

/// A type section.
pub type TypeSectionReader<'a> = SectionLimited<'a, RecGroup>;

impl<'a> TypeSectionReader<'a> {
    /// Returns an iterator over the function types. It returns an error at each other type.
    pub fn into_iter_err_on_gc_types(self) -> impl Iterator<Item = Result<FuncType>> + 'a {
        self.into_iter_with_offsets().map(|item| {
            let (offset, group) = item?;
            group.into_function(offset)
        })
    }
}

/// Types that may refer to each other: an item of the type section.
#[derive(Clone, Debug)]
pub struct RecGroup {
    types: Group,
}

/// The types with their offsets.
#[derive(Clone, Debug)]
enum Group {
    /// A type without `rec`.
    One([(u64, SubType); 1]),
    /// The types of a `rec`.
    List(Vec<(u64, SubType)>),
}

impl RecGroup {
    /// Returns whether the group is a `rec` in the bytes.
    pub fn is_explicit_rec_group(&self) -> bool {
        matches!(self.types, Group::List(_))
    }

    /// Returns the types with their offsets.
    fn listed(&self) -> &[(u64, SubType)] {
        match &self.types {
            Group::One(one) => one,
            Group::List(list) => list,
        }
    }

    /// Returns the types.
    pub fn types(&self) -> impl ExactSizeIterator<Item = &SubType> + '_ {
        self.listed().iter().map(|(_, ty)| ty)
    }

    /// Returns the types by value.
    pub fn into_types(self) -> impl ExactSizeIterator<Item = SubType> {
        self.into_types_and_offsets().map(|(_, ty)| ty)
    }

    /// Returns the types by value, with their offsets.
    pub fn into_types_and_offsets(self) -> impl ExactSizeIterator<Item = (u64, SubType)> {
        let list: vec::IntoIter<_> = match self.types {
            Group::One(one) => Vec::from(one).into_iter(),
            Group::List(list) => list.into_iter(),
        };
        list
    }

    /// Returns the function type, if the group is one that needs no proposal after version 1.0.
    fn into_function(self, offset: u64) -> Result<FuncType> {
        let mut types = self.into_types();
        let (Some(ty), None) = (types.next(), types.next()) else {
            return Err(Error::new("gc proposal not supported", offset));
        };
        let is_plain = ty.is_final && ty.supertype_idx.is_none();
        match ty.composite_type.inner {
            CompositeInnerType::Func(ty) if is_plain => Ok(ty),
            CompositeInnerType::Cont(_) if is_plain => {
                Err(Error::new("stack switching proposal not supported", offset))
            }
            _ => Err(Error::new("gc proposal not supported", offset)),
        }
    }
}

// Offsets and the form in the bytes do not belong to the value.

impl PartialEq for RecGroup {
    fn eq(&self, other: &RecGroup) -> bool {
        self.types().eq(other.types())
    }
}

impl Eq for RecGroup {}

impl PartialOrd for RecGroup {
    fn partial_cmp(&self, other: &RecGroup) -> Option<cmp::Ordering> {
        Some(self.cmp(other))
    }
}

impl Ord for RecGroup {
    fn cmp(&self, other: &RecGroup) -> cmp::Ordering {
        self.types().cmp(other.types())
    }
}

impl Hash for RecGroup {
    fn hash<H: Hasher>(&self, hasher: &mut H) {
        self.types().len().hash(hasher);
        self.types().for_each(|ty| ty.hash(hasher));
    }
}

impl<'a> FromReader<'a> for RecGroup {
    fn from_reader(reader: &mut BinaryReader<'a>) -> Result<Self> {
        whole(reader, |reader| {
            let start = reader.original_position();
            if reader.peek()? != 0x4e {
                let one = [(start, reader.read()?)];
                return Ok(RecGroup {
                    types: Group::One(one),
                });
            }
            reader.read_u8()?;
            let count = reader.read_size(MOST_TYPES, "rec group types")?;
            let mut list = Vec::new();
            for _ in 0..count {
                list.push((reader.original_position(), reader.read()?));
            }
            Ok(RecGroup {
                types: Group::List(list),
            })
        })
    }
}

/// Defines the methods that return the composite type of one kind.
macro_rules! unwrapping {
    ($($method:ident, $kind:ident, $ty:ident, $what:literal;)*) => {
        impl SubType {
            $(
                #[doc = concat!("Returns the ", $what, " type.")]
                ///
                /// # Panics
                ///
                /// Panics if the composite type is another one.
                pub fn $method(&self) -> &$ty {
                    self.composite_type.$method()
                }
            )*
        }

        impl CompositeType {
            $(
                #[doc = concat!("Returns the ", $what, " type.")]
                ///
                /// # Panics
                ///
                /// Panics if this is another type.
                pub fn $method(&self) -> &$ty {
                    match &self.inner {
                        CompositeInnerType::$kind(ty) => ty,
                        _ => panic!(concat!("not a ", $what, " type")),
                    }
                }
            )*
        }
    };
}

unwrapping! {
    unwrap_func, Func, FuncType, "function";
    unwrap_array, Array, ArrayType, "array";
    unwrap_struct, Struct, StructType, "struct";
    unwrap_cont, Cont, ContType, "continuation";
}

/// A composite type with its place among the types.
#[derive(Clone, Debug, PartialEq, Eq, PartialOrd, Ord, Hash)]
pub struct SubType {
    /// Whether it has no subtypes.
    pub is_final: bool,
    /// The index of its supertype, if it has one.
    pub supertype_idx: Option<PackedIndex>,
    /// The composite type.
    pub composite_type: CompositeType,
}

impl SubType {
    /// Creates a final function type without a supertype.
    pub fn func(signature: FuncType, shared: bool) -> SubType {
        SubType {
            is_final: true,
            supertype_idx: None,
            composite_type: CompositeType {
                inner: CompositeInnerType::Func(signature),
                shared,
            },
        }
    }
}

impl fmt::Display for SubType {
    fn fmt(&self, f: &mut fmt::Formatter<'_>) -> fmt::Result {
        if self.is_final && self.supertype_idx.is_none() {
            return self.composite_type.fmt(f);
        }
        f.write_str(if self.is_final {
            "(sub final "
        } else {
            "(sub "
        })?;
        if let Some(index) = self.supertype_idx {
            write!(f, "{index} ")?;
        }
        write!(f, "{})", self.composite_type)
    }
}

impl<'a> FromReader<'a> for SubType {
    fn from_reader(reader: &mut BinaryReader<'a>) -> Result<Self> {
        whole(reader, |reader| {
            let form = reader.peek()?;
            if form != 0x4f && form != 0x50 {
                return Ok(SubType {
                    is_final: true,
                    supertype_idx: None,
                    composite_type: reader.read()?,
                });
            }
            reader.read_u8()?;
            let mut supertype_idx = None;
            for _ in 0..reader.read_size(MOST_SUPERTYPES, "supertype idxs")? {
                let index = reader.read_var_u32()?;
                supertype_idx = Some(type_index(index, reader)?);
            }
            Ok(SubType {
                is_final: form == 0x4f,
                supertype_idx,
                composite_type: reader.read()?,
            })
        })
    }
}

/// Packs a type index that the reader has read.
fn type_index(index: u32, reader: &BinaryReader<'_>) -> Result<PackedIndex> {
    let position = reader.original_position();
    PackedIndex::from_module_index(index)
        .ok_or_else(|| Error::malformed(Malformed::TypeIndex, position))
}

/// A composite type, shared between threads or not.
#[derive(Clone, Debug, PartialEq, Eq, PartialOrd, Ord, Hash)]
pub struct CompositeType {
    /// The type.
    pub inner: CompositeInnerType,
    /// Whether it is shared.
    pub shared: bool,
}

impl fmt::Display for CompositeType {
    fn fmt(&self, f: &mut fmt::Formatter<'_>) -> fmt::Result {
        if self.shared {
            write!(f, "(shared {})", self.inner)
        } else {
            self.inner.fmt(f)
        }
    }
}

impl<'a> FromReader<'a> for CompositeType {
    fn from_reader(reader: &mut BinaryReader<'a>) -> Result<Self> {
        whole(reader, |reader| {
            let first = reader.read_u8()?;
            let shared = first == 0x65;
            let kind = if shared { reader.read_u8()? } else { first };
            let inner = match kind {
                0x5d => CompositeInnerType::Cont(reader.read()?),
                0x5e => CompositeInnerType::Array(reader.read()?),
                0x5f => CompositeInnerType::Struct(reader.read()?),
                0x60 => CompositeInnerType::Func(reader.read()?),
                _ => {
                    let at = reader.original_position() - 1;
                    return Err(Error::leading_byte(LeadingByte::Type, kind, at));
                }
            };
            Ok(CompositeType { inner, shared })
        })
    }
}

/// A function, array, struct or continuation type.
#[derive(Clone, Debug, PartialEq, Eq, PartialOrd, Ord, Hash)]
pub enum CompositeInnerType {
    /// A function type.
    Func(FuncType),
    /// An array type.
    Array(ArrayType),
    /// A struct type.
    Struct(StructType),
    /// A continuation type.
    Cont(ContType),
}

impl fmt::Display for CompositeInnerType {
    fn fmt(&self, f: &mut fmt::Formatter<'_>) -> fmt::Result {
        match self {
            CompositeInnerType::Func(ty) => ty.fmt(f),
            CompositeInnerType::Array(ty) => ty.fmt(f),
            CompositeInnerType::Struct(ty) => ty.fmt(f),
            CompositeInnerType::Cont(ty) => ty.fmt(f),
        }
    }
}

/// A function type: the types of its parameters and of its results.
#[derive(Clone, PartialEq, Eq, PartialOrd, Ord, Hash)]
pub struct FuncType {
    /// The parameters, then the results.
    values: Box<[ValType]>,
    parameters: usize,
}

impl FuncType {
    /// Creates a function type.
    pub fn new<P, R>(params: P, results: R) -> FuncType
    where
        P: IntoIterator<Item = ValType>,
        R: IntoIterator<Item = ValType>,
    {
        let mut values = Vec::from_iter(params);
        let parameters = values.len();
        values.extend(results);
        FuncType {
            values: values.into_boxed_slice(),
            parameters,
        }
    }

    /// Returns the types of the parameters.
    #[inline]
    pub fn params(&self) -> &[ValType] {
        &self.values[..self.parameters]
    }

    /// Returns the types of the results.
    #[inline]
    pub fn results(&self) -> &[ValType] {
        &self.values[self.parameters..]
    }
}

impl fmt::Debug for FuncType {
    fn fmt(&self, f: &mut fmt::Formatter<'_>) -> fmt::Result {
        f.debug_struct("FuncType")
            .field("params", &self.params())
            .field("results", &self.results())
            .finish()
    }
}

impl fmt::Display for FuncType {
    fn fmt(&self, f: &mut fmt::Formatter<'_>) -> fmt::Result {
        f.write_str("(func")?;
        for (name, types) in [("param", self.params()), ("result", self.results())] {
            if !types.is_empty() {
                write!(f, " ({name}")?;
                types.iter().try_for_each(|ty| write!(f, " {ty}"))?;
                f.write_str(")")?;
            }
        }
        f.write_str(")")
    }
}

impl<'a> FromReader<'a> for FuncType {
    fn from_reader(reader: &mut BinaryReader<'a>) -> Result<Self> {
        whole(reader, |reader| {
            let mut values = Vec::new();
            for ty in reader.read_iter(MOST_VALUES, "function params")? {
                values.push(ty?);
            }
            let parameters = values.len();
            for ty in reader.read_iter(MOST_VALUES, "function returns")? {
                values.push(ty?);
            }
            Ok(FuncType {
                values: values.into_boxed_slice(),
                parameters,
            })
        })
    }
}

/// An array type: the type of its elements.
#[derive(Clone, Copy, Debug, PartialEq, Eq, PartialOrd, Ord, Hash)]
pub struct ArrayType(pub FieldType);

impl fmt::Display for ArrayType {
    fn fmt(&self, f: &mut fmt::Formatter<'_>) -> fmt::Result {
        write!(f, "(array {})", self.0)
    }
}

impl<'a> FromReader<'a> for ArrayType {
    fn from_reader(reader: &mut BinaryReader<'a>) -> Result<Self> {
        Ok(ArrayType(reader.read()?))
    }
}

/// A struct type: the types of its fields.
#[derive(Clone, Debug, PartialEq, Eq, PartialOrd, Ord, Hash)]
pub struct StructType {
    /// The fields.
    pub fields: Box<[FieldType]>,
}

impl fmt::Display for StructType {
    fn fmt(&self, f: &mut fmt::Formatter<'_>) -> fmt::Result {
        f.write_str("(struct")?;
        self.fields.iter().try_for_each(|ty| write!(f, " {ty}"))?;
        f.write_str(")")
    }
}

impl<'a> FromReader<'a> for StructType {
    fn from_reader(reader: &mut BinaryReader<'a>) -> Result<Self> {
        whole(reader, |reader| {
            let mut fields = Vec::new();
            for field in reader.read_iter(MOST_FIELDS, "struct fields")? {
                fields.push(field?);
            }
            Ok(StructType {
                fields: fields.into_boxed_slice(),
            })
        })
    }
}

/// The type of a field, or of the elements of an array.
#[derive(Clone, Copy, Debug, PartialEq, Eq, PartialOrd, Ord, Hash)]
pub struct FieldType {
    /// The type that is stored.
    pub element_type: StorageType,
    /// Whether it can be changed.
    pub mutable: bool,
}

impl fmt::Display for FieldType {
    fn fmt(&self, f: &mut fmt::Formatter<'_>) -> fmt::Result {
        if self.mutable {
            write!(f, "(mut {})", self.element_type)
        } else {
            self.element_type.fmt(f)
        }
    }
}

impl<'a> FromReader<'a> for FieldType {
    fn from_reader(reader: &mut BinaryReader<'a>) -> Result<Self> {
        whole(reader, |reader| {
            let element_type = reader.read()?;
            let mutable = match reader.read_u8()? {
                0 => false,
                1 => true,
                _ => {
                    let after = reader.original_position();
                    return Err(Error::malformed(Malformed::FieldMutability, after));
                }
            };
            Ok(FieldType {
                element_type,
                mutable,
            })
        })
    }
}

/// A type that a field can store: a value type, or a packed integer.
#[derive(Clone, Copy, Debug, PartialEq, Eq, PartialOrd, Ord, Hash)]
pub enum StorageType {
    /// Integers of 8 bits.
    I8,
    /// Integers of 16 bits.
    I16,
    /// A value type.
    Val(ValType),
}

impl StorageType {
    /// Returns whether the type is packed.
    pub fn is_packed(&self) -> bool {
        !matches!(self, StorageType::Val(_))
    }

    /// Returns the type of the values on the stack.
    pub fn unpack(&self) -> ValType {
        match self {
            StorageType::Val(ty) => *ty,
            StorageType::I8 | StorageType::I16 => ValType::I32,
        }
    }
}

impl fmt::Display for StorageType {
    fn fmt(&self, f: &mut fmt::Formatter<'_>) -> fmt::Result {
        match self {
            StorageType::I8 => f.write_str("i8"),
            StorageType::I16 => f.write_str("i16"),
            StorageType::Val(ty) => ty.fmt(f),
        }
    }
}

impl<'a> FromReader<'a> for StorageType {
    fn from_reader(reader: &mut BinaryReader<'a>) -> Result<Self> {
        let packed = match reader.peek()? {
            0x77 => StorageType::I16,
            0x78 => StorageType::I8,
            _ => return Ok(StorageType::Val(reader.read()?)),
        };
        reader.read_u8()?;
        Ok(packed)
    }
}

/// A continuation type: the index of its function type.
#[derive(Clone, Debug, PartialEq, Eq, PartialOrd, Ord, Hash)]
pub struct ContType(pub PackedIndex);

impl fmt::Display for ContType {
    fn fmt(&self, f: &mut fmt::Formatter<'_>) -> fmt::Result {
        write!(f, "(cont {})", self.0)
    }
}

impl<'a> FromReader<'a> for ContType {
    fn from_reader(reader: &mut BinaryReader<'a>) -> Result<Self> {
        whole(reader, |reader| {
            let number = reader.read_var_s33()?;
            let after = reader.original_position();
            let index = u32::try_from(number)
                .map_err(|_| Error::malformed(Malformed::ContinuationType, after))?;
            Ok(ContType(type_index(index, reader)?))
        })
    }
}
