//! Visitors of operators.

use crate::operator::Operator;
use crate::{for_each_operator, for_each_visit_operator, for_each_visit_simd_operator};

/// Declares the method of each operator.
macro_rules! declare {
    ($(@$proposal:ident $op:ident $({ $($field:ident: $ty:ty),* })? => $visit:ident ($($ann:tt)*))*) => {
        $(#[doc = concat!("Visits `", stringify!($op), "`.")]
        fn $visit(&mut self $($(, $field: $ty)*)?) -> Self::Output;)*
    };
}

/// A visitor with a method for each operator that is not a SIMD operator.
///
/// [`for_each_visit_operator!`](crate::for_each_visit_operator) defines the methods. [`VisitAny`] has one for all operators.
pub trait VisitOperator<'a> {
    /// The type that the methods return.
    type Output: 'a;

    /// Calls the method of this operator with copies of its fields.
    ///
    /// Panics if it is a SIMD operator and [`simd_visitor`](Self::simd_visitor) returns `None`.
    fn visit_operator(&mut self, op: &Operator<'a>) -> Self::Output {
        macro_rules! visit {
            ($(@$proposal:ident $op:ident $({ $($field:ident: $ty:ty),* })? => $visit:ident ($($ann:tt)*))*) => {
                match op {
                    $(Operator::$op $({ $($field),* })? => self.$visit($($($field.clone()),*)?),)*
                    op => visit_simd_operator(self, op),
                }
            };
        }
        for_each_visit_operator!(visit)
    }

    /// Returns the visitor of SIMD operators. If it is `None`, reading a SIMD operator fails.
    ///
    /// ```
    /// use wasm_operators::{VisitOperator, VisitSimdOperator};
    /// use wasm_operators::{for_each_visit_operator, for_each_visit_simd_operator};
    ///
    /// /// Returns how many fields an operator has.
    /// struct Fields;
    ///
    /// macro_rules! count_fields {
    ///     ($(@$proposal:ident $op:ident $({ $($field:ident: $ty:ty),* })? => $visit:ident ($($ann:tt)*))*) => {
    ///         $(fn $visit(&mut self $($(, $field: $ty)*)?) -> usize {
    ///             let fields: &[&str] = &[$($(stringify!($field)),*)?];
    ///             fields.len()
    ///         })*
    ///     };
    /// }
    ///
    /// impl<'a> VisitOperator<'a> for Fields {
    ///     type Output = usize;
    ///
    ///     fn simd_visitor(&mut self) -> Option<&mut dyn VisitSimdOperator<'a, Output = usize>> {
    ///         Some(self)
    ///     }
    ///
    ///     for_each_visit_operator!(count_fields);
    /// }
    ///
    /// impl VisitSimdOperator<'_> for Fields {
    ///     for_each_visit_simd_operator!(count_fields);
    /// }
    /// ```
    fn simd_visitor(&mut self) -> Option<&mut dyn VisitSimdOperator<'a, Output = Self::Output>> {
        None
    }

    for_each_visit_operator!(declare);
}

/// A visitor with a method for each SIMD operator.
pub trait VisitSimdOperator<'a>: VisitOperator<'a> {
    for_each_visit_simd_operator!(declare);
}

/// Calls the method of this SIMD operator.
fn visit_simd_operator<'a, V>(visitor: &mut V, op: &Operator<'a>) -> V::Output
where
    V: VisitOperator<'a> + ?Sized,
{
    let Some(visitor) = visitor.simd_visitor() else {
        panic!("the visitor has no methods for SIMD operators: {op:?}")
    };
    macro_rules! visit {
        ($(@$proposal:ident $op:ident $({ $($field:ident: $ty:ty),* })? => $visit:ident ($($ann:tt)*))*) => {
            match op {
                $(Operator::$op $({ $($field),* })? => visitor.$visit($($($field.clone()),*)?),)*
                op => unreachable!("{op:?} is not a SIMD operator"),
            }
        };
    }
    for_each_visit_simd_operator!(visit)
}

/// Defines each method by `V`'s.
macro_rules! delegate {
    ($(@$proposal:ident $op:ident $({ $($field:ident: $ty:ty),* })? => $visit:ident ($($ann:tt)*))*) => {
        $(
            #[inline]
            fn $visit(&mut self $($(, $field: $ty)*)?) -> Self::Output {
                V::$visit(self, $($($field),*)?)
            }
        )*
    };
}

/// Implements the traits for a pointer to a visitor.
macro_rules! implement_for {
    ($pointer:ty) => {
        impl<'a, V: VisitOperator<'a> + ?Sized> VisitOperator<'a> for $pointer {
            type Output = V::Output;

            fn visit_operator(&mut self, op: &Operator<'a>) -> V::Output {
                V::visit_operator(self, op)
            }

            fn simd_visitor(
                &mut self,
            ) -> Option<&mut dyn VisitSimdOperator<'a, Output = V::Output>> {
                V::simd_visitor(self)
            }

            for_each_visit_operator!(delegate);
        }

        impl<'a, V: VisitSimdOperator<'a> + ?Sized> VisitSimdOperator<'a> for $pointer {
            for_each_visit_simd_operator!(delegate);
        }
    };
}

implement_for!(&mut V);
implement_for!(Box<V>);

/// A visitor with one method for all operators, which wasmparser does not have. [`EachVisit`] makes it a [`VisitOperator`].
///
/// To pass an operator on to a [`VisitOperator`], call its [`visit_operator`](VisitOperator::visit_operator): it calls the
/// operator's method. `visit_any` of a type that has both traits does not.
///
/// ```
/// use wasm_operators::{BinaryReader, EachVisit, Operator, OperatorsReader, VisitAny};
///
/// /// Counts the operators.
/// struct Count(usize);
///
/// impl<'a> VisitAny<'a> for Count {
///     type Output = ();
///
///     fn visit_any(&mut self, _op: Operator<'a>) {
///         self.0 += 1;
///     }
/// }
///
/// let mut visitor = EachVisit(Count(0));
/// let mut operators = OperatorsReader::new(BinaryReader::new(&[0x01, 0x0b], 0));
/// while !operators.eof() {
///     operators.visit_operator(&mut visitor)?;
/// }
/// assert_eq!(visitor.0.0, 2);
/// # Ok::<(), wasm_operators::Error>(())
/// ```
pub trait VisitAny<'a> {
    /// The type that the method returns.
    type Output: 'a;

    /// Visits an operator.
    fn visit_any(&mut self, op: Operator<'a>) -> Self::Output;
}

/// A visitor whose methods call [`VisitAny::visit_any`].
#[derive(Clone, Copy, Debug, Default, PartialEq, Eq, Hash)]
pub struct EachVisit<V>(pub V);

/// Defines each method by `visit_any`.
macro_rules! visit_any {
    ($(@$proposal:ident $op:ident $({ $($field:ident: $ty:ty),* })? => $visit:ident ($($ann:tt)*))*) => {
        $(
            #[inline]
            fn $visit(&mut self $($(, $field: $ty)*)?) -> V::Output {
                self.0.visit_any(Operator::$op $({ $($field),* })?)
            }
        )*
    };
}

impl<'a, V: VisitAny<'a>> VisitOperator<'a> for EachVisit<V> {
    type Output = V::Output;

    fn simd_visitor(&mut self) -> Option<&mut dyn VisitSimdOperator<'a, Output = V::Output>> {
        Some(self)
    }

    for_each_visit_operator!(visit_any);
}

impl<'a, V: VisitAny<'a>> VisitSimdOperator<'a> for EachVisit<V> {
    for_each_visit_simd_operator!(visit_any);
}

impl Operator<'_> {
    /// Returns the name of the variant.
    pub fn name(&self) -> &'static str {
        macro_rules! name {
            ($(@$proposal:ident $op:ident $({ $($field:ident: $ty:ty),* })? => $visit:ident ($($ann:tt)*))*) => {
                match self {
                    $(Operator::$op $({ $($field: _),* })? => stringify!($op),)*
                }
            };
        }
        for_each_operator!(name)
    }
}
