//! How many operands an operator takes and leaves. Numbers that do not depend on the module are in `for_each_operator!`.

use crate::frames::FrameKind;
use crate::operator::Operator;
use crate::{
    BlockType, CompositeInnerType, ContType, FuncType, MemArg, MemArgTarget, RefType, SubType,
    for_each_operator,
};

/// What arities depend on: the types of a module, and the open frames. A pair is the numbers of parameters and results.
pub trait ModuleArity {
    /// Returns the type with this index.
    fn sub_type_at(&self, type_idx: u32) -> Option<&SubType>;

    /// Returns the arity of the tag with this index.
    fn tag_type_arity(&self, at: u32) -> Option<(u32, u32)>;

    /// Returns the index of a function's type.
    fn type_index_of_function(&self, function_idx: u32) -> Option<u32>;

    /// Returns the function type of a continuation type.
    fn func_type_of_cont_type(&self, c: &ContType) -> Option<&FuncType>;

    /// Returns the type that a reference type refers to.
    fn sub_type_of_ref_type(&self, rt: &RefType) -> Option<&SubType>;

    /// Returns the number of open frames.
    fn control_stack_height(&self) -> u32;

    /// Returns the block type and kind of the frame at this depth; the innermost has 0.
    fn label_block(&self, depth: u32) -> Option<(BlockType, FrameKind)>;

    /// Returns the arity of a function type or continuation type, or twice the number of fields of a struct type.
    fn sub_type_arity(&self, t: &SubType) -> Option<(u32, u32)> {
        match &t.composite_type.inner {
            CompositeInnerType::Func(ty) => function_arity(ty),
            CompositeInnerType::Cont(ty) => function_arity(self.func_type_of_cont_type(ty)?),
            CompositeInnerType::Struct(ty) => {
                let count = u32::try_from(ty.fields.len()).ok()?;
                Some((count, count))
            }
            CompositeInnerType::Array(_) => None,
        }
    }

    /// Returns the arity of a block type.
    fn block_type_arity(&self, ty: BlockType) -> Option<(u32, u32)> {
        match ty {
            BlockType::Empty => Some((0, 0)),
            BlockType::Type(_) => Some((0, 1)),
            BlockType::FuncType(index) => self.sub_type_arity(self.sub_type_at(index)?),
        }
    }
}

/// Returns the numbers of parameters and results.
fn function_arity(ty: &FuncType) -> Arity {
    let parameters = u32::try_from(ty.params().len()).ok()?;
    Some((parameters, u32::try_from(ty.results().len()).ok()?))
}

/// The numbers of operands and results.
type Arity = Option<(u32, u32)>;

/// Returns the number of arrays that an access takes.
fn arrays(memarg: &MemArg) -> u32 {
    match memarg.target {
        MemArgTarget::Memory(_) => 0,
        MemArgTarget::Array(_) => 1,
    }
}

/// Adds an operand.
fn one_more(arity: Arity) -> Arity {
    let (takes, leaves) = arity?;
    Some((takes.checked_add(1)?, leaves))
}

/// Removes the results.
fn leaving(arity: Arity) -> Arity {
    let (takes, _) = arity?;
    Some((takes, 0))
}

/// Finds arities by what a module returns.
struct Rules<'m, M>(&'m M);

impl<M: ModuleArity> Rules<'_, M> {
    fn block(&self, ty: BlockType) -> Arity {
        self.0.block_type_arity(ty)
    }

    /// Returns the arity of the type with this index.
    fn ty(&self, index: u32) -> Arity {
        self.0.sub_type_arity(self.0.sub_type_at(index)?)
    }

    /// Returns the arity of a frame's block.
    fn frame(&self, depth: u32) -> Arity {
        let (ty, _) = self.0.label_block(depth)?;
        self.block(ty)
    }

    /// Returns how many values a branch carries.
    fn label(&self, depth: u32) -> Option<u32> {
        let (ty, kind) = self.0.label_block(depth)?;
        let (parameters, results) = self.block(ty)?;
        Some(if kind == FrameKind::Loop {
            parameters
        } else {
            results
        })
    }

    fn function(&self, index: u32) -> Arity {
        self.ty(self.0.type_index_of_function(index)?)
    }

    /// Returns the arity of an operator that opens a block.
    fn entry(&self, ty: BlockType) -> Arity {
        let (parameters, _) = self.block(ty)?;
        Some((parameters, parameters))
    }

    fn catch(&self, tag: u32) -> Arity {
        let (_, results) = self.frame(0)?;
        let (parameters, _) = self.0.tag_type_arity(tag)?;
        Some((results, parameters))
    }

    /// Returns the arity of an operator that keeps a frame's results.
    fn results(&self, depth: u32) -> Arity {
        let (_, results) = self.frame(depth)?;
        Some((results, results))
    }

    fn outermost(&self) -> Arity {
        let height = self.0.control_stack_height();
        self.results(height.checked_sub(1)?)
    }

    /// Returns the arity of a branch that may not be taken.
    fn branch(&self, depth: u32) -> Arity {
        let carried = self.label(depth)?;
        Some((carried, carried))
    }

    fn branch_on_null(&self, depth: u32) -> Arity {
        let carried = self.label(depth)?.checked_add(1)?;
        Some((carried, carried))
    }

    fn branch_on_non_null(&self, depth: u32) -> Arity {
        let carried = self.label(depth)?;
        Some((carried, carried.checked_sub(1)?))
    }

    fn type_call(&self, index: u32) -> Arity {
        one_more(self.ty(index))
    }

    fn bind(&self, from: u32, to: u32) -> Arity {
        let (parameters, _) = self.ty(from)?;
        let (later, _) = self.ty(to)?;
        one_more(Some((parameters.checked_sub(later)?, 1)))
    }

    fn resume_throw(&self, index: u32, tag: u32) -> Arity {
        let (parameters, _) = self.0.tag_type_arity(tag)?;
        let (_, results) = self.ty(index)?;
        one_more(Some((parameters, results)))
    }

    fn resume_throw_ref(&self, index: u32) -> Arity {
        let (_, results) = self.ty(index)?;
        Some((2, results))
    }

    fn switch(&self, index: u32) -> Arity {
        let (parameters, _) = self.ty(index)?;
        let CompositeInnerType::Cont(ty) = &self.0.sub_type_at(index)?.composite_type.inner else {
            return None;
        };
        let last = self.0.func_type_of_cont_type(ty)?.params().last()?;
        let next = self.0.sub_type_of_ref_type(&last.as_reference_type()?)?;
        let (returned, _) = self.0.sub_type_arity(next)?;
        Some((parameters, returned))
    }

    fn create_struct(&self, index: u32) -> Arity {
        let (fields, _) = self.ty(index)?;
        Some((fields, 1))
    }

    /// Returns the arity of an operator of blocks or branches.
    fn control(&self, op: &Operator<'_>) -> Arity {
        match op {
            Operator::Block { blockty }
            | Operator::Loop { blockty }
            | Operator::Try { blockty } => self.entry(*blockty),
            Operator::TryTable { try_table } => self.entry(try_table.ty),
            Operator::If { blockty } => one_more(self.entry(*blockty)),
            Operator::Else => {
                let (parameters, results) = self.frame(0)?;
                Some((results, parameters))
            }
            Operator::Catch { tag_index } => self.catch(*tag_index),
            Operator::CatchAll => leaving(self.results(0)),
            Operator::End | Operator::Delegate { .. } => self.results(0),
            Operator::Return => leaving(self.outermost()),
            Operator::Br { relative_depth } => leaving(self.branch(*relative_depth)),
            Operator::BrIf { relative_depth } => one_more(self.branch(*relative_depth)),
            Operator::BrTable { targets } => leaving(one_more(self.branch(targets.default()))),
            Operator::BrOnNull { relative_depth } => self.branch_on_null(*relative_depth),
            Operator::BrOnNonNull { relative_depth } => self.branch_on_non_null(*relative_depth),
            Operator::BrOnCast { relative_depth, .. }
            | Operator::BrOnCastFail { relative_depth, .. } => self.branch(*relative_depth),
            Operator::BrOnCastDescEq { relative_depth, .. }
            | Operator::BrOnCastDescEqFail { relative_depth, .. } => {
                one_more(self.branch(*relative_depth))
            }
            _ => self.other(op),
        }
    }

    /// Returns the arity of an operator that `control` does not list.
    fn other(&self, op: &Operator<'_>) -> Arity {
        match op {
            Operator::Throw { tag_index } => leaving(self.0.tag_type_arity(*tag_index)),
            Operator::Call { function_index } => self.function(*function_index),
            Operator::ReturnCall { function_index } => leaving(self.function(*function_index)),
            Operator::CallIndirect { type_index, .. } | Operator::CallRef { type_index } => {
                self.type_call(*type_index)
            }
            Operator::ReturnCallIndirect { type_index, .. }
            | Operator::ReturnCallRef { type_index } => leaving(self.type_call(*type_index)),
            Operator::TypedSelectMulti { tys } => {
                let count = u32::try_from(tys.len()).ok()?;
                one_more(Some((count.checked_mul(2)?, count)))
            }
            Operator::ContBind {
                argument_index,
                result_index,
            } => self.bind(*argument_index, *result_index),
            Operator::Suspend { tag_index } => self.0.tag_type_arity(*tag_index),
            Operator::Resume {
                cont_type_index, ..
            } => one_more(self.ty(*cont_type_index)),
            Operator::ResumeThrow {
                cont_type_index,
                tag_index,
                ..
            } => self.resume_throw(*cont_type_index, *tag_index),
            Operator::ResumeThrowRef {
                cont_type_index, ..
            } => self.resume_throw_ref(*cont_type_index),
            Operator::Switch {
                cont_type_index, ..
            } => self.switch(*cont_type_index),
            Operator::StructNew { struct_type_index } => self.create_struct(*struct_type_index),
            Operator::StructNewDesc { struct_type_index } => {
                one_more(self.create_struct(*struct_type_index))
            }
            Operator::ArrayNewFixed { array_size, .. } => Some((*array_size, 1)),
            _ => unreachable!("the arity of {op:?} does not depend on the module"),
        }
    }
}

/// Returns the arity of an operator by its entry of `for_each_operator!`.
macro_rules! arity_of {
    (@$rules:ident $op:ident (arity custom) $($field:ident)*) => {
        $rules.control($op)
    };
    (@$rules:ident $op:ident (arity memarg $takes:literal -> $leaves:literal) $memarg:ident $($field:ident)*) => {
        Some(($takes + arrays($memarg), $leaves))
    };
    (@$rules:ident $op:ident (arity $takes:literal -> $leaves:literal) $($field:ident)*) => {
        Some(($takes, $leaves))
    };
}

impl Operator<'_> {
    /// Returns how many operands the operator takes and leaves.
    ///
    /// Returns `None` if the module lacks what the operator names, or if a number exceeds 32 bits.
    #[allow(unused_variables)] // most arities do not depend on the fields
    pub fn operator_arity(&self, module: &impl ModuleArity) -> Option<(u32, u32)> {
        let (rules, op) = (Rules(module), self);
        macro_rules! arities {
            ($(@$proposal:ident $name:ident $({ $($field:ident: $ty:ty),* })? => $visit:ident $arity:tt)*) => {
                match op {
                    $(Operator::$name $({ $($field),* })? => arity_of!(@rules op $arity $($($field)*)?),)*
                }
            };
        }
        for_each_operator!(arities)
    }
}
