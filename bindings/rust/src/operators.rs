use std::ops::{BitAnd, BitAndAssign, BitOr, BitOrAssign, BitXor, BitXorAssign, Not};

use crate::Tables;

/// An operator of two tables, by value and by reference, and the one that assigns its result.
macro_rules! operator {
    ($operator:ident, $apply:ident, $assigner:ident, $assign:ident) => {
        impl $assigner<&Tables> for Tables {
            /// # Panics
            /// If the numbers of inputs or outputs differ.
            #[track_caller]
            fn $assign(&mut self, other: &Tables) {
                if let Err(refused) = self.assign_combined(other, u64::$apply) {
                    panic!("{refused}");
                }
            }
        }

        impl $assigner for Tables {
            /// # Panics
            /// If the numbers of inputs or outputs differ.
            #[track_caller]
            fn $assign(&mut self, other: Tables) {
                self.$assign(&other);
            }
        }

        impl $operator<&Tables> for Tables {
            type Output = Tables;

            /// # Panics
            /// If the numbers of inputs or outputs differ.
            #[track_caller]
            fn $apply(mut self, other: &Tables) -> Tables {
                self.$assign(other);
                self
            }
        }

        impl $operator for Tables {
            type Output = Tables;

            /// # Panics
            /// If the numbers of inputs or outputs differ.
            #[track_caller]
            fn $apply(self, other: Tables) -> Tables {
                self.$apply(&other)
            }
        }

        impl $operator for &Tables {
            type Output = Tables;

            /// # Panics
            /// If the numbers of inputs or outputs differ.
            #[track_caller]
            fn $apply(self, other: &Tables) -> Tables {
                self.clone().$apply(other)
            }
        }

        impl $operator<Tables> for &Tables {
            type Output = Tables;

            /// # Panics
            /// If the numbers of inputs or outputs differ.
            #[track_caller]
            fn $apply(self, other: Tables) -> Tables {
                self.clone().$apply(&other)
            }
        }
    };
}

operator!(BitAnd, bitand, BitAndAssign, bitand_assign);
operator!(BitOr, bitor, BitOrAssign, bitor_assign);
operator!(BitXor, bitxor, BitXorAssign, bitxor_assign);

impl Not for Tables {
    type Output = Self;

    fn not(mut self) -> Self {
        self.complement();
        self
    }
}

impl Not for &Tables {
    type Output = Tables;

    fn not(self) -> Tables {
        !self.clone()
    }
}
