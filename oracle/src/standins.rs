//! Stand-ins for the helpers that sched.rs and receiver.rs use and whose files are not at hand. Each
//! says which of their words force its meaning. 64-bit machines only.

pub mod convert {
    /// The lengths that `into_type::<u128>()` gives are summed and the sum is tested against the
    /// greatest length: so it is `Into` with the type named, and keeps the number.
    pub trait IntoTypeExt {
        fn into_type<T>(self) -> T
        where
            Self: Into<T>,
        {
            self.into()
        }
    }
    impl<T> IntoTypeExt for T {}
}

pub mod functional {
    /// `self.copy().mutating(|v| ..).ok()` is the advanced scheduler, and `v` lends out its counter
    /// to be changed: so it hands back the value after the closure has changed it.
    pub trait MutatingExt: Sized {
        fn mutating<F: FnOnce(&mut Self)>(mut self, change: F) -> Self {
            change(&mut self);
            self
        }
    }
    impl<T> MutatingExt for T {}

    /// receiver.rs applies a function of failures to the result of a receive and goes on with what
    /// comes out: so it is the function's answer.
    pub trait ApplyExt: Sized {
        fn apply<R>(self, function: impl FnOnce(Self) -> R) -> R {
            function(self)
        }
    }
    impl<T> ApplyExt for T {}

    /// receiver.rs uses the `?` of a closure and then the closure's result: so it calls it at once.
    pub fn run<R>(closure: impl FnOnce() -> R) -> R {
        closure()
    }
}

pub mod mem {
    /// `self.copy()` on a `&self` is handed on as the scheduler by value: so it is a plain copy.
    pub trait CopyExt: Copy {
        fn copy(&self) -> Self {
            *self
        }
    }
    impl<T: Copy> CopyExt for T {}

    /// On the lent counter, the closure takes the number before (it stands in one array with
    /// `len: u64`) and answers one of the same type, used nowhere else: so it is stored back.
    pub trait MutateRefExt: Copy {
        fn mutate<F: FnOnce(Self) -> Self>(&mut self, change: F) {
            *self = change(*self);
        }
    }
    impl<T: Copy> MutateRefExt for T {}

    /// receiver.rs goes on with its own answer behind it, whatever the result was: so it drops it.
    pub trait DiscardResultExt: Sized {
        fn discard_result(self) {}
    }
    impl<T, E> DiscardResultExt for Result<T, E> {}
}

pub mod result {
    /// `.ok()` on a scheduler is the answer of a function to a `Result` of schedulers: so it is `Ok`.
    pub trait OkExt: Sized {
        fn ok<E>(self) -> Result<Self, E> {
            Ok(self)
        }
    }
    impl<T> OkExt for T {}
}

pub mod u64uint {
    /// The comments of sched.rs: the greatest length that both u64 and usize hold; 64 bits here.
    pub const MAX_U64_IN_USIZE: u64 = u64::MAX;

    /// A length that both u64 and usize hold: `u64()` reads it, `new_or_panic` makes it, the
    /// default is that of a length, and it is printed, copied and compared by derives that need it.
    #[derive(Debug, Clone, Copy, PartialEq, Eq, Default)]
    pub struct U64USize(u64);

    impl U64USize {
        pub fn u64(self) -> u64 {
            self.0
        }

        /// Always given a u64, and on 64 bits each of them fits: so it never panics here.
        pub fn new_or_panic(value: u64) -> Self {
            Self(value)
        }
    }

    /// `into_type::<u128>()` needs it.
    impl From<U64USize> for u128 {
        fn from(value: U64USize) -> u128 {
            value.0.into()
        }
    }

    /// The sum of a list's lengths is turned into a length by `try_into`, with the error below.
    impl TryFrom<u128> for U64USize {
        type Error = U64USizeConversionError<u128>;

        fn try_from(value: u128) -> Result<Self, Self::Error> {
            u64::try_from(value)
                .map(Self)
                .map_err(|_| U64USizeConversionError(value))
        }
    }

    /// `cumul_off + op.len` "can not panic" on a checked list: so it is the plain sum, and this one
    /// panics on overflow.
    impl std::ops::Add for U64USize {
        type Output = Self;

        fn add(self, other: Self) -> Self {
            Self(self.0.checked_add(other.0).expect("length overflow"))
        }
    }

    /// `#[from]` takes it as the source of an error, printed by `{:?}`; its parameter is the type
    /// that was converted: so it holds the number that did not fit.
    #[derive(Debug, thiserror::Error)]
    #[error("{0:?} is no length")]
    pub struct U64USizeConversionError<T: std::fmt::Debug>(pub T);

    /// sched.rs gives it a length and a u64, "passing arbitrarily large" ones "is valid": so it cuts
    /// a number down to the greatest length, and on 64 bits changes none.
    pub trait TruncateIntoU64USize {
        fn truncate_to_u64usize(self) -> U64USize;
    }

    impl TruncateIntoU64USize for U64USize {
        fn truncate_to_u64usize(self) -> U64USize {
            self
        }
    }

    impl TruncateIntoU64USize for u64 {
        fn truncate_to_u64usize(self) -> U64USize {
            U64USize(self)
        }
    }
}
