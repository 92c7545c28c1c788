//! Stand-ins for the crates `itertools` and `rustc_data_structures`: what the source uses of them.

pub mod itertools {
    pub trait Itertools: Iterator {
        fn collect_vec(self) -> Vec<Self::Item>
        where
            Self: Sized,
        {
            self.collect()
        }

        /// The first error ends it, and nothing behind is asked for.
        fn try_collect<T, C, E>(self) -> Result<C, E>
        where
            Self: Sized + Iterator<Item = Result<T, E>>,
            C: FromIterator<T>,
        {
            self.collect()
        }
    }

    impl<I: Iterator> Itertools for I {}
}

pub mod rustc_data_structures {
    pub mod fx {
        pub use crate::index_map::{FxIndexMap, FxIndexSet};
    }
}
