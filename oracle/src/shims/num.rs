//! Stands for the crate `num`: its trait `ToPrimitive`.
//!
//! Leans on it: `decoder/complex.rs`, which takes a group's reference, width and length (all `u32`) through it, and
//! `decoder/complex/missing.rs`, which implements it for a point. `decoder/simple.rs` asks it for floats in the step
//! to physical values, which is outside document 01 and which no door takes: that is a panic here.

pub trait ToPrimitive {
    fn to_i64(&self) -> Option<i64>;

    fn to_u64(&self) -> Option<u64>;

    fn to_u32(&self) -> Option<u32> {
        self.to_u64()?.try_into().ok()
    }

    fn to_usize(&self) -> Option<usize> {
        self.to_u64()?.try_into().ok()
    }

    fn to_f32(&self) -> Option<f32> {
        unimplemented!("the step to physical values")
    }

    fn to_f64(&self) -> Option<f64> {
        unimplemented!("the step to physical values")
    }
}

macro_rules! integers {
    ($($kind:ty),*) => {$(
        impl ToPrimitive for $kind {
            fn to_i64(&self) -> Option<i64> {
                i64::try_from(*self).ok()
            }

            fn to_u64(&self) -> Option<u64> {
                u64::try_from(*self).ok()
            }
        }
    )*};
}

integers!(u32, i32, i64);
