//! Door to `decoder/simple.rs`: what its decoder would turn into physical values, taken out before that step.

use super::{NonZeroSimplePackingDecoder, SimplePackingDecoder};

pub(crate) fn before_floats<I>(decoder: SimplePackingDecoder<I>) -> I {
    match decoder {
        SimplePackingDecoder::NonZeroLength(NonZeroSimplePackingDecoder { iter, .. }) => iter,
        SimplePackingDecoder::ZeroLength(_) => unreachable!("complex packing never makes this one"),
    }
}
