//! Stands for `def/grib2/template1.rs`, `template3.rs` and `template4.rs`: the names of their templates.
//!
//! Leans on it: the enums of `def/grib2.rs` that list the templates of Sections 1, 3 and 4. They have to compile, and
//! nothing else is done with them.

macro_rules! named {
    ($($name:ident)*) => {$(
        #[derive(Debug, PartialEq, Clone)]
        pub struct $name;
    )*};
}

pub mod template1 {
    named!(Template1_0 Template1_1 Template1_2);
}

pub mod template3 {
    named!(Template3_0 Template3_1 Template3_2 Template3_3 Template3_10 Template3_20 Template3_30);
    named!(Template3_40 Template3_41 Template3_42 Template3_43 Template3_101);
    pub mod param_set {}
}

pub mod template4 {
    named!(Template4_0 Template4_1 Template4_2 Template4_5 Template4_6 Template4_8 Template4_9);
    named!(Template4_10 Template4_11 Template4_12);
    pub mod param_set {}
}
