//! Stands in for the crate `num_lazy`: the constants' macros that the crate's files use.
//! `pi!` is 400921FB54442D18 and `pi_2!` is 3FF921FB54442D18, as document 01 says (tested in doc01/src/ruled.rs).

#[macro_export]
macro_rules! declare_nums {
    (@constant $t:ident) => {
        #[allow(unused_macros)]
        macro_rules! pi {
            () => {
                $t::from(core::f64::consts::PI).unwrap()
            };
        }
        #[allow(unused_macros)]
        macro_rules! pi_2 {
            () => {
                $t::from(core::f64::consts::FRAC_PI_2).unwrap()
            };
        }
    };
    (@special $t:ident) => {
        #[allow(unused_macros)]
        macro_rules! epsilon {
            () => {
                $t::epsilon()
            };
        }
        #[allow(unused_macros)]
        macro_rules! inf {
            () => {
                $t::infinity()
            };
        }
        #[allow(unused_macros)]
        macro_rules! nan {
            () => {
                $t::nan()
            };
        }
    };
}
