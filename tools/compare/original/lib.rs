//! The original Rust as a crate of its own. build.sh lays this file beside copies of the original's files, in target/ alone; what they need of the
//! modules that are left out stands here. Built twice: with our exp, tanh and ReLU (`ours`), and with its own.
#![allow(dead_code)]

pub mod error {
    #[derive(Debug)]
    pub enum Error {
        UnsupportedActivation(String),
        UnsupportedFeature(String),
    }
}

pub mod model {
    include!("gating_mode.rs");

    /// Only `Activation::from_spec` reads it, which is left out.
    pub enum ActivationSpec {
        Named { name: String, negative_slope: Option<f32> },
        Unsupported(String),
    }
}

/// What the patched activation.rs calls in place of its tanh, exp and max.
pub mod ours {
    extern "C" {
        fn wavenet_exp(x: f32) -> f32;
        fn wavenet_tanh(x: f32) -> f32;
    }
    #[inline]
    pub fn exp(x: f32) -> f32 {
        // Safety: a number in, a number out
        unsafe { wavenet_exp(x) }
    }
    #[inline]
    pub fn tanh(x: f32) -> f32 {
        // Safety: a number in, a number out
        unsafe { wavenet_tanh(x) }
    }
    /// x above 0 is kept, all else gives +0: `max` leaves the zero's sign open.
    #[inline]
    pub fn relu(x: f32) -> f32 {
        if x > 0.0 {
            x
        } else {
            0.0
        }
    }
}

mod wavenet {
    pub mod activation;
    pub mod array;
    pub mod bridge;
    pub mod conv;
    pub mod film;
    pub mod gating;
    pub mod layer;
}

pub use wavenet::bridge::Original;
